/* Bytes without a copy: written and emitted at once, and payload that is taken from where it came. Each frame is written
 * out by hand, as the standard has it. */
#include "check.h"

/* A client whose stream 1 is open, and has nothing due. */
static ymx_session *opened(void) {
    ymx_session *s;
    unsigned char out[12];
    CHECK(ymx_new(YMX_CLIENT, YMX_LEAST_WINDOW, 0, &s) == 0 && ymx_open(s) == 1 && ymx_emit(s, out, 12) == 12);
    return s;
}

static void writes_through(void) {
    static unsigned char long_bytes[16385], out[16400];
    ymx_session *s = opened();
    memset(out, 9, sizeof out);
    CHECK(ymx_write_through(s, 1, "hello", 5, out, 20) == 17);
    CHECK(memcmp(out, "\0\0\0\0\0\0\0\1\0\0\0\5hello\11\11\11", 20) == 0);
    CHECK(ymx_due(s) == 0 && ymx_unsent(s, 1) == 0 && ymx_room(s, 1) == 262139);
    memset(out, 9, sizeof out);
    /* no bytes, no such stream, no room for the frame, too many bytes for one */
    CHECK(ymx_write_through(s, 1, "hello", 0, out, 20) == 0 && ymx_write_through(s, 3, "hello", 5, out, 20) == 0);
    CHECK(ymx_write_through(s, 1, "hello", 5, out, 16) == 0 && ymx_write_through(s, 1, "hello", 5, NULL, 0) == 0);
    CHECK(ymx_write_through(s, 1, long_bytes, 16385, out, 16400) == 0);
    CHECK(out[0] == 9 && ymx_room(s, 1) == 262139);
    CHECK(ymx_write_through(s, 1, long_bytes, 16384, out, 16396) == 16396 && ymx_room(s, 1) == 245755);
    /* something else is due: the ping */
    CHECK(ymx_ping(s) == 0 && ymx_write_through(s, 1, "hello", 5, out, 20) == 0 && ymx_emit(s, out, 12) == 12);
    CHECK(ymx_write_through(s, 1, "hello", 5, out, 17) == 17 && ymx_finish(s, 1) == 0);
    CHECK(ymx_emit(s, out, 12) == 12 && ymx_write_through(s, 1, "hello", 5, out, 17) == 0);
    /* NULL */
    CHECK(ymx_write_through(NULL, 1, "x", 1, out, 20) == YMX_E_NULL && ymx_write_through(s, 1, NULL, 1, out, 20) == YMX_E_NULL);
    CHECK(ymx_write_through(s, 1, "x", 1, NULL, 20) == YMX_E_NULL && ymx_write_through(s, 1, NULL, 0, NULL, 0) == 0);
    ymx_free(s);
}

static void passes(void) {
    /* five bytes of stream 1, and a ping with the value 7 */
    static const char came[] = "\0\0\0\0\0\0\0\1\0\0\0\5world\0\2\0\1\0\0\0\0\0\0\0\7";
    ymx_session *s = opened();
    ymx_touched *touched;
    uint32_t id = 5;
    unsigned char out[16];
    CHECK(ymx_touched_new(&touched) == 0 && ymx_passing(s, &id) == 0 && id == 0 && ymx_pass(s, "x", 1) == 0);
    CHECK(ymx_feed_to_payload(s, came, 29, touched) == 12 && ymx_passing(s, &id) == 5 && id == 1);
    CHECK(ymx_feed_to_payload(s, came + 12, 17, touched) == 0);
    CHECK(ymx_pass(s, came + 12, 0) == 0 && ymx_pass(s, came + 12, 3) == 3 && ymx_passing(s, &id) == 2 && id == 1);
    CHECK(ymx_pass(s, came + 15, 14) == 2 && ymx_passing(s, &id) == 0 && ymx_pass(s, came + 17, 12) == 0);
    CHECK(ymx_read(s, 1, out, 16) == YMX_WAIT && ymx_touched_ids(touched, &id, 1) == 1 && id == 1);
    CHECK(ymx_feed_to_payload(s, came + 17, 12, touched) == 12 && ymx_emit(s, out, 16) == 12);
    CHECK(memcmp(out, "\0\2\0\2\0\0\0\0\0\0\0\7", 12) == 0);
    /* payload that is fed as ever: what comes after it can't be passed on before it is read */
    CHECK(ymx_feed_to_payload(s, came, 17, touched) == 12 && ymx_feed_touching(s, came + 12, 1, touched) == 1);
    CHECK(ymx_passing(s, &id) == 0 && ymx_pass(s, came + 13, 4) == 0 && ymx_feed_to_payload(s, came + 13, 4, touched) == 4);
    CHECK(ymx_read(s, 1, out, 16) == 5 && memcmp(out, "world", 5) == 0);
    /* one byte and the end */
    CHECK(ymx_feed_to_payload(s, "\0\0\0\4\0\0\0\1\0\0\0\1!", 13, touched) == 12 && ymx_is_at_end(s, 1) == 0);
    CHECK(ymx_pass(s, "!", 1) == 1 && ymx_is_at_end(s, 1) == 1 && ymx_has_ended(s, 1) == 1);
    /* NULL */
    CHECK(ymx_passing(s, NULL) == YMX_E_NULL && ymx_passing(NULL, &id) == YMX_E_NULL && id == 0);
    CHECK(ymx_pass(NULL, "x", 1) == YMX_E_NULL && ymx_pass(s, NULL, 1) == YMX_E_NULL && ymx_pass(s, NULL, 0) == 0);
    CHECK(ymx_feed_to_payload(NULL, came, 12, touched) == YMX_E_NULL && ymx_feed_to_payload(s, NULL, 1, touched) == YMX_E_NULL);
    CHECK(ymx_feed_to_payload(s, came, 12, NULL) == YMX_E_NULL && ymx_feed_to_payload(s, NULL, 0, touched) == 0);
    ymx_touched_free(touched);
    ymx_free(s);
}

/* Half a window that was passed on is given back as credit; and payload of a released stream is dropped. */
static void gives_credit(void) {
    static unsigned char half[131072];
    ymx_session *s = opened();
    ymx_touched *touched;
    uint32_t id;
    unsigned char out[24];
    CHECK(ymx_touched_new(&touched) == 0 && ymx_feed_to_payload(s, "\0\0\0\0\0\0\0\1\0\2\0\0", 12, touched) == 12);
    CHECK(ymx_pass(s, half, 131071) == 131071 && ymx_due(s) == 0 && ymx_pass(s, half, 1) == 1 && ymx_due(s) == 1);
    CHECK(ymx_emit(s, out, 24) == 12 && memcmp(out, "\0\1\0\0\0\0\0\1\0\2\0\0", 12) == 0);
    CHECK(ymx_feed_to_payload(s, "\0\0\0\0\0\0\0\1\0\0\0\5", 12, touched) == 12 && ymx_passing(s, &id) == 5);
    CHECK(ymx_release(s, 1) == 0 && ymx_passing(s, &id) == 0 && id == 0 && ymx_pass(s, half, 5) == 0);
    CHECK(ymx_feed_to_payload(s, half, 3, touched) == 3 && ymx_feed_to_payload(s, half, 2, touched) == 2);
    CHECK(ymx_emit(s, out, 24) == 12 && memcmp(out, "\0\1\0\4\0\0\0\1\0\0\0\0", 12) == 0 && ymx_due(s) == 0);
    ymx_touched_free(touched);
    ymx_free(s);
}

/* Bytes that one session lends go through another one. */
static void lends(void) {
    ymx_session *from = opened(), *to = opened();
    const void *bytes;
    unsigned char out[17];
    CHECK(ymx_feed(from, "\0\0\0\0\0\0\0\1\0\0\0\5hello", 17) == 17 && ymx_unread(from, 1, &bytes) == 5);
    CHECK(ymx_write_through(to, 1, bytes, 5, out, 17) == 17 && memcmp(out, "\0\0\0\0\0\0\0\1\0\0\0\5hello", 17) == 0);
    CHECK(ymx_consume(from, 1, 5) == 0 && ymx_unread(from, 1, &bytes) == 0);
    ymx_free(from);
    ymx_free(to);
}

/* The end of a released stream comes with bytes that are dropped, of which no note tells: its place is free again. */
static void ends_behind_a_note(void) {
    unsigned char out[24];
    ymx_session *s;
    ymx_touched *touched;
    CHECK(ymx_new(YMX_CLIENT, YMX_LEAST_WINDOW, 0, &s) == 0 && ymx_touched_new(&touched) == 0);
    for (uint32_t id = 1; id < 2 * YMX_MOST_STREAMS + 2; id += 2) {
        unsigned char came[] = {0, 0, 0, 6, 0, 0, (unsigned char)(id >> 8), (unsigned char)id, 0, 0, 0, 2, 'h', 'i'};
        CHECK(ymx_open(s) == id && ymx_release(s, id) == 0);
        while (ymx_due(s) == 1) CHECK(ymx_emit(s, out, 24) > 0);
        CHECK(ymx_feed_to_payload(s, came, 13, touched) == 13);
        ymx_touched_clear(touched);
        CHECK(ymx_feed_to_payload(s, came + 13, 1, touched) == 1);
    }
    ymx_touched_free(touched);
    ymx_free(s);
}

int main(void) {
    writes_through();
    passes();
    gives_credit();
    lends();
    ends_behind_a_note();
    return 0;
}
