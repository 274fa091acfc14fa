/* What a session is asked of its streams, and streams that are released. Each frame is written out by hand, as the
 * standard has it. */
#include "check.h"

enum { DATA = 0, WINDOW = 1, PING = 2 };
enum { SYN = 1, ACK = 2, FIN = 4, RST = 8 };

/* The header of a frame. */
static unsigned char *header(unsigned type, unsigned flags, uint32_t id, uint32_t length) {
    static unsigned char bytes[12];
    unsigned char made[12] = {0, 0, 0, 0, 0, 0, 0, 0, 0, 0, 0, 0};
    made[1] = (unsigned char)type;
    made[3] = (unsigned char)flags;
    for (int i = 0; i < 4; i++) {
        made[4 + i] = (unsigned char)(id >> (24 - 8 * i));
        made[8 + i] = (unsigned char)(length >> (24 - 8 * i));
    }
    memcpy(bytes, made, 12);
    return bytes;
}

/* The peer sends this header. */
static void comes(ymx_session *s, unsigned type, unsigned flags, uint32_t id, uint32_t length) {
    CHECK(ymx_feed(s, header(type, flags, id, length), 12) == 12);
}

/* The session sends just this header next. */
static void goes(ymx_session *s, unsigned type, unsigned flags, uint32_t id, uint32_t length) {
    unsigned char out[12];
    CHECK(ymx_emit(s, out, 12) == 12 && memcmp(out, header(type, flags, id, length), 12) == 0);
}

/* The session sends these bytes next. */
static void goes_on(ymx_session *s, const char *bytes, size_t len) {
    unsigned char out[64];
    CHECK(ymx_emit(s, out, len) == (int64_t)len && memcmp(out, bytes, len) == 0);
}

/* What is unsent, acknowledged and ended, one step after another. */
static void asks(void) {
    ymx_session *s;
    unsigned char bytes[8];
    CHECK(ymx_new(YMX_CLIENT, YMX_LEAST_WINDOW, 0, &s) == 0 && ymx_open(s) == 1);
    CHECK(ymx_unsent(s, 1) == 0 && ymx_is_acknowledged(s, 1) == 0 && ymx_has_ended(s, 1) == 0 && ymx_is_reset(s, 1) == 0);
    CHECK(ymx_unsent(s, 3) == 0 && ymx_is_acknowledged(s, 3) == 0 && ymx_has_ended(s, 3) == 0 && ymx_is_reset(s, 3) == 0);
    CHECK(ymx_write(s, 1, "hello", 5) == 5 && ymx_unsent(s, 1) == 5);
    goes(s, WINDOW, SYN, 1, 0);
    CHECK(ymx_unsent(s, 1) == 5);
    /* once one byte of its frame is out, the bytes stand in a frame begun */
    goes_on(s, "\0", 1);
    CHECK(ymx_unsent(s, 1) == 0 && ymx_due(s) == 1);
    goes_on(s, "\0\0\0\0\0\0\1\0\0\0\5hello", 16);
    CHECK(ymx_due(s) == 0);
    comes(s, WINDOW, ACK, 1, 0);
    CHECK(ymx_is_acknowledged(s, 1) == 1);
    /* three bytes and the end: it has arrived, and isn't read yet */
    comes(s, DATA, FIN, 1, 3);
    CHECK(ymx_has_ended(s, 1) == 0 && ymx_feed(s, "abc", 3) == 3 && ymx_has_ended(s, 1) == 1 && ymx_is_at_end(s, 1) == 0);
    CHECK(ymx_unread_count(s, 1) == 3 && ymx_unread_count(s, 3) == 0 && ymx_shrink(s, 1) == 0 && ymx_shrink(s, 3) == YMX_E_NO_STREAM);
    CHECK(ymx_read(s, 1, bytes, 8) == 3 && ymx_is_at_end(s, 1) == 1 && ymx_has_ended(s, 1) == 1 && ymx_unread_count(s, 1) == 0);
    /* a reset of the peer's, and one of ours */
    CHECK(ymx_open(s) == 3 && ymx_open(s) == 5);
    goes(s, WINDOW, SYN, 3, 0);
    goes(s, WINDOW, SYN, 5, 0);
    comes(s, WINDOW, RST, 3, 0);
    CHECK(ymx_is_reset(s, 3) == 1 && ymx_is_reset(s, 5) == 0 && ymx_write(s, 3, "x", 1) == YMX_E_RESET);
    CHECK(ymx_reset(s, 5) == 0 && ymx_is_reset(s, 5) == 1 && ymx_forget(s, 5) == 0 && ymx_is_reset(s, 5) == 0);
    goes(s, WINDOW, RST, 5, 0);
    /* the peer takes no more */
    CHECK(ymx_opens_left(s) == YMX_MOST_OPENS_PENDING && ymx_is_peer_away(s) == 0);
    comes(s, 3, 0, 0, 0);
    CHECK(ymx_opens_left(s) == 0 && ymx_is_peer_away(s) == 1 && ymx_open(s) == YMX_E_PEER_AWAY);
    /* a lost session still says what came; a closed one has no streams to ask */
    CHECK(ymx_feed_end(s) == 0 && ymx_has_ended(s, 1) == 1 && ymx_is_reset(s, 3) == 1);
    CHECK(ymx_close(s) == 0 && ymx_has_ended(s, 1) == 0 && ymx_is_reset(s, 3) == 0 && ymx_is_acknowledged(s, 1) == 0);
    ymx_free(s);
}

/* What is unsent of all streams together, also of those that are none of the caller's any more. */
static void sums(void) {
    ymx_session *s;
    unsigned char out[256];
    CHECK(ymx_new(YMX_CLIENT, YMX_LEAST_WINDOW, 0, &s) == 0 && ymx_unsent_total(s) == 0);
    CHECK(ymx_open(s) == 1 && ymx_open(s) == 3 && ymx_open(s) == 5 && ymx_unsent_total(s) == 0);
    CHECK(ymx_write(s, 1, "hello", 5) == 5 && ymx_write(s, 3, "abc", 3) == 3 && ymx_write(s, 5, "xy", 2) == 2);
    CHECK(ymx_unsent_total(s) == 10);
    goes(s, WINDOW, SYN, 1, 0);
    goes(s, WINDOW, SYN, 3, 0);
    goes(s, WINDOW, SYN, 5, 0);
    CHECK(ymx_unsent_total(s) == 10);
    /* once one byte of a frame is out, its bytes stand in a frame begun */
    goes_on(s, "\0", 1);
    CHECK(ymx_unsent_total(s) == 5);
    goes_on(s, "\0\0\0\0\0\0\1\0\0\0\5hello", 16);
    CHECK(ymx_unsent_total(s) == 5);
    /* a reset drops its stream's bytes */
    CHECK(ymx_reset(s, 3) == 0 && ymx_unsent_total(s) == 2);
    /* those of a stream that both sides have finished still go out once it is forgotten */
    comes(s, WINDOW, FIN, 5, 0);
    CHECK(ymx_finish(s, 5) == 0 && ymx_forget(s, 5) == 0 && ymx_unsent(s, 5) == 0 && ymx_unsent_total(s) == 2);
    /* and those of one that was released */
    CHECK(ymx_open(s) == 7 && ymx_write(s, 7, "1234567", 7) == 7 && ymx_unsent_total(s) == 9);
    CHECK(ymx_release(s, 7) == 0 && ymx_unsent(s, 7) == 0 && ymx_unsent_total(s) == 9);
    CHECK(ymx_emit(s, out, sizeof out) > 0 && ymx_due(s) == 0 && ymx_unsent_total(s) == 0);
    /* a reset of the peer's drops them too, and so does a close */
    CHECK(ymx_write(s, 1, "ab", 2) == 2 && ymx_open(s) == 9 && ymx_write(s, 9, "c", 1) == 1 && ymx_unsent_total(s) == 3);
    comes(s, WINDOW, RST, 1, 0);
    CHECK(ymx_unsent_total(s) == 1 && ymx_feed_end(s) == 0 && ymx_unsent_total(s) == 1);
    CHECK(ymx_close(s) == 0 && ymx_unsent_total(s) == 0);
    ymx_free(s);
}

/* What of a stream goes next, to its last byte, also once it is none of the caller's. */
static void goes_next(void) {
    static unsigned char half[131072];
    ymx_session *s;
    CHECK(ymx_new(YMX_CLIENT, YMX_LEAST_WINDOW, 0, &s) == 0 && ymx_next_of(s, 1) == 0);
    CHECK(ymx_open(s) == 1 && ymx_write(s, 1, "hello", 5) == 5 && ymx_next_of(s, 1) == YMX_NEXT_FIRST && ymx_next_of(s, 3) == 0);
    /* one byte is out of the frame that opens it, then all of it */
    goes_on(s, "\0", 1);
    CHECK(ymx_next_of(s, 1) == YMX_NEXT_DATA + YMX_NEXT_REST && ymx_next_of(s, 3) == 0);
    goes_on(s, "\1\0\1\0\0\0\1\0\0\0\0", 11);
    CHECK(ymx_next_of(s, 1) == YMX_NEXT_DATA);
    /* all but one byte of the data, and then that; the end goes after it */
    goes_on(s, "\0\0\0\0\0\0\0\1\0\0\0\5hell", 16);
    CHECK(ymx_next_of(s, 1) == YMX_NEXT_REST && ymx_finish(s, 1) == 0 && ymx_next_of(s, 1) == YMX_NEXT_END + YMX_NEXT_REST);
    goes_on(s, "o", 1);
    CHECK(ymx_next_of(s, 1) == YMX_NEXT_END);
    /* credit for half the window goes before the end */
    comes(s, DATA, ACK, 1, 131072);
    CHECK(ymx_feed(s, half, 131072) == 131072 && ymx_next_of(s, 1) == YMX_NEXT_END);
    CHECK(ymx_read(s, 1, half, 131072) == 131072 && ymx_next_of(s, 1) == YMX_NEXT_CREDIT);
    goes(s, WINDOW, 0, 1, 131072);
    /* the peer ends it too, so that a forget leaves the end to be sent */
    comes(s, WINDOW, FIN, 1, 0);
    CHECK(ymx_forget(s, 1) == 0 && ymx_next_of(s, 1) == YMX_NEXT_END);
    goes(s, WINDOW, FIN, 1, 0);
    CHECK(ymx_next_of(s, 1) == 0 && ymx_due(s) == 0);
    /* one that was released; one that is reset, of which nothing else goes */
    CHECK(ymx_open(s) == 3 && ymx_open(s) == 5 && ymx_write(s, 3, "x", 1) == 1 && ymx_write(s, 5, "y", 1) == 1);
    goes(s, WINDOW, SYN, 3, 0);
    goes(s, WINDOW, SYN, 5, 0);
    CHECK(ymx_release(s, 3) == 0 && ymx_next_of(s, 3) == YMX_NEXT_DATA);
    CHECK(ymx_reset(s, 5) == 0 && ymx_next_of(s, 5) == YMX_NEXT_RESET && ymx_forget(s, 5) == 0 && ymx_next_of(s, 5) == YMX_NEXT_RESET);
    goes_on(s, "\0\0\0\0\0\0\0\3\0\0\0\1x", 13);
    CHECK(ymx_next_of(s, 3) == YMX_NEXT_END);
    /* in a session that is lost only the rest of a frame goes */
    goes_on(s, "\0", 1);
    CHECK(ymx_next_of(s, 5) == YMX_NEXT_REST && ymx_next_of(s, 3) == YMX_NEXT_END);
    CHECK(ymx_feed_end(s) == 0 && ymx_next_of(s, 5) == YMX_NEXT_REST && ymx_next_of(s, 3) == 0);
    CHECK(ymx_close(s) == 0 && ymx_next_of(s, 5) == 0);
    ymx_free(s);
}

/* Which streams there are. */
static void lists(void) {
    ymx_session *s;
    uint32_t ids[4] = {9, 9, 9, 9};
    CHECK(ymx_new(YMX_SERVER, YMX_LEAST_WINDOW, 0, &s) == 0 && ymx_streams(s, ids, 4) == 0 && ids[0] == 9);
    comes(s, WINDOW, SYN, 1, 0);
    comes(s, WINDOW, SYN, 7, 0);
    /* one that only waits to be accepted is none of the caller's yet */
    CHECK(ymx_streams(s, ids, 4) == 0 && ymx_open(s) == 2 && ymx_streams(s, ids, 4) == 1 && ids[0] == 2 && ids[1] == 9);
    CHECK(ymx_accept(s) == 1 && ymx_accept(s) == 7);
    CHECK(ymx_streams(s, ids, 2) == 3 && ids[0] == 1 && ids[1] == 7 && ids[2] == 9);
    CHECK(ymx_streams(s, ids, 4) == 3 && ids[0] == 1 && ids[1] == 7 && ids[2] == 2 && ids[3] == 9);
    CHECK(ymx_streams(s, NULL, 0) == 3);
    /* one that was reset stays, and one that was forgotten goes */
    CHECK(ymx_reset(s, 7) == 0 && ymx_streams(s, NULL, 0) == 3 && ymx_forget(s, 1) == 0 && ymx_streams(s, ids, 4) == 2);
    CHECK(ids[0] == 7 && ids[1] == 2);
    ymx_free(s);
}

/* No call knows a stream that was released. */
static void is_none(ymx_session *s, uint32_t id) {
    unsigned char byte = 5;
    const void *bytes = &byte;
    CHECK(ymx_write(s, id, &byte, 1) == YMX_E_NO_STREAM && ymx_read(s, id, &byte, 1) == YMX_E_NO_STREAM && byte == 5);
    CHECK(ymx_consume(s, id, 1) == YMX_E_NO_STREAM && ymx_finish(s, id) == YMX_E_NO_STREAM);
    CHECK(ymx_reset(s, id) == YMX_E_NO_STREAM && ymx_forget(s, id) == YMX_E_NO_STREAM);
    CHECK(ymx_release(s, id) == YMX_E_NO_STREAM && ymx_room(s, id) == 0 && ymx_unsent(s, id) == 0);
    CHECK(ymx_is_at_end(s, id) == 0 && ymx_has_ended(s, id) == 0 && ymx_is_reset(s, id) == 0);
    CHECK(ymx_unread(s, id, &bytes) == 0 && bytes == NULL && ymx_write_through(s, id, &byte, 1, &byte, 1) == 0);
}

/* What was written before a release arrives, credit goes back, and the record goes with the peer's end. */
static void releases(void) {
    static unsigned char half[131072];
    ymx_session *s;
    uint32_t ids[2] = {9, 9};
    CHECK(ymx_new(YMX_SERVER, YMX_LEAST_WINDOW, 0, &s) == 0);
    comes(s, WINDOW, SYN, 1, 0);
    CHECK(ymx_accept(s) == 1 && ymx_open(s) == 2 && ymx_write(s, 1, "bye", 3) == 3 && ymx_release(s, 1) == 0);
    is_none(s, 1);
    CHECK(ymx_streams(s, ids, 2) == 1 && ids[0] == 2 && ids[1] == 9);
    goes(s, WINDOW, ACK, 1, 0);
    goes(s, WINDOW, SYN, 2, 0);
    goes_on(s, "\0\0\0\0\0\0\0\1\0\0\0\3bye", 15);
    goes(s, WINDOW, FIN, 1, 0);
    CHECK(ymx_due(s) == 0);
    /* half the window comes and is dropped, so that it may be sent again */
    comes(s, DATA, 0, 1, 131072);
    CHECK(ymx_feed(s, half, 131072) == 131072);
    is_none(s, 1);
    goes(s, WINDOW, 0, 1, 131072);
    CHECK(ymx_due(s) == 0);
    /* the peer's end: no reset goes, and the id is free again, which it is not while the record is there */
    comes(s, WINDOW, FIN, 1, 0);
    CHECK(ymx_due(s) == 0 && ymx_status(s) == YMX_RUNNING);
    comes(s, WINDOW, SYN, 1, 0);
    CHECK(ymx_status(s) == YMX_RUNNING && ymx_accept(s) == 1 && ymx_write(s, 1, "x", 1) == 1);
    ymx_free(s);
}

/* The same by touched streams, and a release of a stream that is over, was reset, or whose session is. */
static void releases_more(void) {
    ymx_session *s;
    ymx_touched *touched;
    CHECK(ymx_new(YMX_SERVER, YMX_LEAST_WINDOW, 0, &s) == 0 && ymx_touched_new(&touched) == 0);
    for (uint32_t id = 1; id <= 9; id += 2) {
        comes(s, WINDOW, SYN, id, 0);
        CHECK(ymx_accept(s) == id);
        goes(s, WINDOW, ACK, id, 0);
    }
    /* one that goes on, and of which a byte and the end come */
    CHECK(ymx_release(s, 1) == 0);
    goes(s, WINDOW, FIN, 1, 0);
    CHECK(ymx_feed_touching(s, header(DATA, FIN, 1, 1), 12, touched) == 12 && ymx_feed_touching(s, "x", 1, touched) == 1);
    CHECK(ymx_due(s) == 0);
    comes(s, WINDOW, SYN, 1, 0);
    CHECK(ymx_status(s) == YMX_RUNNING && ymx_accept(s) == 1);
    goes(s, WINDOW, ACK, 1, 0);
    /* one that the peer has ended, with a byte unread: its end goes, and no reset */
    comes(s, DATA, FIN, 3, 1);
    CHECK(ymx_feed(s, "x", 1) == 1 && ymx_release(s, 3) == 0);
    is_none(s, 3);
    goes(s, WINDOW, FIN, 3, 0);
    CHECK(ymx_due(s) == 0);
    /* one that was finished before */
    CHECK(ymx_finish(s, 5) == 0 && ymx_release(s, 5) == 0);
    is_none(s, 5);
    goes(s, WINDOW, FIN, 5, 0);
    /* one that this side has reset, and one that the peer resets after its release */
    CHECK(ymx_reset(s, 7) == 0 && ymx_release(s, 7) == 0);
    is_none(s, 7);
    goes(s, WINDOW, RST, 7, 0);
    CHECK(ymx_due(s) == 0 && ymx_release(s, 9) == 0);
    goes(s, WINDOW, FIN, 9, 0);
    comes(s, WINDOW, RST, 9, 0);
    comes(s, WINDOW, SYN, 9, 0);
    CHECK(ymx_status(s) == YMX_RUNNING && ymx_offered_count(s) == 1);
    /* the peer's bytes end: what was released before is gone, and a release is still done */
    CHECK(ymx_feed_end(s) == 0 && ymx_release(s, 1) == 0 && ymx_streams(s, NULL, 0) == 0);
    is_none(s, 1);
    CHECK(ymx_close(s) == 0 && ymx_release(s, 1) == YMX_E_CLOSED && ymx_finish(s, 5) == YMX_E_CLOSED);
    ymx_touched_free(touched);
    ymx_free(s);
}

int main(void) {
    asks();
    sums();
    goes_next();
    lists();
    releases();
    releases_more();
    return 0;
}
