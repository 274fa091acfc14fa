/* Bytes that are fed one by one are answered as bytes that are fed at once: two servers get the same bytes of one
 * client, and everything that they answer is compared. */
#include "check.h"

enum { LONGEST = 1 << 20, STREAMS = 40 };

static unsigned char wire[LONGEST], answer[2][LONGEST], block[70000];

/* All that is due, up to LONGEST bytes. */
static size_t drain(ymx_session *session, unsigned char *to, size_t step) {
    size_t count = 0;
    int64_t more;
    while ((more = ymx_emit(session, to + count, step < LONGEST - count ? step : LONGEST - count)) > 0)
        count += (size_t)more;
    CHECK(more == 0 && ymx_due(session) == 0);
    return count;
}

static void feed_all(ymx_session *session, const unsigned char *bytes, size_t count, size_t step) {
    for (size_t at = 0; at < count; at += step) {
        size_t part = step < count - at ? step : count - at;
        CHECK(ymx_feed(session, bytes + at, part) == (int64_t)part);
    }
}

/* Both servers answer each read, accept and status alike. */
static void same_streams(ymx_session *a, ymx_session *b) {
    static unsigned char there[2][LONGEST];
    int64_t id;
    do {
        id = ymx_accept(a);
        CHECK(ymx_accept(b) == id);
    } while (id > 0);
    for (uint32_t of = 1; of <= 2 * STREAMS; of += 2) {
        int64_t count = ymx_read(a, of, there[0], LONGEST);
        CHECK(ymx_read(b, of, there[1], LONGEST) == count);
        if (count > 0) CHECK(memcmp(there[0], there[1], (size_t)count) == 0);
    }
    CHECK(ymx_status(a) == ymx_status(b));
}

int main(void) {
    ymx_session *client, *at_once, *one_by_one;
    size_t count;
    CHECK(ymx_new(YMX_CLIENT, YMX_LEAST_WINDOW, 0, &client) == 0);
    CHECK(ymx_new(YMX_SERVER, YMX_LEAST_WINDOW, 0, &at_once) == 0);
    CHECK(ymx_new(YMX_SERVER, YMX_LEAST_WINDOW, 0, &one_by_one) == 0);
    for (size_t i = 0; i < sizeof block; i++) block[i] = (unsigned char)(i * 131 + (i >> 7));
    for (int round = 0; round < 12; round++) {
        for (uint32_t i = 0; i < STREAMS; i++) {
            uint32_t id = 2 * i + 1;
            if (round == 0) CHECK(ymx_open(client) == id);
            if (round < 10) CHECK(ymx_write(client, id, block + i, i * 37 + (uint32_t)round) >= 0);
            if (round == 10 && i % 3 == 0) CHECK(ymx_finish(client, id) == 0);
            if (round == 10 && i % 3 == 1) CHECK(ymx_reset(client, id) == 0);
        }
        if (round == 5) CHECK(ymx_ping(client) == 0);
        if (round == 11) CHECK(ymx_go_away(client) == 0);
        count = drain(client, wire, 777);
        feed_all(at_once, wire, count, count > 0 ? count : 1);
        feed_all(one_by_one, wire, count, 1);
        same_streams(at_once, one_by_one);
        size_t one = drain(at_once, answer[0], LONGEST), other = drain(one_by_one, answer[1], 1);
        CHECK(one == other && memcmp(answer[0], answer[1], one) == 0);
        feed_all(client, answer[0], one, 5);
    }
    CHECK(ymx_ponged(client, 0) == 1 && ymx_ponged(client, 0) == 0);

    /* a frame of another version, cut at each byte */
    unsigned char bad[12] = {1};
    feed_all(at_once, bad, sizeof bad, sizeof bad);
    feed_all(one_by_one, bad, sizeof bad, 1);
    CHECK(ymx_status(at_once) == YMX_BROKEN + 1);
    same_streams(at_once, one_by_one);
    CHECK(ymx_feed(at_once, bad, 1) == 0 && ymx_open(at_once) == YMX_E_LOST);
    count = drain(at_once, answer[0], 5);
    CHECK(count == 12 && drain(one_by_one, answer[1], 1) == 12 && memcmp(answer[0], answer[1], 12) == 0);
    CHECK(ymx_close(at_once) == 0 && ymx_status(at_once) == YMX_CLOSED && ymx_open(at_once) == YMX_E_CLOSED);
    CHECK(ymx_feed_end(client) == 0 && ymx_status(client) == YMX_LOST && ymx_open(client) == YMX_E_LOST);
    ymx_free(client);
    ymx_free(at_once);
    ymx_free(one_by_one);
    return 0;
}
