/* Readiness: a note of touched streams, lent bytes, room and the end, over two sessions. And a loop that goes on with
 * touched streams alone makes as many calls beside 1,000 idle streams as beside none. */
#include "check.h"

enum { BLOCK = 16384, ROUNDS = 200 };

static unsigned char wire[2 * BLOCK], block[BLOCK];
static uint32_t ids[YMX_MOST_TOUCHED];
static long calls;

static void carry(ymx_session *from, ymx_session *to) {
    int64_t count;
    while ((count = ymx_emit(from, wire, sizeof wire)) > 0) CHECK(ymx_feed(to, wire, (size_t)count) == count);
}

/* Carries, and answers how many ids are noted at `to`. */
static int64_t carry_touching(ymx_session *from, ymx_session *to, ymx_touched *touched) {
    int64_t count;
    while ((count = ymx_emit(from, wire, sizeof wire)) > 0) {
        CHECK(ymx_feed_touching(to, wire, (size_t)count, touched) == count);
        calls += 2;
    }
    return ymx_touched_ids(touched, ids, YMX_MOST_TOUCHED);
}

/* Reads all that waits on a stream by lent bytes, compares them with what `block` has, and answers how many. */
static int64_t take_all(ymx_session *session, uint32_t id) {
    const void *bytes;
    int64_t count, all = 0;
    while ((count = ymx_unread(session, id, &bytes)) > 0) {
        CHECK(all + count <= BLOCK && memcmp(bytes, block + all, (size_t)count) == 0);
        CHECK(ymx_consume(session, id, (size_t)count) == 0);
        all += count;
        calls += 2;
    }
    CHECK(count == 0 && bytes == NULL);
    return all;
}

/* How many calls so many rounds take beside this many idle streams. The busy one is in their middle. */
static long rounds(int idle) {
    ymx_session *client, *server;
    ymx_touched *touched;
    uint32_t busy = 0;
    int64_t all = 0;
    CHECK(ymx_new(YMX_CLIENT, YMX_LEAST_WINDOW, 0, &client) == 0 && ymx_new(YMX_SERVER, YMX_LEAST_WINDOW, 0, &server) == 0);
    CHECK(ymx_touched_new(&touched) == 0);
    for (int i = 0; i <= idle; i++) {
        int64_t id = ymx_open(client);
        CHECK(id > 0);
        carry(client, server);
        CHECK(ymx_offered_count(server) == 1 && ymx_accept(server) == id && ymx_offered_count(server) == 0);
        carry(server, client);
        if (i == idle / 2) busy = (uint32_t)id;
    }
    calls = 0;
    for (int i = 0; i < ROUNDS; i++) {
        memset(block, i, BLOCK);
        CHECK(ymx_room(client, busy) >= BLOCK && ymx_write(client, busy, block, BLOCK) == BLOCK);
        int64_t count = carry_touching(client, server, touched);
        CHECK(count == 1 && ids[0] == busy && ymx_touched_is_all(touched) == 0 && ymx_touched_has_pong(touched) == 0);
        for (int64_t k = 0; k < count; k++) all += take_all(server, ids[k]);
        CHECK(ymx_touched_clear(touched) == 0 && ymx_touched_ids(touched, NULL, 0) == 0);
        carry(server, client);
        calls += 4;
    }
    CHECK(all == (int64_t)ROUNDS * BLOCK);
    ymx_touched_free(touched);
    ymx_free(client);
    ymx_free(server);
    return calls;
}

/* One stream from its first byte to its end. */
static void one_stream(void) {
    ymx_session *client, *server;
    ymx_touched *touched;
    const void *bytes = block;
    CHECK(ymx_new(YMX_CLIENT, YMX_LEAST_WINDOW, 0, &client) == 0 && ymx_new(YMX_SERVER, YMX_LEAST_WINDOW, 0, &server) == 0);
    CHECK(ymx_touched_new(&touched) == 0 && ymx_touched_ids(touched, ids, 1) == 0);
    CHECK(ymx_open(client) == 1 && ymx_open(client) == 3 && ymx_room(client, 1) == 262144 && ymx_room(client, 5) == 0);
    CHECK(ymx_write(client, 1, "abcdef", 6) == 6 && ymx_room(client, 1) == 262144 - 6);
    CHECK(carry_touching(client, server, touched) == 2 && ids[0] == 1 && ids[1] == 3);
    ids[0] = ids[1] = 77;
    CHECK(ymx_touched_ids(touched, ids, 1) == 2 && ids[0] == 1 && ids[1] == 77);
    CHECK(ymx_offered_count(server) == 2 && ymx_unread(server, 1, &bytes) == 0 && bytes == NULL);
    CHECK(ymx_accept(server) == 1 && ymx_accept(server) == 3);
    CHECK(ymx_unread(server, 1, &bytes) == 6 && memcmp(bytes, "abcdef", 6) == 0);
    CHECK(ymx_consume(server, 1, 2) == 0 && ymx_unread(server, 1, &bytes) == 4 && memcmp(bytes, "cdef", 4) == 0);
    CHECK(ymx_consume(server, 1, SIZE_MAX) == 0 && ymx_unread(server, 1, &bytes) == 0 && bytes == NULL);
    CHECK(ymx_consume(server, 1, 1) == YMX_WAIT && ymx_consume(server, 9, 1) == YMX_E_NO_STREAM);
    CHECK(ymx_is_at_end(server, 1) == 0 && ymx_finish(client, 1) == 0 && ymx_room(client, 1) == 0);
    CHECK(ymx_ping(client) == 0);
    CHECK(ymx_touched_clear(touched) == 0 && carry_touching(client, server, touched) == 1 && ids[0] == 1);
    CHECK(ymx_is_at_end(server, 1) == 1 && ymx_read(server, 1, block, 1) == 0 && ymx_consume(server, 1, 1) == 0);
    CHECK(ymx_touched_has_pong(touched) == 0 && ymx_touched_clear(touched) == 0);
    carry_touching(server, client, touched);
    CHECK(ymx_touched_has_pong(touched) == 1 && ymx_ponged(client, 0) == 1);
    CHECK(ymx_reset(client, 3) == 0 && ymx_touched_clear(touched) == 0 && ymx_touched_has_pong(touched) == 0);
    CHECK(carry_touching(client, server, touched) == 1 && ids[0] == 3 && ymx_consume(server, 3, 0) == YMX_E_RESET);
    CHECK(ymx_unread(server, 3, &bytes) == 0 && ymx_room(server, 3) == 0 && ymx_is_at_end(server, 3) == 0);
    ymx_touched_free(touched);
    ymx_free(client);
    ymx_free(server);
}

int main(void) {
    one_stream();
    long none = rounds(0), many = rounds(1000);
    printf("%ld calls beside no idle stream, %ld beside 1,000\n", none, many);
    CHECK(none == many);
    return 0;
}
