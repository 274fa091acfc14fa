/* What ymx.h says in words: its limits, roles and faults, reads and writes of no bytes, what is left unsaid by a close,
 * pings that nobody collects, and which calls make bytes due. */
#include "check.h"

static ymx_session *client, *server;
static unsigned char block[YMX_LEAST_WINDOW];

static void begin(void) {
    CHECK(ymx_new(YMX_CLIENT, YMX_LEAST_WINDOW, 0, &client) == 0 && ymx_new(YMX_SERVER, YMX_LEAST_WINDOW, 0, &server) == 0);
}

static void end(void) {
    ymx_free(client);
    ymx_free(server);
}

static void carry(ymx_session *from, ymx_session *to) {
    static unsigned char wire[65536];
    int64_t count;
    while ((count = ymx_emit(from, wire, sizeof wire)) > 0) CHECK(ymx_feed(to, wire, (size_t)count) == count);
    CHECK(ymx_due(from) == 0);
}

/* A stream that both sides have. */
static uint32_t joined(void) {
    int64_t id = ymx_open(client);
    CHECK(id > 0);
    carry(client, server);
    CHECK(ymx_accept(server) == id);
    carry(server, client);
    return (uint32_t)id;
}

static void roles(void) {
    ymx_session *session = (ymx_session *)block;
    CHECK(ymx_new((ymx_role)7, YMX_LEAST_WINDOW, 0, &session) == YMX_E_BAD_ROLE && session == NULL);
    CHECK(ymx_new((ymx_role)-1, YMX_LEAST_WINDOW - 1, 0, &session) == YMX_E_BAD_ROLE && session == NULL);
    CHECK(ymx_new((ymx_role)2, YMX_LEAST_WINDOW, 0, NULL) == YMX_E_NULL);
    CHECK(strcmp(ymx_error_name(YMX_E_BAD_ROLE), "BAD_ROLE") == 0 && strcmp(ymx_error_name(YMX_WAIT), "WAIT") == 0);
}

static void versions(void) {
    char text[32];
    snprintf(text, sizeof text, "%d.%d.%d", YMX_VERSION_NUM / 10000, YMX_VERSION_NUM / 100 % 100, YMX_VERSION_NUM % 100);
    CHECK(strcmp(text, ymx_version()) == 0);
#if YMX_VERSION_NUM < 200
#error YMX_VERSION_NUM is no number for the preprocessor
#endif
}

/* How many streams the client opens until it is refused. What it opens goes to the server where that is wanted. */
static int64_t opens(int64_t refusal, int is_carried) {
    int64_t count = 0, id;
    while ((id = ymx_open(client)) > 0) {
        count++;
        if (!is_carried) continue;
        carry(client, server);
        CHECK(ymx_accept(server) == id);
        carry(server, client);
    }
    CHECK(id == refusal);
    return count;
}

static void limits(void) {
    begin();
    CHECK(opens(YMX_E_OPENS_PENDING, 0) == YMX_MOST_OPENS_PENDING);
    carry(client, server);
    CHECK(ymx_offered_count(server) == YMX_MOST_OFFERED);
    end();
    begin();
    CHECK(opens(YMX_E_TOO_MANY, 1) == YMX_MOST_STREAMS);
    end();
}

/* Pings that nobody collects fill the limit, also once all their answers are back. */
static void pings(void) {
    begin();
    for (int i = 0; i < YMX_MOST_PINGS_PENDING; i++) CHECK(ymx_ping(client) == i);
    carry(client, server);
    carry(server, client);
    CHECK(ymx_ping(client) == YMX_E_PINGS_PENDING);
    CHECK(ymx_ponged(client, 0) == 1 && ymx_ponged(client, 0) == 0 && ymx_ping(client) == YMX_MOST_PINGS_PENDING);
    end();
}

/* Answers that nobody sends fill their limit: nothing more is taken then. */
static void answers(void) {
    enum { PING = 12, COUNT = YMX_MOST_ANSWERS + 1 };
    static unsigned char pings[PING * COUNT];
    begin();
    for (int i = 0; i < COUNT; i++) {
        unsigned char *ping = pings + PING * i;
        ping[1] = 2;
        ping[3] = 1;
        ping[10] = (unsigned char)(i >> 8);
        ping[11] = (unsigned char)i;
    }
    int64_t taken = ymx_feed(server, pings, sizeof pings);
    CHECK(taken >= PING * YMX_MOST_ANSWERS && taken < PING * COUNT && ymx_status(server) == YMX_RUNNING);
    CHECK(ymx_emit(server, block, sizeof block) == PING * YMX_MOST_ANSWERS);
    CHECK(ymx_feed(server, pings + taken, sizeof pings - (size_t)taken) == (int64_t)sizeof pings - taken);
    end();
}

/* No bytes are read and written: 0, in a session that is lost too, and without credit. */
static void no_bytes(void) {
    begin();
    uint32_t id = joined();
    CHECK(ymx_write(client, id, block, sizeof block) == YMX_LEAST_WINDOW && ymx_room(client, id) == 0);
    CHECK(ymx_write(client, id, block, 1) == YMX_WAIT && ymx_write(client, id, block, 0) == 0);
    CHECK(ymx_write(client, id, NULL, 0) == 0);
    CHECK(ymx_read(client, id, block, 0) == 0 && ymx_read(client, id, block, 1) == YMX_WAIT && ymx_consume(client, id, 0) == 0);
    carry(client, server);
    CHECK(ymx_feed_end(server) == 0 && ymx_status(server) == YMX_LOST);
    CHECK(ymx_read(server, id, block, 0) == 0 && ymx_read(server, id, block, sizeof block) == YMX_LEAST_WINDOW);
    CHECK(ymx_read(server, id, block, 1) == YMX_E_LOST && ymx_read(server, id, block, 0) == 0 && ymx_read(server, id, NULL, 0) == 0);
    CHECK(ymx_consume(server, id, 1) == YMX_E_LOST && ymx_consume(server, id, 0) == 0);
    CHECK(ymx_write(server, id, block, 0) == YMX_E_LOST);
    CHECK(ymx_reset(client, id) == 0 && ymx_read(client, id, block, 0) == YMX_E_RESET);
    CHECK(ymx_forget(client, id) == 0 && ymx_read(client, id, block, 0) == YMX_E_NO_STREAM);
    CHECK(ymx_close(client) == 0 && ymx_read(client, id, block, 0) == YMX_E_CLOSED);
    end();
}

/* In a session that is lost, an end that has come is still told. */
static void end_in_a_lost_session(void) {
    begin();
    uint32_t id = joined();
    CHECK(ymx_write(client, id, "ab", 2) == 2 && ymx_finish(client, id) == 0);
    carry(client, server);
    CHECK(ymx_feed_end(server) == 0);
    CHECK(ymx_read(server, id, block, 2) == 2 && ymx_read(server, id, block, 2) == 0 && ymx_consume(server, id, 1) == 0);
    end();
}

/* A close announces nothing, and drops what was unsent; a Go Away is announced. */
static void ends(void) {
    begin();
    uint32_t id = joined();
    CHECK(ymx_write(client, id, "lost", 4) == 4 && ymx_due(client) == 1);
    CHECK(ymx_close(client) == 0 && ymx_due(client) == 0 && ymx_emit(client, block, sizeof block) == 0);
    CHECK(ymx_open(server) == 2 && ymx_status(server) == YMX_RUNNING);
    CHECK(ymx_go_away(server) == 0 && ymx_due(server) == 1);
    end();
    begin();
    CHECK(ymx_go_away(client) == 0);
    carry(client, server);
    CHECK(ymx_open(server) == YMX_E_PEER_AWAY);
    end();
}

/* Whether that call, after which nothing was due, makes bytes due. They go to the other side. */
static void makes_due(ymx_session *session, int64_t answer) {
    CHECK(answer >= 0 && ymx_due(session) == 1);
    carry(session, session == client ? server : client);
}

static void makes_nothing_due(ymx_session *session, int64_t answer) {
    CHECK(answer >= 0 && ymx_due(session) == 0);
}

static void due(void) {
    const void *bytes;
    begin();
    makes_due(client, ymx_open(client));
    makes_due(client, ymx_open(client));
    makes_due(server, ymx_accept(server));
    makes_due(server, ymx_accept(server));
    makes_nothing_due(server, ymx_accept(server));
    makes_due(client, ymx_write(client, 1, block, YMX_LEAST_WINDOW));
    makes_nothing_due(server, ymx_unread(server, 1, &bytes));
    makes_nothing_due(server, ymx_read(server, 1, block, YMX_LEAST_WINDOW / 2 - 1));
    makes_due(server, ymx_read(server, 1, block, 1));
    makes_due(server, ymx_consume(server, 1, YMX_LEAST_WINDOW / 2));
    makes_due(client, ymx_finish(client, 1));
    makes_due(server, ymx_reset(server, 1));
    makes_nothing_due(client, ymx_forget(client, 1));
    makes_due(client, ymx_forget(client, 3));
    makes_due(client, ymx_ping(client));
    /* what the ping was answered with: a feed makes bytes due too */
    makes_due(server, 0);
    makes_nothing_due(client, ymx_ponged(client, 0));
    makes_due(client, ymx_go_away(client));
    makes_nothing_due(client, ymx_status(client));
    makes_nothing_due(client, ymx_feed_end(client));
    end();
}

/* A server to which a client has opened stream 1, and then sends a header that it may not send. */
static void faults(void) {
    static const unsigned char opening[12] = {0, 1, 0, 1, 0, 0, 0, 1};
    static const struct {
        unsigned char header[12];
        int fault;
    } bad[] = {
        {{1}, YMX_FAULT_BAD_VERSION},
        {{0, 4}, YMX_FAULT_UNKNOWN_TYPE},
        {{0, 1, 0, 1}, YMX_FAULT_BAD_SYN},
        {{0, 1, 0, 1, 0, 0, 0, 1}, YMX_FAULT_STREAM_IN_USE},
        {{0, 0, 0, 0, 0, 0, 0, 1, 1}, YMX_FAULT_WINDOW_EXCEEDED},
        {{0, 1, 0, 0, 0, 0, 0, 1, 255, 255, 255, 255}, YMX_FAULT_CREDIT_OVERFLOW},
        {{0, 3, 0, 0, 0, 0, 0, 0, 0, 0, 0, 7}, YMX_FAULT_BAD_GO_AWAY_CODE},
        {{0, 3, 0, 0, 0, 0, 0, 0, 0, 0, 0, 1}, YMX_FAULT_PEER_SAW_PROTOCOL_ERROR},
        {{0, 3, 0, 0, 0, 0, 0, 0, 0, 0, 0, 2}, YMX_FAULT_PEER_SAW_INTERNAL_ERROR},
    };
    for (size_t i = 0; i < sizeof bad / sizeof bad[0]; i++) {
        begin();
        CHECK(ymx_feed(server, opening, sizeof opening) == sizeof opening && ymx_status(server) == YMX_RUNNING);
        ymx_feed(server, bad[i].header, sizeof bad[i].header);
        CHECK(ymx_status(server) == YMX_BROKEN + bad[i].fault);
        const char name[] = {'B', (char)('0' + bad[i].fault), 0};
        CHECK(strcmp(ymx_fault_name(ymx_status(server) - YMX_BROKEN), name) == 0);
        end();
    }
    CHECK(strcmp(ymx_fault_name(0), "UNKNOWN") == 0 && strcmp(ymx_fault_name(10), "UNKNOWN") == 0);
    CHECK(strcmp(ymx_fault_name(-1), "UNKNOWN") == 0 && strcmp(ymx_fault_name(INT64_MAX), "UNKNOWN") == 0);
    CHECK(strcmp(ymx_fault_name(INT64_MIN), "UNKNOWN") == 0);
}

int main(void) {
    roles();
    versions();
    limits();
    pings();
    answers();
    no_bytes();
    end_in_a_lost_session();
    ends();
    due();
    faults();
    return 0;
}
