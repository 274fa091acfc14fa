/* Each allocation of an exchange is refused in turn: the answer names it, nothing is left over, and what was there
 * goes on. Linked with malloc, realloc and free wrapped. */
#include "check.h"

void *__real_malloc(size_t size);
void *__real_realloc(void *block, size_t size);
void __real_free(void *block);
void *__wrap_malloc(size_t size);
void *__wrap_realloc(void *block, size_t size);
void __wrap_free(void *block);

static long asked, refused = -1, held, bytes;

void *__wrap_malloc(size_t size) {
    if (asked++ == refused) return NULL;
    held++;
    bytes += (long)size;
    return __real_malloc(size);
}

void *__wrap_realloc(void *block, size_t size) {
    if (asked++ == refused) return NULL;
    if (block == NULL) held++;
    return __real_realloc(block, size);
}

void __wrap_free(void *block) {
    if (block != NULL) held--;
    __real_free(block);
}

/* Makes a session; where it is refused, counts that and makes it again. */
static ymx_session *make(ymx_role role, int *refusals) {
    ymx_session *session;
    int64_t answer = ymx_new(role, YMX_LEAST_WINDOW, 0, &session);
    if (answer == 0) return session;
    CHECK(answer == YMX_E_NO_MEMORY && session == NULL);
    ++*refusals;
    CHECK(ymx_new(role, YMX_LEAST_WINDOW, 0, &session) == 0);
    return session;
}

/* A word goes there. How often memory was refused. */
static int exchange(void) {
    int refusals = 0;
    unsigned char wire[4096], in[64];
    ymx_session *client = make(YMX_CLIENT, &refusals), *server = make(YMX_SERVER, &refusals);
    ymx_touched *touched;
    if (ymx_touched_new(&touched) != 0) {
        CHECK(touched == NULL && ymx_touched_new(&touched) == 0);
        refusals++;
    }
    int64_t id = ymx_open(client);
    if (id == YMX_E_NO_MEMORY) {
        refusals++;
        id = ymx_open(client);
    }
    CHECK(id == 1 && ymx_write(client, 1, "hello", 5) == 5);
    int64_t count = ymx_emit(client, wire, sizeof wire);
    CHECK(ymx_feed_touching(server, wire, (size_t)count, touched) == count);
    ymx_touched_free(touched);
    id = ymx_accept(server);
    if (id == 1) {
        CHECK(ymx_read(server, 1, in, sizeof in) == 5 && memcmp(in, "hello", 5) == 0);
        CHECK(ymx_read(server, 1, in, sizeof in) == YMX_WAIT);
    } else {
        /* the stream was rejected, and the client learns of it */
        refusals++;
        CHECK(id == 0);
    }
    count = ymx_emit(server, wire, sizeof wire);
    CHECK(count > 0 && ymx_feed(client, wire, (size_t)count) == count);
    CHECK(ymx_write(client, 1, "x", 1) == (id == 1 ? 1 : YMX_E_RESET));
    CHECK(ymx_status(client) == YMX_RUNNING && ymx_status(server) == YMX_RUNNING);
    ymx_free(client);
    ymx_free(server);
    CHECK(held == 0);
    return refusals;
}

/* A stream that is shrunk without memory for a fresh buffer keeps the one that it has, and its bytes. */
static void shrinks(void) {
    static unsigned char text[YMX_LEAST_WINDOW], wire[2 * YMX_LEAST_WINDOW], in[YMX_LEAST_WINDOW];
    int refusals = 0;
    ymx_session *client = make(YMX_CLIENT, &refusals), *server = make(YMX_SERVER, &refusals);
    for (size_t i = 0; i < sizeof text; i++) text[i] = (unsigned char)(i % 251);
    CHECK(ymx_open(client) == 1 && ymx_write(client, 1, text, sizeof text) == (int64_t)sizeof text);
    for (int i = 0; i < 2; i++) {
        asked = 0;
        refused = i == 0 ? 0 : -1;
        CHECK(ymx_shrink(client, 1) == i && asked == 1 && ymx_unsent(client, 1) == (int64_t)sizeof text);
        refused = -1;
    }
    int64_t count = ymx_emit(client, wire, sizeof wire);
    CHECK(ymx_feed(server, wire, (size_t)count) == count && ymx_accept(server) == 1);
    for (int i = 0; i < 2; i++) {
        asked = 0;
        refused = i == 0 ? 0 : -1;
        CHECK(ymx_shrink(server, 1) == i && ymx_unread_count(server, 1) == (int64_t)sizeof text);
        refused = -1;
    }
    CHECK(ymx_read(server, 1, in, sizeof in) == (int64_t)sizeof in && memcmp(in, text, sizeof text) == 0);
    ymx_free(client);
    ymx_free(server);
    CHECK(held == 0);
}

enum { STREAMS = 40 };

/* All that is due goes from one to the other. */
static void carry(ymx_session *from, ymx_session *to) {
    static unsigned char wire[65536];
    int64_t count;
    while ((count = ymx_emit(from, wire, sizeof wire)) > 0) CHECK(ymx_feed(to, wire, (size_t)count) == count);
}

/* Frames with no SYN are fed and emitted, and streams reset, forgotten and finished, without a request of memory. So many
 * streams end here that a list which grew with them would have asked for more room several times. */
static void asks_for_none(void) {
    int refusals = 0;
    unsigned char in[64];
    ymx_session *client = make(YMX_CLIENT, &refusals), *server = make(YMX_SERVER, &refusals);
    for (int id = 1; id < 2 * STREAMS; id += 2) {
        CHECK(ymx_open(client) == id && ymx_write(client, (uint32_t)id, "hello", 5) == 5);
        carry(client, server);
        CHECK(ymx_accept(server) == id);
    }
    asked = 0;
    carry(server, client);
    for (uint32_t id = 1; id < 2 * STREAMS; id += 2) {
        CHECK(ymx_write(server, id, "world", 5) == 5);
        carry(server, client);
        CHECK(ymx_read(client, id, in, sizeof in) == 5 && ymx_read(server, id, in, sizeof in) == 5);
        if (id % 3 == 0) {
            CHECK(ymx_reset(client, id) == 0);
        } else {
            CHECK(ymx_finish(client, id) == 0 && ymx_finish(server, id) == 0);
        }
        carry(client, server);
        carry(server, client);
        CHECK(ymx_forget(client, id) == 0 && ymx_forget(server, id) == 0);
    }
    carry(client, server);
    CHECK(asked == 0);
    ymx_free(client);
    ymx_free(server);
    CHECK(held == 0);
}

int main(void) {
    shrinks();
    asks_for_none();
    asked = bytes = 0;
    CHECK(exchange() == 0);
    long all = asked, most = bytes, unsaid = 0;
    for (refused = 0; refused < all; refused++) {
        asked = 0;
        int told = exchange();
        CHECK(told == 0 || told == 1);
        unsaid += told == 0;
    }
    /* Each side makes one stream, and takes a block for it that its streams share. Without that nothing is lost, so nobody
     * says so. */
    CHECK(unsaid == 2);
    printf("%ld allocations, %ld bytes in all\n", all, most);
    return 0;
}
