/* How much memory sessions and streams keep in use: new, idle, after use, shrunk, and after all streams have gone. With no
 * argument it fails where that is more than docs/C.md says; with the word `table` it writes the figures. Those are of
 * both ends together, which stand in this process, by what the system counts as its anonymous memory. */
#define _POSIX_C_SOURCE 200809L
#include "check.h"

enum { MANY = 1000, BLOCK = 262144 };

static unsigned char wire[131072], block[BLOCK];
static uint32_t ids[MANY];
static ymx_session *client, *server;
static long before;
static int writes_table;

/* The process's anonymous memory that is in use, in bytes. */
static long in_use(void) {
    char line[256];
    long kib = -1;
    FILE *file = fopen("/proc/self/smaps_rollup", "r");
    CHECK(file != NULL);
    while (kib < 0 && fgets(line, sizeof line, file) != NULL) (void)sscanf(line, "Anonymous: %ld", &kib);
    fclose(file);
    CHECK(kib >= 0);
    return kib * 1024;
}

/* What came to be in use since `before` is this, and at most `most` bytes. */
static void holds(const char *what, long most) {
    long now = in_use() - before;
    if (writes_table) printf("%-52s %10ld bytes\n", what, now);
    if (now > most) {
        fprintf(stderr, "%s: %ld bytes are in use, and at most %ld should be\n", what, now, most);
        exit(1);
    }
}

static void carry(ymx_session *from, ymx_session *to) {
    int64_t count;
    while ((count = ymx_emit(from, wire, sizeof wire)) > 0) CHECK(ymx_feed(to, wire, (size_t)count) == count);
}

static void settle(void) {
    while (ymx_due(client) == 1 || ymx_due(server) == 1) {
        carry(client, server);
        carry(server, client);
    }
}

static void begin(uint32_t window, int count) {
    CHECK(ymx_new(YMX_CLIENT, window, 0, &client) == 0 && ymx_new(YMX_SERVER, window, 0, &server) == 0);
    for (int i = 0; i < count; i++) {
        int64_t id = ymx_open(client);
        CHECK(id > 0);
        ids[i] = (uint32_t)id;
        settle();
        CHECK(ymx_accept(server) == id);
        settle();
    }
}

/* Each stream has this many bytes unread, all at once, and then they are read. */
static void use(int count) {
    for (int i = 0; i < count; i++) {
        CHECK(ymx_write(client, ids[i], block, BLOCK) == BLOCK);
        settle();
    }
    for (int i = 0; i < count; i++) {
        CHECK(ymx_unread_count(server, ids[i]) == BLOCK && ymx_read(server, ids[i], block, BLOCK) == BLOCK);
        settle();
    }
}

static void shrink(int count) {
    for (int i = 0; i < count; i++) CHECK(ymx_shrink(client, ids[i]) >= 0 && ymx_shrink(server, ids[i]) >= 0);
}

static void all_go(int count) {
    for (int i = 0; i < count; i++) {
        CHECK(ymx_finish(client, ids[i]) == 0 && ymx_finish(server, ids[i]) == 0);
        settle();
        CHECK(ymx_forget(client, ids[i]) == 0 && ymx_forget(server, ids[i]) == 0);
        settle();
    }
}

int main(int count, char **words) {
    writes_table = count == 2 && strcmp(words[1], "table") == 0;
    memset(wire, 1, sizeof wire);
    memset(block, 1, sizeof block);
    before = in_use();
    begin(YMX_LEAST_WINDOW, 0);
    holds("two sessions", 100000);
    ymx_free(client);
    ymx_free(server);
    begin(YMX_LEAST_WINDOW, 1);
    holds("with 1 idle stream", 150000);
    ymx_free(client);
    ymx_free(server);
    begin(YMX_LEAST_WINDOW, 100);
    holds("with 100 idle streams", 3000000);
    ymx_free(client);
    ymx_free(server);
    begin(YMX_LEAST_WINDOW, MANY);
    holds("with 1,000 idle streams", 20000000);
    for (int i = 0; i < 3; i++) {
        use(MANY);
        holds("each has had 262,144 bytes unread", 300000000);
        shrink(MANY);
        holds("each was shrunk", 40000000);
        CHECK(ymx_shrink_spare(client) >= 0 && ymx_shrink_spare(server) >= 0);
        holds("and spare buffers too", 25000000);
    }
    use(MANY);
    all_go(MANY);
    CHECK(ymx_shrink_spare(client) >= 0 && ymx_shrink_spare(server) >= 0);
    holds("all streams have gone, and spare buffers too", 2000000);
    ymx_free(client);
    ymx_free(server);
    holds("the sessions have gone", 1000000);
    return 0;
}
