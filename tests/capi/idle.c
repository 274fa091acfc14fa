/* One busy stream beside 1,000 idle ones: what processor time a block of it costs at both ends, against the same with none.
 * It fails where the idle ones make it half as much again. */
#define _POSIX_C_SOURCE 200809L
#include "check.h"

#include <time.h>

enum { BLOCK = 65536, ROUNDS = 20000 };

static unsigned char wire[2 * BLOCK], block[BLOCK];

static void carry(ymx_session *from, ymx_session *to) {
    int64_t count;
    while ((count = ymx_emit(from, wire, sizeof wire)) > 0) CHECK(ymx_feed(to, wire, (size_t)count) == count);
}

/* Seconds of the processor for so many rounds of a block beside this many idle streams. */
static double rounds(int idle) {
    ymx_session *client, *server;
    struct timespec began, ended;
    int64_t id = 0, bytes = 0;
    CHECK(ymx_new(YMX_CLIENT, YMX_LEAST_WINDOW, 0, &client) == 0 && ymx_new(YMX_SERVER, YMX_LEAST_WINDOW, 0, &server) == 0);
    for (int i = 0; i <= idle; i++) {
        id = ymx_open(client);
        CHECK(id > 0);
        carry(client, server);
        CHECK(ymx_accept(server) == id);
        carry(server, client);
    }
    clock_gettime(CLOCK_PROCESS_CPUTIME_ID, &began);
    for (int i = 0; i < ROUNDS; i++) {
        CHECK(ymx_write(client, (uint32_t)id, block, BLOCK) == BLOCK);
        carry(client, server);
        bytes += ymx_read(server, (uint32_t)id, block, BLOCK);
        carry(server, client);
    }
    clock_gettime(CLOCK_PROCESS_CPUTIME_ID, &ended);
    CHECK(bytes == (int64_t)ROUNDS * BLOCK);
    ymx_free(client);
    ymx_free(server);
    return (double)(ended.tv_sec - began.tv_sec) + (double)(ended.tv_nsec - began.tv_nsec) * 1e-9;
}

int main(void) {
    double none = rounds(0), many = rounds(1000);
    for (int i = 0; i < 4 && many > 1.5 * none; i++) {
        none = rounds(0);
        many = rounds(1000);
    }
    printf("%.2f GB/s alone, %.2f GB/s beside 1,000 idle streams\n", (double)ROUNDS * BLOCK / none * 1e-9,
           (double)ROUNDS * BLOCK / many * 1e-9);
    return many > 1.5 * none;
}
