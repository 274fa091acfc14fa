/* Two sessions talk over a socketpair, in one thread. The client opens three streams, writes 1 MiB on each and
 * half-closes it; the server echoes; the client compares every byte.
 *
 *     cc -o pair pair.c $(pkg-config --cflags --libs ymx)
 */
#define _POSIX_C_SOURCE 200809L
#include <ymx.h>

#include <errno.h>
#include <fcntl.h>
#include <poll.h>
#include <stdio.h>
#include <stdlib.h>
#include <string.h>
#include <sys/socket.h>
#include <unistd.h>

enum { STREAMS = 3, TOTAL = 1 << 20, BLOCK = 16384 };

/* One side: its session, its socket, and bytes that were emitted and aren't sent yet. */
struct side {
    ymx_session *session;
    int socket;
    unsigned char out[65536];
    size_t sent, emitted;
};

/* A stream that the client fills and reads back. */
struct flow {
    uint32_t id;
    size_t sent, received;
    int finished, over;
};

/* A stream that the server echoes, with bytes that were read and aren't written back yet. */
struct echo {
    uint32_t id;
    unsigned char held[BLOCK];
    size_t written, read;
    int over;
};

static void give_up(const char *what, int64_t code) {
    fprintf(stderr, "pair: %s: %s\n", what, ymx_error_name(code));
    exit(1);
}

/* The answer of a call, which may not be a refusal. */
static int64_t good(const char *what, int64_t answer) {
    if (answer < 0 && answer != YMX_WAIT) give_up(what, answer);
    return answer;
}

static unsigned char byte_at(uint32_t id, size_t at) {
    return (unsigned char)(at * 31 + id * 7 + (at >> 8));
}

/* Feeds what came. */
static void receive(struct side *side) {
    static unsigned char in[65536];
    ssize_t count = read(side->socket, in, sizeof in);
    if (count < 0 && errno == EAGAIN) return;
    if (count <= 0) {
        ymx_feed_end(side->session);
        return;
    }
    if (ymx_feed(side->session, in, (size_t)count) != count) give_up("feed", YMX_E_LOST);
}

/* Sends what is due, as far as the socket takes it. */
static void transmit(struct side *side) {
    for (;;) {
        if (side->sent == side->emitted) {
            side->sent = 0;
            side->emitted = (size_t)good("emit", ymx_emit(side->session, side->out, sizeof side->out));
            if (side->emitted == 0) return;
        }
        ssize_t count = write(side->socket, side->out + side->sent, side->emitted - side->sent);
        if (count < 0 && errno == EAGAIN) return;
        if (count < 0) give_up("write", YMX_E_LOST);
        side->sent += (size_t)count;
    }
}

/* Writes what the peer has credit for, then half-closes. */
static void fill(ymx_session *session, struct flow *flow) {
    unsigned char block[BLOCK];
    while (flow->sent < TOTAL) {
        size_t count = TOTAL - flow->sent < BLOCK ? TOTAL - flow->sent : BLOCK;
        for (size_t i = 0; i < count; i++) block[i] = byte_at(flow->id, flow->sent + i);
        int64_t took = good("write", ymx_write(session, flow->id, block, count));
        if (took == YMX_WAIT) return;
        flow->sent += (size_t)took;
    }
    if (!flow->finished) good("finish", ymx_finish(session, flow->id));
    flow->finished = 1;
}

/* Reads what came back, and compares it. */
static void compare(ymx_session *session, struct flow *flow) {
    unsigned char block[BLOCK];
    while (!flow->over) {
        int64_t count = good("read", ymx_read(session, flow->id, block, BLOCK));
        if (count == YMX_WAIT) return;
        for (int64_t i = 0; i < count; i++)
            if (block[i] != byte_at(flow->id, flow->received + (size_t)i)) give_up("a wrong byte", 0);
        flow->received += (size_t)count;
        if (count > 0) continue;
        if (flow->received != TOTAL) give_up("bytes are missing", 0);
        good("forget", ymx_forget(session, flow->id));
        flow->over = 1;
    }
}

/* Writes back what comes. */
static void answer(ymx_session *session, struct echo *echo) {
    while (!echo->over) {
        if (echo->written == echo->read) {
            int64_t count = good("read", ymx_read(session, echo->id, echo->held, BLOCK));
            if (count == YMX_WAIT) return;
            echo->read = (size_t)count;
            echo->written = 0;
            echo->over = count == 0;
            continue;
        }
        int64_t took = good("write", ymx_write(session, echo->id, echo->held + echo->written, echo->read - echo->written));
        if (took == YMX_WAIT) return;
        echo->written += (size_t)took;
    }
    if (echo->id != 0) {
        good("finish", ymx_finish(session, echo->id));
        good("forget", ymx_forget(session, echo->id));
        echo->id = 0;
    }
}

static short wanted(const struct side *side) {
    return (short)(POLLIN | (side->sent < side->emitted ? POLLOUT : 0));
}

int main(void) {
    static struct side client, server;
    static struct flow flows[STREAMS];
    static struct echo echoes[STREAMS];
    int sockets[2], accepted = 0, over = 0, answered = 0;
    if (socketpair(AF_UNIX, SOCK_STREAM, 0, sockets) != 0) give_up("socketpair", YMX_E_LOST);
    client.socket = sockets[0];
    server.socket = sockets[1];
    fcntl(sockets[0], F_SETFL, O_NONBLOCK);
    fcntl(sockets[1], F_SETFL, O_NONBLOCK);
    good("new", ymx_new(YMX_CLIENT, YMX_LEAST_WINDOW, 0, &client.session));
    good("new", ymx_new(YMX_SERVER, YMX_LEAST_WINDOW, 0, &server.session));
    for (int i = 0; i < STREAMS; i++) flows[i].id = (uint32_t)good("open", ymx_open(client.session));
    int64_t ping = good("ping", ymx_ping(client.session));
    while (over < STREAMS || !answered) {
        over = 0;
        for (int i = 0; i < STREAMS; i++) {
            fill(client.session, &flows[i]);
            compare(client.session, &flows[i]);
            over += flows[i].over;
        }
        answered = answered || good("ponged", ymx_ponged(client.session, (uint32_t)ping)) == 1;
        for (int64_t id; accepted < STREAMS && (id = good("accept", ymx_accept(server.session))) > 0;)
            echoes[accepted++].id = (uint32_t)id;
        for (int i = 0; i < accepted; i++) answer(server.session, &echoes[i]);
        transmit(&client);
        transmit(&server);
        struct pollfd polled[2] = {{client.socket, wanted(&client), 0}, {server.socket, wanted(&server), 0}};
        if (poll(polled, 2, over == STREAMS && answered ? 0 : 1000) < 0) give_up("poll", YMX_E_LOST);
        if (polled[0].revents) receive(&client);
        if (polled[1].revents) receive(&server);
    }
    ymx_free(client.session);
    ymx_free(server.session);
    printf("%d streams of %d bytes echoed and compared, a ping answered\n", STREAMS, TOTAL);
    return 0;
}
