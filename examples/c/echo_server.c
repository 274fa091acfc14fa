/* An echo server: one thread, one epoll, any number of connections, each with up to 1,024 streams. Whatever comes on
 * a stream goes back on it, until its end. Idle streams cost nothing.
 *
 *     cc -o echo_server echo_server.c $(pkg-config --cflags --libs ymx) && ./echo_server 7000
 */
#define _GNU_SOURCE
#include <ymx.h>

#include <arpa/inet.h>
#include <errno.h>
#include <signal.h>
#include <stdio.h>
#include <stdlib.h>
#include <string.h>
#include <sys/epoll.h>
#include <sys/socket.h>
#include <unistd.h>

/* So few bytes touch at most YMX_MOST_TOUCHED streams: a frame has at least 12. */
enum { BLOCK = 65536, PIECE = 12276 };

/* A connection: its socket and session, bytes that came and aren't fed yet, and bytes that were emitted and aren't sent
 * yet. Of its streams it keeps nothing: the session does. */
struct connection {
    int socket;
    ymx_session *session;
    size_t fed, came, sent, emitted;
    unsigned char in[BLOCK], out[BLOCK];
};

/* The streams that a piece has touched. One thread serves all connections, so one note does for all. */
static ymx_touched *touched;

/* ---- what the server does with the streams */

/* Sends back what waits, as far as the peer has credit for it, and forgets the stream once it is over. */
static void echo(ymx_session *session, uint32_t id) {
    static unsigned char block[BLOCK];
    int64_t room, count;
    while ((room = ymx_room(session, id)) > 0) {
        count = ymx_read(session, id, block, room < BLOCK ? (size_t)room : BLOCK);
        if (count <= 0) break;
        if (ymx_write(session, id, block, (size_t)count) != count) ymx_reset(session, id); /* there is no memory */
    }
    if (ymx_is_at_end(session, id) == 1)
        ymx_finish(session, id);
    else if (ymx_read(session, id, NULL, 0) >= 0)
        return; /* it goes on */
    ymx_forget(session, id);
}

/* Takes the streams that the peer has opened, and goes on with those that were touched. No other has changed. */
static void serve(ymx_session *session) {
    static uint32_t ids[YMX_MOST_TOUCHED];
    int64_t id, count = ymx_touched_ids(touched, ids, YMX_MOST_TOUCHED);
    ymx_touched_clear(touched);
    while ((id = ymx_accept(session)) > 0) echo(session, (uint32_t)id);
    for (int64_t i = 0; i < count; i++) echo(session, ids[i]);
}

/* ---- the loop's three helpers */

/* Feeds what came, piece by piece, and serves the streams. What the session doesn't take waits until some is sent. 0
 * once the connection has ended. */
static int receive(struct connection *c) {
    if (c->fed == c->came) {
        ssize_t count = read(c->socket, c->in, BLOCK);
        if (count < 0 && (errno == EAGAIN || errno == EINTR)) return 1;
        if (count <= 0) return 0;
        c->fed = 0;
        c->came = (size_t)count;
    }
    while (c->fed < c->came) {
        size_t rest = c->came - c->fed, piece = rest < PIECE ? rest : PIECE;
        size_t taken = (size_t)ymx_feed_touching(c->session, c->in + c->fed, piece, touched);
        c->fed += taken;
        serve(c->session);
        if (taken < piece) break;
    }
    return 1;
}

/* Sends what is due, as far as the socket takes it. 0 once the connection has ended. */
static int transmit(struct connection *c) {
    for (;;) {
        if (c->sent == c->emitted) {
            c->sent = 0;
            c->emitted = (size_t)ymx_emit(c->session, c->out, BLOCK);
            if (c->emitted == 0) return 1;
        }
        ssize_t count = write(c->socket, c->out + c->sent, c->emitted - c->sent);
        if (count < 0) return errno == EAGAIN || errno == EINTR;
        c->sent += (size_t)count;
    }
}

/* What to wait for: room to send where bytes are unsent, and bytes where none are left to feed. */
static uint32_t wanted(const struct connection *c) {
    return (c->sent < c->emitted ? EPOLLOUT : 0) | (c->fed == c->came ? EPOLLIN : 0);
}

/* ---- connections come, have their turns, and go */

static void begin(int epoll, int socket) {
    struct connection *c = calloc(1, sizeof *c);
    struct epoll_event event = {EPOLLIN, {c}};
    if (c == NULL || ymx_new(YMX_SERVER, YMX_LEAST_WINDOW, 0, &c->session) != 0 ||
        epoll_ctl(epoll, EPOLL_CTL_ADD, socket, &event) != 0) {
        if (c != NULL) ymx_free(c->session);
        free(c);
        close(socket);
        return;
    }
    c->socket = socket;
}

static void end(struct connection *c) {
    close(c->socket);
    ymx_free(c->session);
    free(c);
}

/* A turn: bytes come, streams go on, bytes go. */
static void turn(int epoll, struct connection *c) {
    int alive;
    do {
        alive = receive(c);
        alive = transmit(c) && alive;
    } while (alive && c->fed < c->came && c->sent == c->emitted && ymx_status(c->session) < YMX_BROKEN);
    if (ymx_status(c->session) >= YMX_BROKEN && c->sent == c->emitted) alive = 0;
    if (!alive) {
        end(c);
        return;
    }
    struct epoll_event event = {wanted(c), {c}};
    epoll_ctl(epoll, EPOLL_CTL_MOD, c->socket, &event);
}

static int listen_at(const char *port) {
    struct sockaddr_in address = {0};
    socklen_t size = sizeof address;
    int on = 1, listener = socket(AF_INET, SOCK_STREAM, 0);
    address.sin_family = AF_INET;
    address.sin_port = htons((uint16_t)atoi(port));
    address.sin_addr.s_addr = htonl(INADDR_LOOPBACK);
    setsockopt(listener, SOL_SOCKET, SO_REUSEADDR, &on, sizeof on);
    if (bind(listener, (struct sockaddr *)&address, size) != 0 || listen(listener, 64) != 0) {
        perror("echo_server");
        exit(1);
    }
    getsockname(listener, (struct sockaddr *)&address, &size);
    printf("listening at 127.0.0.1:%d\n", ntohs(address.sin_port));
    fflush(stdout);
    return listener;
}

int main(int count, char **words) {
    int listener = listen_at(count > 1 ? words[1] : "0"), epoll = epoll_create1(0);
    struct epoll_event event = {EPOLLIN, {NULL}}, happened[64];
    epoll_ctl(epoll, EPOLL_CTL_ADD, listener, &event);
    signal(SIGPIPE, SIG_IGN);
    if (ymx_touched_new(&touched) != 0) return 1;
    for (;;) {
        int events = epoll_wait(epoll, happened, 64, -1);
        for (int i = 0; i < events; i++) {
            if (happened[i].data.ptr != NULL) {
                turn(epoll, happened[i].data.ptr);
                continue;
            }
            int socket = accept4(listener, NULL, NULL, SOCK_NONBLOCK);
            if (socket >= 0) begin(epoll, socket);
        }
    }
}
