/* How fast two sessions of one thread talk over a buffer of 64 KiB each way, from C: the work of session_bench.rattle,
 * call for call; and bytes on one stream and on 64, by copies and without. A line has a name, how many units, and the
 * nanoseconds that they took. */
#define _POSIX_C_SOURCE 200809L
#include <ymx.h>

#include <stdio.h>
#include <stdlib.h>
#include <string.h>
#include <time.h>

enum { BUFFER = 65536, FRAMES = 1000 };

/* Two sessions, and a buffer for what moves each way between them. */
struct pair {
    ymx_session *client, *server;
    unsigned char there[BUFFER], back[BUFFER];
};

static unsigned char block[BUFFER], out[BUFFER];

static struct pair *make_pair(void) {
    struct pair *p = calloc(1, sizeof *p);
    if (p == NULL || ymx_new(YMX_CLIENT, YMX_LEAST_WINDOW, 0, &p->client) != 0 ||
        ymx_new(YMX_SERVER, YMX_LEAST_WINDOW, 0, &p->server) != 0)
        exit(1);
    return p;
}

static void end_pair(struct pair *p) {
    ymx_free(p->client);
    ymx_free(p->server);
    free(p);
}

/* One emission of a session is fed to the other. */
static void pass(ymx_session *from, ymx_session *to, unsigned char *buffer) {
    ymx_feed(to, buffer, (size_t)ymx_emit(from, buffer, BUFFER));
}

static void there(struct pair *p) { pass(p->client, p->server, p->there); }
static void back(struct pair *p) { pass(p->server, p->client, p->back); }

/* Opens and accepts a stream. */
static uint32_t open_one(struct pair *p) {
    int64_t id = ymx_open(p->client);
    there(p);
    if (id < 1 || ymx_accept(p->server) != id) exit(1);
    back(p);
    return (uint32_t)id;
}

static double now(void) {
    struct timespec time;
    clock_gettime(CLOCK_MONOTONIC, &time);
    return (double)time.tv_sec * 1e9 + (double)time.tv_nsec;
}

static void say(const char *name, double units, double began) { printf("%s %.0f %.0f\n", name, units, now() - began); }

/* One stream beside so many idle ones: bytes of payload. */
static void one_stream(const char *name, int idle) {
    struct pair *p = make_pair();
    double bytes = 0, began;
    uint32_t id;
    for (int i = 0; i < idle; i++) open_one(p);
    id = open_one(p);
    began = now();
    for (int i = 0; i < 40000; i++) {
        int64_t count;
        ymx_write(p->client, id, block, BUFFER);
        there(p);
        count = ymx_read(p->server, id, out, BUFFER);
        if (count > 0) bytes += (double)count;
        back(p);
    }
    say(name, bytes, began);
    end_pair(p);
}

/* What the client has emitted goes to the server, which takes payload from where it lies. How many bytes of it came. */
static double take(struct pair *p, const unsigned char *bytes, size_t len, ymx_touched *touched) {
    double came = 0;
    while (len > 0) {
        uint32_t id;
        size_t taken = (size_t)ymx_feed_to_payload(p->server, bytes, len, touched);
        bytes += taken;
        len -= taken;
        if (ymx_passing(p->server, &id) == 0 && taken == 0) break;
        taken = (size_t)ymx_pass(p->server, bytes, len);
        bytes += taken;
        len -= taken;
        came += (double)taken;
    }
    ymx_touched_clear(touched);
    return came;
}

/* So many streams, each of which sends 16,384 bytes in turn: written, emitted, fed and read. */
static void in_turn(const char *name, int streams) {
    struct pair *p = make_pair();
    double bytes = 0, began;
    uint32_t ids[64];
    for (int i = 0; i < streams; i++) ids[i] = open_one(p);
    began = now();
    for (int round = 0; round < 160000 / streams; round++) {
        int64_t count;
        for (int i = 0; i < streams; i++) ymx_write(p->client, ids[i], block, 16384);
        while ((count = ymx_emit(p->client, p->there, BUFFER)) > 0) ymx_feed(p->server, p->there, (size_t)count);
        for (int i = 0; i < streams; i++)
            while ((count = ymx_read(p->server, ids[i], out, BUFFER)) > 0) bytes += (double)count;
        back(p);
    }
    say(name, bytes, began);
    end_pair(p);
}

/* The same without a copy in a session: the sender's is the one into the buffer that goes out. */
static void in_turn_through(const char *name, int streams) {
    struct pair *p = make_pair();
    ymx_touched *touched;
    double bytes = 0, began;
    uint32_t ids[64];
    if (ymx_touched_new(&touched) != 0) exit(1);
    for (int i = 0; i < streams; i++) ids[i] = open_one(p);
    began = now();
    for (int round = 0; round < 160000 / streams; round++) {
        for (int i = 0; i < streams; i++) {
            int64_t count = ymx_write_through(p->client, ids[i], block, 16384, p->there, BUFFER);
            if (count <= 0) exit(1);
            bytes += take(p, p->there, (size_t)count, touched);
        }
        back(p);
    }
    say(name, bytes, began);
    ymx_touched_free(touched);
    end_pair(p);
}

/* Messages of 100 bytes on 64 streams beside so many idle ones. */
static void messages(const char *name, int idle) {
    struct pair *p = make_pair();
    double count = 0, began;
    uint32_t ids[64];
    for (int i = 0; i < idle; i++) open_one(p);
    for (int i = 0; i < 64; i++) ids[i] = open_one(p);
    began = now();
    for (int round = 0; round < 20000; round++) {
        for (int i = 0; i < 64; i++) ymx_write(p->client, ids[i], block, 100);
        there(p);
        for (int i = 0; i < 64; i++) count += ymx_read(p->server, ids[i], out, 200) == 100;
        back(p);
    }
    say(name, count, began);
    end_pair(p);
}

/* Whole lives of streams, one after another. */
static void streams(const char *name) {
    struct pair *p = make_pair();
    double ended = 0, began = now();
    for (int i = 0; i < 400000; i++) {
        uint32_t id = (uint32_t)ymx_open(p->client);
        int64_t wrote = ymx_write(p->client, id, block, 1), came, end;
        ymx_finish(p->client, id);
        there(p);
        ymx_accept(p->server);
        came = ymx_read(p->server, id, out, 8);
        end = ymx_read(p->server, id, out, 1);
        ymx_finish(p->server, id);
        ymx_forget(p->server, id);
        back(p);
        ymx_forget(p->client, id);
        ended += wrote == 1 && came == 1 && end == 0;
    }
    say(name, ended, began);
    end_pair(p);
}

/* The frames of so many pings. */
static unsigned char frames[12 * FRAMES];

static void make_frames(void) {
    static const unsigned char ping[12] = {0, 2, 0, 1, 0, 0, 0, 0, 0, 0, 0, 9};
    for (int i = 0; i < FRAMES; i++) memcpy(frames + 12 * i, ping, 12);
}

/* Pings are fed, and answered. */
static void pings(const char *name) {
    struct pair *p = make_pair();
    double bytes = 0, began = now();
    for (int i = 0; i < 24000; i++) {
        ymx_feed(p->server, frames, sizeof frames);
        bytes += (double)ymx_emit(p->server, p->back, BUFFER);
    }
    say(name, bytes / 12, began);
    end_pair(p);
}

/* Pings are fed, and answered, where each feed notes what it touches. */
static void noted_pings(const char *name) {
    struct pair *p = make_pair();
    ymx_touched *touched;
    double bytes = 0, began;
    if (ymx_touched_new(&touched) != 0) exit(1);
    began = now();
    for (int i = 0; i < 24000; i++) {
        ymx_touched_clear(touched);
        ymx_feed_touching(p->server, frames, sizeof frames, touched);
        bytes += (double)ymx_emit(p->server, p->back, BUFFER);
    }
    say(name, bytes / 12, began);
    ymx_touched_free(touched);
    end_pair(p);
}

int main(void) {
    memset(block, 7, BUFFER);
    make_frames();
    one_stream("one_stream_bytes", 0);
    one_stream("one_stream_beside_1000_idle_bytes", 1000);
    in_turn("bulk_bytes", 1);
    in_turn_through("bulk_bytes_without_copies", 1);
    in_turn("bulk_bytes_on_64", 64);
    in_turn_through("bulk_bytes_on_64_without_copies", 64);
    messages("messages_of_100_bytes", 0);
    messages("messages_beside_960_idle", 960);
    streams("streams");
    pings("pings");
    noted_pings("pings_noted");
    return 0;
}
