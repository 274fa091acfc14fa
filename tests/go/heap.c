/* Tries release/go/heap.c beside the C library: its functions over bytes at all sizes and distances, blocks of all sizes whose bytes
 * are looked at, each refusal, what Go takes back, and threads. Prints what is wrong, and ends with how many checks there were. */
#define memmove heap_memmove
#define memcpy heap_memcpy
#define memset heap_memset
#include "../../release/go/heap.c"
#undef memmove
#undef memcpy
#undef memset
#include <pthread.h>
#include <stdio.h>
#include <stdlib.h>
#include <string.h>

static struct heap heap;
struct heap *ymx_heap(void) { return &heap; }

static long checks, wrong;
static void check(bool is_right, const char *what, size_t n) {
    checks++;
    if (!is_right && wrong++ < 20) printf("wrong: %s, %zu\n", what, n);
}

/* ---- bytes */

enum { ROOM = 5000 };
static unsigned char ours[ROOM], theirs[ROOM];

static void fill(void) {
    for (int i = 0; i < ROOM; i++) ours[i] = theirs[i] = (unsigned char)rand();
}

static void try_bytes(size_t n) {
    for (int distance = -130; distance <= 130; distance++) {
        fill();
        void *to = heap_memmove(ours + 200 + distance, ours + 200, n);
        memmove(theirs + 200 + distance, theirs + 200, n);
        check(to == ours + 200 + distance && memcmp(ours, theirs, ROOM) == 0, "memmove", n);
    }
    fill();
    heap_memcpy(ours + 2501, ours + 3, n), memcpy(theirs + 2501, theirs + 3, n);
    check(memcmp(ours, theirs, ROOM) == 0, "memcpy", n);
    for (int byte = -1; byte < 300; byte += 100) {
        void *to = heap_memset(ours + 7, byte, n);
        memset(theirs + 7, byte, n);
        check(to == ours + 7 && memcmp(ours, theirs, ROOM) == 0, "memset", n);
    }
}

/* ---- memory */

static void lend(size_t size) { ymx_lend(aligned_alloc(4096, (size + 4095) / 4096 * 4096), size); }

/* a block, for which is lent what is lacking */
static unsigned char *obtained(size_t size) {
    for (;;) {
        struct tried made = rattle_alloc(size, 16);
        if (made.ok) return made.at;
        lend(size <= SMALL ? CHUNK : (size_t)ymx_piece(size));
    }
}

static size_t take_all(size_t least) {
    size_t size, count = 0;
    for (int64_t at = ymx_take(least, &size); at != 0; at = ymx_take(least, &size), count++) free((void *)(uintptr_t)at);
    return count;
}

/* A block has all its bytes, none of which another one has, and it is refused where nothing is lent. */
static void try_block(size_t size) {
    unsigned char *a = obtained(size), *b = obtained(size);
    check((uintptr_t)a % 16 == 0 && (uintptr_t)b % 16 == 0, "aligned", size);
    size_t more = ((block *)(a - HEAD))->size + 1; /* as the first that has no room there */
    check(more > size, "room", size);
    rattle_dealloc(obtained(more));
    memset(a, 1, size), memset(b, 2, size);
    struct tried larger = rattle_realloc(a, size, more, 16);
    check(larger.ok && larger.at != a, "a larger block", size);
    unsigned char *c = larger.at;
    memset(c + size, 3, more - size);
    bool is_whole = true;
    for (size_t i = 0; i < size; i++) is_whole = is_whole && c[i] == 1 && b[i] == 2;
    check(is_whole, "bytes of a block and a larger one", size);
    rattle_dealloc(b), rattle_dealloc(c);
}

static void try_refusals(void) {
    take_all(0);
    for (size_t size = SMALL + 1; size < MOST; size += size / 3) {
        struct tried a = rattle_alloc(size, 16);
        check(!a.ok && a.at != NULL, "refused", size);
        check(ymx_wanted() == ymx_piece(size), "wanted", size);
        lend((size_t)ymx_wanted());
        struct tried b = rattle_alloc(size, 16), d = rattle_alloc(size, 16);
        check(b.ok && !d.ok, "lent", size);
        memset(b.at, 3, size);
        struct tried c = rattle_realloc(b.at, size, 2 * size, 16);
        check(!c.ok && ((char *)b.at)[size - 1] == 3, "refused, and all as it was", size);
        rattle_dealloc(b.at);
    }
    for (size_t size = MOST + 1; size != 0; size = size > (size_t)-1 / 2 ? 0 : 2 * size) {
        check(!rattle_alloc(size, 16).ok && ymx_wanted() == 0, "too large", size);
    }
    check(!rattle_alloc((size_t)-1, 16).ok, "all that there is", 0);
}

/* A chunk is filled to its end with blocks of 1,024 bytes, after some of 32, so that each number of bytes is left. */
static void try_chunks(void) {
    for (size_t small = 0; small <= 65; small++) {
        struct heap fresh = {0};
        heap = fresh;
        char *chunk = aligned_alloc(4096, CHUNK);
        ymx_lend((block *)chunk, CHUNK);
        for (size_t i = 0; i < small; i++) rattle_alloc(32, 8);
        size_t count = 0;
        for (struct tried made = rattle_alloc(1024, 8); made.ok; made = rattle_alloc(1024, 8), count++) memset(made.at, 5, 1024);
        check(count == (CHUNK - small * (32 + HEAD)) / (1024 + HEAD), "blocks of a chunk", count);
        check(ymx_wanted() == CHUNK && heap.ready == 0, "an empty chunk", small);
        free(chunk);
    }
}

static void try_taking(void) {
    struct heap fresh = {0};
    heap = fresh;
    size_t buffer = (size_t)ymx_piece(262144), wide = (size_t)ymx_piece(1 << 20);
    check(ymx_class(262144) == BUFFER && buffer == 262144 + HEAD, "buffers", buffer);
    for (int i = 0; i < 10; i++) lend(buffer), lend(wide);
    heap.promised = ((uint64_t)7 << 32) | 3, heap.large[ymx_class(1 << 20)].promised = 4;
    check(take_all(5) == 2 + 6, "all that is neither promised nor to stay", 0);
    check(heap.large[BUFFER].count == 8 && heap.wide == 4, "what stays", 0);
    void *at = rattle_alloc(262144, 8).at;
    check(take_all(0) == 7 - 3, "with a block in use", 0);
    rattle_dealloc(at);
    heap.promised = 0, heap.large[ymx_class(1 << 20)].promised = 0;
    check(take_all(0) == 4 + 4 && heap.large[BUFFER].count == 0 && heap.wide == 0, "the rest", 0);
}

/* ---- threads: each has blocks of its own, and finds in them what it wrote */

static void *work(void *seed) {
    unsigned random = (unsigned)(uintptr_t)seed;
    struct { unsigned char *at; size_t size; unsigned char byte; } own[64] = {0};
    uintptr_t bad = 0;
    for (int round = 0; round < 20000; round++) {
        unsigned place = (unsigned)rand_r(&random) % 64;
        if (own[place].at != NULL) {
            for (size_t i = 0; i < own[place].size; i += 61) bad += own[place].at[i] != own[place].byte;
            bad += own[place].at[own[place].size - 1] != own[place].byte;
            rattle_dealloc(own[place].at);
            own[place].at = NULL;
            continue;
        }
        size_t size = 1 + (size_t)rand_r(&random) % (rand_r(&random) % 50 ? 2000 : 300000);
        own[place].at = obtained(size), own[place].size = size, own[place].byte = (unsigned char)random;
        heap_memset(own[place].at, own[place].byte, size);
    }
    return (void *)bad;
}

/* What was promised while it was free isn't taken back. */
static bool is_over;

static void *promise(void *unused) {
    uintptr_t bad = 0;
    for (int round = 0; round < 300000; round++) {
        uint64_t promised = __atomic_add_fetch(&heap.promised, 1, __ATOMIC_SEQ_CST);
        while (get(&heap.large[BUFFER].count) < promised) lend((size_t)ymx_piece(262144));
        struct tried made = rattle_alloc(262144, 8);
        if (made.ok) rattle_dealloc(made.at);
        else bad++;
        __atomic_sub_fetch(&heap.promised, 1, __ATOMIC_SEQ_CST);
    }
    (void)unused;
    return (void *)bad;
}

static void *take(void *unused) {
    while (!__atomic_load_n(&is_over, __ATOMIC_RELAXED)) take_all(0);
    return unused;
}

static void try_promises(void) {
    struct heap fresh = {0};
    heap = fresh;
    pthread_t taker, promisers[2];
    pthread_create(&taker, NULL, take, NULL);
    for (int i = 0; i < 2; i++) pthread_create(&promisers[i], NULL, promise, NULL);
    for (int i = 0; i < 2; i++) {
        void *bad;
        pthread_join(promisers[i], &bad);
        check(bad == NULL, "promised, and refused", (size_t)bad);
    }
    __atomic_store_n(&is_over, true, __ATOMIC_RELAXED);
    pthread_join(taker, NULL);
}

static void try_sizes(void) {
    for (size_t n = 0; n < 300; n++) try_bytes(n);
    for (size_t n = 300; n < 2300; n += 61) try_bytes(n);
    for (size_t n = 1; n < 3000; n++) try_block(n);
    for (size_t n = 3000; n < 3000000; n += n / 7) try_block(n);
    for (size_t power = 4; power < 25; power++)
        for (size_t n = ((size_t)1 << power) - 1; n <= ((size_t)1 << power) + 1; n++) try_block(n);
}

int main(int count, char **words) {
    bool is_for_threads = count > 1 && strcmp(words[1], "thread") == 0; /* the rest takes long under their checks */
    if (!is_for_threads) try_sizes();
    try_refusals();
    try_chunks();
    try_taking();
    try_promises();
    pthread_t threads[8];
    for (uintptr_t i = 0; i < 8; i++) pthread_create(&threads[i], NULL, work, (void *)(i + 1));
    for (int i = 0; i < 8; i++) {
        void *bad;
        pthread_join(threads[i], &bad);
        check(bad == NULL, "bytes of another thread", (size_t)bad);
    }
    printf("%ld checks, %ld wrong\n", checks, wrong);
    return wrong != 0;
}
