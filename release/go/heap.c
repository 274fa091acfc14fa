/* What the proved object asks of C, for the Go package: memory, and three functions over bytes. No C library, no system call, no
 * thread-local storage and no data that is written: what the heap knows lies in Go's data, and its memory is what Go has lent. No proof
 * covers this: it is to be read, and tests/go/heap.c tries it. */
#include <stdbool.h>
#include <stddef.h>
#include <stdint.h>

/* ---- bytes */

typedef uint8_t v16 __attribute__((vector_size(16), aligned(1), may_alias));
typedef uint64_t u64 __attribute__((aligned(1), may_alias));
typedef uint32_t u32 __attribute__((aligned(1), may_alias));
typedef uint16_t u16 __attribute__((aligned(1), may_alias));

void *memmove(void *to, const void *from, size_t n) {
    char *d = to;
    const char *s = from;
    if (n >= 16) {
        if (n <= 32) {
            v16 a = *(v16 *)s, b = *(v16 *)(s + n - 16);
            *(v16 *)d = a, *(v16 *)(d + n - 16) = b;
            return to;
        }
        if ((uintptr_t)d - (uintptr_t)s >= n) { /* forwards: nothing is written before it is read */
#ifdef __x86_64__
            if (n >= 768 && (uintptr_t)s - (uintptr_t)d >= 64) {
                __asm__ volatile("rep movsb" : "+D"(d), "+S"(s), "+c"(n) : : "memory");
                return to;
            }
#endif
            v16 last = *(v16 *)(s + n - 16);
            char *end = d + n - 16;
            size_t i = 0;
            for (; i + 64 < n; i += 64) {
                v16 a = *(v16 *)(s + i), b = *(v16 *)(s + i + 16), c = *(v16 *)(s + i + 32), e = *(v16 *)(s + i + 48);
                *(v16 *)(d + i) = a, *(v16 *)(d + i + 16) = b, *(v16 *)(d + i + 32) = c, *(v16 *)(d + i + 48) = e;
            }
            for (; i + 16 < n; i += 16) {
                v16 a = *(v16 *)(s + i);
                *(v16 *)(d + i) = a;
            }
            *(v16 *)end = last;
        } else {
            v16 first = *(v16 *)s;
            for (size_t i = n; i > 16; i -= 16) {
                v16 a = *(v16 *)(s + i - 16);
                *(v16 *)(d + i - 16) = a;
            }
            *(v16 *)d = first;
        }
        return to;
    }
    if (n >= 8) {
        uint64_t a = *(u64 *)s, b = *(u64 *)(s + n - 8);
        *(u64 *)d = a, *(u64 *)(d + n - 8) = b;
    } else if (n >= 4) {
        uint32_t a = *(u32 *)s, b = *(u32 *)(s + n - 4);
        *(u32 *)d = a, *(u32 *)(d + n - 4) = b;
    } else if (n >= 2) {
        uint16_t a = *(u16 *)s, b = *(u16 *)(s + n - 2);
        *(u16 *)d = a, *(u16 *)(d + n - 2) = b;
    } else if (n == 1) {
        *d = *s;
    }
    return to;
}

void *memcpy(void *to, const void *from, size_t n) { return memmove(to, from, n); }

void *memset(void *to, int byte, size_t n) {
    char *d = to;
    uint64_t all = 0x0101010101010101u * (uint8_t)byte;
    if (n < 16) {
        for (size_t i = 0; i < n; i++) ((volatile char *)d)[i] = (char)byte;
        return to;
    }
#ifdef __x86_64__
    if (n >= 768) {
        __asm__ volatile("rep stosb" : "+D"(d), "+c"(n) : "a"(byte) : "memory");
        return to;
    }
#endif
    typedef uint64_t two __attribute__((vector_size(16), aligned(1), may_alias));
    two both = {all, all};
    size_t i = 0;
    for (; i + 64 < n; i += 64) *(two *)(d + i) = both, *(two *)(d + i + 16) = both, *(two *)(d + i + 32) = both, *(two *)(d + i + 48) = both;
    for (; i + 16 < n; i += 16) *(two *)(d + i) = both;
    *(two *)(d + n - 16) = both;
    return to;
}

/* ---- the heap
 *
 * A block has its size in the 16 bytes before it, four sizes to a doubling. Small ones are cut from chunks, and stay. Each large one
 * is a piece that Go has lent, and stays until Go takes it back.
 *
 * A call can't ask Go for memory, so Go lends it before: it adds to `promised` what a call may take, sees what is free, and lends what
 * is lacking for all promises together. What is promised is a number, and names no call; a request for which nothing is free is
 * refused. */

enum {
    HEAD = 16,
    SMALL = 196608, /* each table of 1,024 streams takes less */
    CHUNK = 1 << 20,
    CALL = 262144, /* what a call takes of small blocks at most: 187,904 bytes were seen, in a feed that made 256 streams beside 512 */
    SMALLS = 51,
    LARGES = 30,
    BUFFER = 1, /* the place among the large ones of those of 262,144 bytes, a stream's buffers */
    MOST = 33554432,
};
typedef struct block { size_t size; struct block *next; } block; /* its head */
struct large {
    block *used, *unused; /* those that are free; used ones go first, since their pages are there */
    uint64_t count, promised;
};
/* It lies in Go's data, and its beginning, to `large`, is what memory.go has of it. */
struct heap {
    uint64_t promised; /* by Go: in the upper half the calls that may take small blocks, in the lower half buffers */
    uint64_t ready;    /* how many chunks have CALL bytes left */
    uint64_t wide;     /* large blocks that are free and no buffers */
    struct large large[LARGES];
    block *small[SMALLS]; /* of each size, those that are free */
    char *fresh, *fresh_end; /* what is left of the chunk that is in use */
    block *chunks; /* the others */
    size_t others; /* how many they are */
    size_t wanted; /* what was refused last */
    int locked;
    char nothing[16] __attribute__((aligned(16)));
};
_Static_assert(sizeof(struct heap) <= 2048, "memory.go has 2,048 bytes for it");
_Static_assert(offsetof(struct heap, large) == 24 && sizeof(struct large) == 32, "memory.go has it so");
struct heap *ymx_heap(void); /* where it lies: in Go's assembly */

static void lock(struct heap *h) {
    while (__atomic_exchange_n(&h->locked, 1, __ATOMIC_ACQUIRE) != 0)
        while (__atomic_load_n(&h->locked, __ATOMIC_RELAXED) != 0)
#ifdef __x86_64__
            __asm__ volatile("pause");
#else
            __asm__ volatile("yield");
#endif
}
static void unlock(struct heap *h) { __atomic_store_n(&h->locked, 0, __ATOMIC_RELEASE); }

/* Go reads and writes these numbers without the lock. */
static void set(uint64_t *at, uint64_t value) { __atomic_store_n(at, value, __ATOMIC_RELAXED); }
static uint64_t get(const uint64_t *at) { return __atomic_load_n(at, __ATOMIC_SEQ_CST); }

/* Which size a block of so many bytes has: 32, 40, 48, 56, 64, 80 .. */
static unsigned class_of(size_t size, size_t *whole) {
    if (size <= 32) return *whole = 32, 0;
    unsigned top = 63 - (unsigned)__builtin_clzll(size - 1); /* 2^top < size <= 2^(top + 1), top >= 5 */
    size_t step = (size_t)1 << (top - 2);
    size_t steps = (size - 1 - ((size_t)1 << top)) / step + 1; /* 1 to 4 */
    *whole = ((size_t)1 << top) + steps * step;
    return (top - 5) * 4 + (unsigned)steps;
}

static void put(block **list, block *at) { at->next = *list, *list = at; }

static block *pop(block **list) {
    block *at = *list;
    if (at != NULL) *list = at->next;
    return at;
}

static void put_large(struct heap *h, block *at, bool is_used) {
    size_t whole;
    struct large *l = &h->large[class_of(at->size, &whole) - SMALLS];
    put(is_used ? &l->used : &l->unused, at);
    set(&l->count, l->count + 1);
    if (l != &h->large[BUFFER]) set(&h->wide, h->wide + 1);
}

static block *pop_large(struct heap *h, struct large *l) {
    block *at = pop(l->used != NULL ? &l->used : &l->unused);
    if (at == NULL) return NULL;
    set(&l->count, l->count - 1);
    if (l != &h->large[BUFFER]) set(&h->wide, h->wide - 1);
    return at;
}

static void count_ready(struct heap *h) { set(&h->ready, h->others + ((size_t)(h->fresh_end - h->fresh) >= CALL)); }

static block *pop_small(struct heap *h, unsigned class, size_t whole) {
    block *at = pop(&h->small[class]);
    if (at != NULL) return at;
    size_t all = (whole + HEAD + 15) & ~(size_t)15;
    if ((size_t)(h->fresh_end - h->fresh) < all) { /* what is left is lost */
        char *other = (char *)pop(&h->chunks);
        if (other == NULL) return NULL;
        h->fresh = other, h->fresh_end = other + CHUNK, h->others--;
    }
    at = (block *)h->fresh;
    h->fresh += all;
    count_ready(h);
    at->size = whole;
    return at;
}

static void *obtain(size_t size) {
    struct heap *h = ymx_heap();
    block *at = NULL;
    lock(h);
    if (size <= MOST) {
        size_t whole;
        unsigned class = class_of(size, &whole);
        at = size > SMALL ? pop_large(h, &h->large[class - SMALLS]) : pop_small(h, class, whole);
    }
    if (at == NULL) h->wanted = size;
    unlock(h);
    return at != NULL ? (char *)at + HEAD : NULL;
}

struct tried { bool ok; void *at; };
static struct tried tried(void *at) { return (struct tried){at != NULL, at != NULL ? at : ymx_heap()->nothing}; }

struct tried rattle_alloc(size_t size, size_t align) { return tried(obtain(size != 0 ? size : align)); }

void rattle_dealloc(void *it) {
    block *at = (block *)((char *)it - HEAD);
    struct heap *h = ymx_heap();
    size_t whole;
    lock(h);
    if (at->size > SMALL) put_large(h, at, true);
    else put(&h->small[class_of(at->size, &whole)], at);
    unlock(h);
}

struct tried rattle_realloc(void *it, size_t kept, size_t size, size_t align) {
    size_t wanted = size != 0 ? size : align;
    if (((block *)((char *)it - HEAD))->size >= wanted) return tried(it);
    void *other = obtain(wanted);
    if (other == NULL) return tried(NULL);
    memmove(other, it, kept < wanted ? kept : wanted);
    rattle_dealloc(it);
    return tried(other);
}

/* ---- what Go asks of the heap */

/* The size of the piece that holds a large block of so many bytes. */
int64_t ymx_piece(size_t size) {
    size_t whole;
    class_of(size, &whole);
    return (int64_t)(whole + HEAD);
}

/* Its place among the large ones. */
int64_t ymx_class(size_t size) {
    size_t whole;
    return (int64_t)class_of(size, &whole) - SMALLS;
}

/* Go lends a piece: of CHUNK bytes, or one that holds a large block. */
int64_t ymx_lend(block *at, size_t size) {
    struct heap *h = ymx_heap();
    at->size = size - HEAD; /* so its page is there before others wait */
    lock(h);
    if (size == CHUNK) put(&h->chunks, at), h->others++, count_ready(h);
    else put_large(h, at, false);
    unlock(h);
    return 0;
}

/* The size of a piece with which the call that was refused last may be made again, or 0: there is none so large. */
int64_t ymx_wanted(void) {
    struct heap *h = ymx_heap();
    lock(h);
    size_t wanted = h->wanted;
    unlock(h);
    if (wanted > MOST || wanted == 0) return 0;
    return wanted <= SMALL ? CHUNK : ymx_piece(wanted);
}

/* Go takes a large block back that no promise needs: a buffer if more than `least` are free, or any other. A promise may be made
 * meanwhile, which has still counted the block. So there is a look behind, in one order with what Go does: either it is seen here, or
 * Go has seen the block go. */
int64_t ymx_take(size_t least, size_t *size) {
    struct heap *h = ymx_heap();
    block *at = NULL;
    lock(h);
    for (struct large *l = h->large; l < h->large + LARGES && at == NULL; l++) {
        bool is_buffer = l == &h->large[BUFFER];
        const uint64_t *promised = is_buffer ? &h->promised : &l->promised;
        if (l->count <= (uint32_t)get(promised) + (is_buffer ? least : 0)) continue;
        at = pop_large(h, l);
        __atomic_store_n(&l->count, l->count, __ATOMIC_SEQ_CST);
        if (l->count < (uint32_t)get(promised)) put_large(h, at, true), at = NULL;
    }
    unlock(h);
    if (at != NULL) *size = at->size + HEAD;
    return (int64_t)(uintptr_t)at;
}
