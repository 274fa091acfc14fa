/* Loaded before the C library (LD_PRELOAD), this counts the bytes that a program has asked for and not given back, and says
   on standard error how many these were at most. */
#include <errno.h>
#include <malloc.h>
#include <stdio.h>
#include <stdlib.h>
#include <sys/syscall.h>
#include <unistd.h>

extern void *__libc_malloc(size_t size);
extern void *__libc_calloc(size_t count, size_t size);
extern void *__libc_realloc(void *block, size_t size);
extern void *__libc_memalign(size_t alignment, size_t size);
extern void __libc_free(void *block);

static long held, most;

static void *given(void *block)
{
    long now = __atomic_add_fetch(&held, (long)malloc_usable_size(block), __ATOMIC_SEQ_CST);
    long before = __atomic_load_n(&most, __ATOMIC_SEQ_CST);
    while (now > before && !__atomic_compare_exchange_n(&most, &before, now, 0, __ATOMIC_SEQ_CST, __ATOMIC_SEQ_CST))
        ;
    return block;
}

static void gone(void *block)
{
    __atomic_sub_fetch(&held, (long)malloc_usable_size(block), __ATOMIC_SEQ_CST);
}

void *malloc(size_t size)
{
    return given(__libc_malloc(size));
}

void *calloc(size_t count, size_t size)
{
    return given(__libc_calloc(count, size));
}

void *realloc(void *block, size_t size)
{
    gone(block);
    return given(__libc_realloc(block, size));
}

void *aligned_alloc(size_t alignment, size_t size)
{
    return given(__libc_memalign(alignment, size));
}

int posix_memalign(void **block, size_t alignment, size_t size)
{
    *block = given(__libc_memalign(alignment, size));
    return *block ? 0 : ENOMEM;
}

void free(void *block)
{
    gone(block);
    __libc_free(block);
}

/* (a program in Rattle ends by this call) */
void _exit(int status)
{
    fprintf(stderr, "held %ld\n", most);
    syscall(SYS_exit_group, status);
    for (;;)
        ;
}
