/* Loaded before the C library (LD_PRELOAD), this makes one allocation of a program fail: the one whose number,
   counted from 1, the variable FAIL_AT gives, of all or of those that are made while the file is there that
   COUNT_WHILE names; or each of so many bytes or more as FAIL_FROM_BYTES gives. Or it refuses one thread: the one
   whose number FAIL_THREAD_AT gives; or one call about the readiness of descriptors, to make a set, to change it or
   to wait for it: the one whose number FAIL_POLL_AT gives. If it came to one of those that have a number, the file
   that the variable FAILED names is there afterwards. */
#define _GNU_SOURCE
#include <dlfcn.h>
#include <errno.h>
#include <fcntl.h>
#include <pthread.h>
#include <stdlib.h>
#include <sys/epoll.h>
#include <unistd.h>

extern void *__libc_malloc(size_t size);
extern void *__libc_realloc(void *block, size_t size);

static const char *count_while;
static long calls, fail_at, fail_from_bytes, threads, fail_thread_at, polls, fail_poll_at;

static long number_in(const char *variable)
{
    const char *number = getenv(variable);
    return number ? atol(number) : 0;
}

__attribute__((constructor)) static void begin(void)
{
    count_while = getenv("COUNT_WHILE");
    fail_at = number_in("FAIL_AT");
    fail_from_bytes = number_in("FAIL_FROM_BYTES");
    fail_thread_at = number_in("FAIL_THREAD_AT");
    fail_poll_at = number_in("FAIL_POLL_AT");
    calls = 0;
}

static int is_reached(long *count, long wanted)
{
    if (__atomic_add_fetch(count, 1, __ATOMIC_SEQ_CST) != wanted)
        return 0;
    const char *name = getenv("FAILED");
    int file = name ? open(name, O_WRONLY | O_CREAT, 0600) : -1;
    if (file >= 0)
        close(file);
    return 1;
}

static int fails(long *count, long wanted)
{
    if (!is_reached(count, wanted))
        return 0;
    errno = ENOMEM;
    return 1;
}

static int fails_of(size_t size)
{
    if (!fail_from_bytes || size < (size_t)fail_from_bytes)
        return (!count_while || !access(count_while, F_OK)) && fails(&calls, fail_at);
    errno = ENOMEM;
    return 1;
}

void *malloc(size_t size)
{
    return fails_of(size) ? NULL : __libc_malloc(size);
}

void *realloc(void *block, size_t size)
{
    return fails_of(size) ? NULL : __libc_realloc(block, size);
}

int pthread_create(pthread_t *thread, const pthread_attr_t *with, void *(*run)(void *), void *given)
{
    int (*create)(pthread_t *, const pthread_attr_t *, void *(*)(void *), void *);
    if (is_reached(&threads, fail_thread_at))
        return EAGAIN;
    *(void **)&create = dlsym(RTLD_NEXT, "pthread_create");
    return create(thread, with, run, given);
}

int epoll_create1(int flags)
{
    int (*create)(int);
    if (fails(&polls, fail_poll_at))
        return -1;
    *(void **)&create = dlsym(RTLD_NEXT, "epoll_create1");
    return create(flags);
}

int epoll_ctl(int set, int how, int descriptor, struct epoll_event *event)
{
    int (*change)(int, int, int, struct epoll_event *);
    if (fails(&polls, fail_poll_at))
        return -1;
    *(void **)&change = dlsym(RTLD_NEXT, "epoll_ctl");
    return change(set, how, descriptor, event);
}

int epoll_wait(int set, struct epoll_event *events, int most, int timeout)
{
    int (*wait)(int, struct epoll_event *, int, int);
    if (fails(&polls, fail_poll_at))
        return -1;
    *(void **)&wait = dlsym(RTLD_NEXT, "epoll_wait");
    return wait(set, events, most, timeout);
}
