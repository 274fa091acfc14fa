/* What the proved program calls in C, for all targets: the kit has it as objects for x86-64 alone. Written from the
declarations in the kit's libc/src/heap.rt and os/src/c.rt. No proof covers it, so it is to be read. With HEAP_ALONE it is
what the library for C calls. The program is linked with --wrap=main, as musl tells no constructor the words. */
#define _GNU_SOURCE
#include <stdbool.h>
#include <stddef.h>
#include <stdint.h>
#include <stdlib.h>
#include <string.h>

struct tried { bool ok; void *at; };

/* Where there is no memory, the address is not null either: of something that nobody uses. */
static max_align_t nothing;

static struct tried tried(void *at) { return (struct tried){at != NULL, at != NULL ? at : &nothing}; }

/* No bytes take as many as they are aligned to, since malloc(0) may answer NULL. No alignment is above 16. */
static size_t wanted(size_t size, size_t align) { return size != 0 ? size : align; }

#if defined HEAP_ALONE || defined __GLIBC__
struct tried rattle_alloc(size_t size, size_t align) { return tried(malloc(wanted(size, align))); }
struct tried rattle_realloc(void *at, size_t kept, size_t size, size_t align) { return (void)kept, tried(realloc(at, wanted(size, align))); }
void rattle_dealloc(void *at) { free(at); }
#else
#include "musl.c"
#endif

#ifndef HEAP_ALONE
#include <errno.h>
#include <netinet/in.h>
#include <netinet/tcp.h>
#include <sys/epoll.h>
#include <sys/ioctl.h>
#include <sys/resource.h>
#include <sys/socket.h>
#include <sys/syscall.h>
#include <sys/uio.h>
#include "signals.c"

int rattle_errno(void) { return errno; }
void rattle_set_errno(int error) { errno = error; }

/* What clang calls to divide numbers of 128 bits: bit by bit, where they are that long. */
unsigned __int128 __udivti3(unsigned __int128 left, unsigned __int128 by) {
    if (left >> 64 == 0 && by >> 64 == 0) return (uint64_t)left / (uint64_t)by;
    unsigned __int128 rest = 0;
    for (int i = 0; i < 128; i++) {
        bool is_long = rest >> 127 != 0;
        rest = rest << 1 | left >> 127;
        left <<= 1;
        if (is_long || rest >= by) {
            rest -= by;
            left |= 1;
        }
    }
    return left;
}

static size_t count;
static char **words;
int __real_main(int, char **);
int __wrap_main(int argc, char **argv) {
    /* The soft limit of descriptors is for programs that select(2): it becomes the hard one. */
    struct rlimit files;
    if (getrlimit(RLIMIT_NOFILE, &files) == 0) setrlimit(RLIMIT_NOFILE, &(struct rlimit){files.rlim_max, files.rlim_max});
    if (getpid() == 1) end_by(SIGTERM), end_by(SIGINT);
    return count = (size_t)argc, words = argv, __real_main(argc, argv);
}
size_t rattle_arg_count(void) { return count; }

/* The length of that word, which is put into the buffer; -1 where there is none, -2 where it does not fit. */
ssize_t rattle_arg(size_t number, char *buffer, size_t room) {
    if (number >= count || words[number] == NULL) return -1;
    size_t length = strlen(words[number]);
    memcpy(buffer, words[number], length < room ? length : room);
    return length <= room ? (ssize_t)length : -2;
}

/* The kit's entry. The system's is packed on x86-64, and not elsewhere. */
struct entry { uint32_t events; uint64_t data; };

/* Of the link, whose token this is (Source::Link of crates/ymx_sockets/src/source.rt), the system takes no more while it holds so many bytes that it hasn't sent: what is chosen
late leaves late. */
#define LINK 0
#ifndef UNSENT
#define UNSENT 65536
#endif

int rattle_epoll_ctl(int epoll, int what, int file, uint32_t events, uint64_t data) {
    struct epoll_event entry = {.events = events, .data.u64 = data};
    if (what == EPOLL_CTL_ADD && data == LINK) setsockopt(file, IPPROTO_TCP, TCP_NOTSENT_LOWAT, &(int){UNSENT}, sizeof(int));
    return epoll_ctl(epoll, what, file == DRAIN ? drain() : file, &entry);
}

/* The system's entries come to the start of the room. They are no longer than the kit's, so the last is moved first. */
ssize_t rattle_epoll_wait(int epoll, struct entry *entries, size_t room, int timeout) {
    int found = epoll_wait(epoll, (struct epoll_event *)entries, room < 0x1000000 ? (int)room : 0x1000000, timeout);
    for (int i = found - 1; i >= 0; i--) {
        struct epoll_event one;
        memcpy(&one, (char *)entries + (size_t)i * sizeof one, sizeof one);
        entries[i] = (struct entry){one.events, one.data.u64};
    }
    return found;
}

/* Nobody asks for this limit of a connection. The answer is how many bytes of it the other side hasn't acknowledged. */
int getsockopt(int file, int level, int name, void *value, socklen_t *size) {
    if (level == IPPROTO_TCP && name == TCP_USER_TIMEOUT && *size == sizeof(int)) return ioctl(file, TIOCOUTQ, value);
    return (int)syscall(SYS_getsockopt, file, level, name, value, size);
}

int rattle_set_nonblocking(int file, bool on) { return ioctl(file, FIONBIO, &(int){on}); }

ssize_t rattle_write_parts(int file, bool is_socket, void *a, size_t a_size, void *b, size_t b_size, void *c, size_t c_size, void *d, size_t d_size) {
    struct iovec parts[4] = {{a, a_size}, {b, b_size}, {c, c_size}, {d, d_size}};
    struct msghdr message = {.msg_iov = parts, .msg_iovlen = 4};
    return is_socket ? sendmsg(file, &message, MSG_NOSIGNAL) : writev(file, parts, 4);
}
#endif
