/* Each connect takes a byte first from the pipe whose number the variable HELD_BY has, and waits until one is there or the
other end is closed: so whoever has that end says when connections are made. */
#define _GNU_SOURCE
#include <dlfcn.h>
#include <stdlib.h>
#include <sys/socket.h>
#include <unistd.h>

typedef int connect_call(int, const struct sockaddr *, socklen_t);

int connect(int socket, const struct sockaddr *address, socklen_t length) {
    static connect_call *next;
    const char *held_by = getenv("HELD_BY");
    char byte;
    if (!next) *(void **)&next = dlsym(RTLD_NEXT, "connect");
    if (held_by && read(atoi(held_by), &byte, 1) < 0) return -1;
    return next(socket, address, length);
}
