/* What signals do, in parts.c, which includes this. SIGTERM and SIGINT end the program at once, in a container too. SIGUSR1 ends it
until a poll asks to tell of it. No proof covers it, so it is to be read. */
#include <pthread.h>
#include <signal.h>
#include <sys/eventfd.h>
#include <unistd.h>

/* What stands for SIGUSR1 where a poll is asked to tell of a descriptor: none has this number. */
enum { DRAIN = -2 };

/* A counter of the system's, of which the polls tell once the signal has come. It is full then. */
static int counter = -1;

static void hear(int number) {
    int error = errno;
    (void)number;
    if (write(counter, &(uint64_t){UINT64_MAX - 1}, sizeof(uint64_t)) < 0) errno = error;
}

static void begin_to_hear(void) {
    counter = eventfd(0, EFD_NONBLOCK | EFD_CLOEXEC);
    if (counter != -1) sigaction(SIGUSR1, &(struct sigaction){.sa_handler = hear, .sa_flags = SA_RESTART}, NULL);
}

/* The counter, which is made for the first poll that asks. */
static int drain(void) {
    static pthread_once_t once = PTHREAD_ONCE_INIT;
    return pthread_once(&once, begin_to_hear), counter;
}

/* No signal ends a container's first process by default. What is ignored stays so, as SIGINT in the background of a shell. */
static void end(int number) { _exit(128 + number); }
static void end_by(int number) {
    if (signal(number, end) == SIG_IGN) signal(number, SIG_IGN);
}
