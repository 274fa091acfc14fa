/* Linked into tests in place of the kit's heap. A test whose name ends in `_holds` is run with the first allocation
   refused, then with the second, and so on, each time in a process of its own, and then with none refused. It fails if
   it does not pass whichever allocation is refused, or if it takes no memory. The file TOLD then gets a line with the
   test's name and how many allocations were refused. Other tests are run as ever. */
#include <fcntl.h>
#include <stdio.h>
#include <stdlib.h>
#include <string.h>
#include <sys/mman.h>
#include <sys/wait.h>
#include <unistd.h>

/* Whether there was memory, and where it lies. */
struct found {
    unsigned long is_there;
    void *block;
};

/* An address for memory that isn't there. Nothing reads or writes it. */
static char nowhere;

static long calls, refused_at;

/* Set once an allocation was refused; the process that waits for the test sees it. */
static volatile int *was_refused;

static int is_refused(void)
{
    if (refused_at == 0 || __atomic_add_fetch(&calls, 1, __ATOMIC_SEQ_CST) != refused_at)
        return 0;
    *was_refused = 1;
    return 1;
}

static struct found found(void *block)
{
    struct found made = {block != NULL, block != NULL ? block : &nowhere};
    return made;
}

struct found rattle_alloc(size_t size, size_t least)
{
    return found(is_refused() ? NULL : malloc(size != 0 ? size : least));
}

struct found rattle_realloc(void *block, size_t old, size_t size, size_t least)
{
    (void)old;
    return found(is_refused() ? NULL : realloc(block, size != 0 ? size : least));
}

void rattle_dealloc(void *block)
{
    free(block);
}

static int is_to_hold(const char *name)
{
    size_t length = strlen(name), ending = strlen("_holds");
    return length > ending && strcmp(name + length - ending, "_holds") == 0;
}

static void stop(const char *why, long number)
{
    fprintf(stderr, "%s (allocation %ld)\n", why, number);
    _exit(1);
}

static void tell(const char *name, long refused)
{
    FILE *told = fopen(TOLD, "a");
    if (told == NULL)
        stop("nobody is told", refused);
    fprintf(told, "%s %ld\n", name, refused);
    fclose(told);
}

__attribute__((constructor)) static void refuse_each(int count, char **words)
{
    if (count < 2 || !is_to_hold(words[1]))
        return;
    was_refused = mmap(NULL, sizeof *was_refused, PROT_READ | PROT_WRITE, MAP_SHARED | MAP_ANONYMOUS, -1, 0);
    if (was_refused == MAP_FAILED)
        stop("no memory is shared", 0);
    for (long number = 1;; number++) {
        int status = 0;
        *was_refused = 0;
        pid_t child = fork();
        if (child < 0)
            stop("no process can be made", number);
        if (child == 0) {
            int silent = open("/dev/null", O_WRONLY);
            if (silent >= 0)
                dup2(silent, STDOUT_FILENO);
            refused_at = number;
            return;
        }
        if (waitpid(child, &status, 0) != child || !WIFEXITED(status) || WEXITSTATUS(status) != 0)
            stop("the test does not hold", number);
        if (!*was_refused) {
            if (number == 1)
                stop("the test takes no memory", number);
            tell(words[1], number - 1);
            return;
        }
    }
}
