/* Runs another program with the same words, in few descriptors and in the same process: with ROOT the program ymx_alone of
that folder, which is its root then; with UNDER and PROGRAM the first, which is given the second to run. */
#define _GNU_SOURCE
#include <stdio.h>
#include <stdlib.h>
#include <unistd.h>

int main(int count, char **words) {
#ifdef ROOT
    (void)count;
    if (chroot(ROOT) == 0 && chdir("/") == 0) execv("/ymx_alone", words);
#else
    char **all = calloc((size_t)count + 2, sizeof *all);
    if (!all) return 127;
    all[0] = UNDER;
    all[1] = PROGRAM;
    for (int i = 1; i < count; i++) all[i + 1] = words[i];
    execv(UNDER, all);
#endif
    perror(words[0]);
    return 127;
}
