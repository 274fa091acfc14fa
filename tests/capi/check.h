/* What the tests of the C interface share. */
#ifndef CHECK_H
#define CHECK_H
#include <ymx.h>

#include <stdio.h>
#include <stdlib.h>
#include <string.h>

/* Ends the test where this doesn't hold. */
#define CHECK(held)                                                           \
    do {                                                                      \
        if (!(held)) {                                                        \
            fprintf(stderr, "%s:%d: %s\n", __FILE__, __LINE__, #held);        \
            exit(1);                                                          \
        }                                                                     \
    } while (0)

#endif
