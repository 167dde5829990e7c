/* A check of a test program: where the fact is false it says where, and main returns 1. */
#ifndef CHECK_H
#define CHECK_H

#include <stdio.h>

#define CHECK(fact)                                                          \
    do {                                                                     \
        if (!(fact)) {                                                       \
            fprintf(stderr, "%s:%d: not so: %s\n", __FILE__, __LINE__, #fact); \
            return 1;                                                        \
        }                                                                    \
    } while (0)

#endif
