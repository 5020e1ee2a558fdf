/* How a test in C compares what it got with what it wants: where they differ, it says so and ends with status 1. */
#ifndef ANSWERS_H
#define ANSWERS_H

#include <stdio.h>
#include <stdlib.h>

#define IS(a, b)                                                                                                   \
    do {                                                                                                           \
        long long x = (long long)(a), y = (long long)(b);                                                          \
        if (x != y) {                                                                                              \
            printf("%s:%d: %s is %lld, not %lld\n", __FILE__, __LINE__, #a, x, y);                                 \
            exit(1);                                                                                               \
        }                                                                                                          \
    } while (0)

#endif
