/* For tests: allocations of which one fails, calls that are made again where memory ran out, and
   texts that are compared. Linked with -Wl,--wrap=malloc -Wl,--wrap=realloc. */
#ifndef FAILING_H
#define FAILING_H

#include "ignore_proved.h"

#include <stdio.h>
#include <stdlib.h>
#include <string.h>

#define TEXT(text) (const uint8_t *)(text), strlen(text)
/* A text with zeros inside, or without an end. */
#define BYTES(text) (const uint8_t *)(text), sizeof(text) - 1

/* The allocation that fails, counted from 1; 0 for none. How many there were. */
static unsigned long failing, allocations;

void *__real_malloc(size_t size);
void *__real_realloc(void *at, size_t size);
void *__wrap_malloc(size_t size);
void *__wrap_realloc(void *at, size_t size);

void *__wrap_malloc(size_t size) {
    return ++allocations == failing ? NULL : __real_malloc(size);
}

void *__wrap_realloc(void *at, size_t size) {
    return ++allocations == failing ? NULL : __real_realloc(at, size);
}

static unsigned long wrong;

/* Makes a call, and again where it is out of memory; its answer must be the one that is wanted. */
#define CALL(wanted, call)                                                                         \
    do {                                                                                           \
        uint32_t code = (call);                                                                    \
        if (code == IGNORE_NO_MEMORY && failing)                                                   \
            code = (call);                                                                         \
        if (code != (wanted)) {                                                                    \
            wrong++;                                                                               \
            printf("%s:%d, allocation %lu fails: %u, and not %d\n", __FILE__, __LINE__, failing,   \
                   code, (int)(wanted));                                                           \
        }                                                                                          \
    } while (0)

#define HOLDS(claim)                                                                               \
    do {                                                                                           \
        if (!(claim)) {                                                                            \
            wrong++;                                                                               \
            printf("%s:%d, allocation %lu fails: %s doesn't hold\n", __FILE__, __LINE__, failing,  \
                   #claim);                                                                        \
        }                                                                                          \
    } while (0)

static inline void same(const char *wanted, const uint8_t *room, size_t length) {
    if (length != strlen(wanted) || memcmp(wanted, room, length)) {
        wrong++;
        printf("allocation %lu fails: %.*s, and not %s\n", failing, (int)length, room, wanted);
    }
}

/* Makes a round of calls without a failure, and then with each of its allocations failing in turn. */
static inline unsigned long each_fails(void (*round_of_calls)(void)) {
    failing = allocations = 0;
    round_of_calls();
    unsigned long whole = allocations;
    for (failing = 1; failing <= whole; failing++) {
        allocations = 0;
        round_of_calls();
    }
    failing = 0;
    return whole;
}

#endif
