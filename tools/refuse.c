// Preloaded to a program: makes its allocation with the number REFUSE fail, counted from 1, and
// writes how many there were to the file COUNT.
#define _GNU_SOURCE
#include <dlfcn.h>
#include <stdio.h>
#include <stdlib.h>

static void *(*next_malloc)(size_t);
static void *(*next_realloc)(void *, size_t);
static unsigned long refused, count;

__attribute__((constructor)) static void begin(void) {
    const char *number = getenv("REFUSE");
    next_malloc = dlsym(RTLD_NEXT, "malloc");
    next_realloc = dlsym(RTLD_NEXT, "realloc");
    refused = number ? strtoul(number, NULL, 10) : 0;
    count = 0;
}

void *malloc(size_t size) {
    if (!next_malloc)
        next_malloc = dlsym(RTLD_NEXT, "malloc");
    return ++count == refused ? NULL : next_malloc(size);
}

void *realloc(void *block, size_t size) {
    if (!next_realloc)
        next_realloc = dlsym(RTLD_NEXT, "realloc");
    return ++count == refused ? NULL : next_realloc(block, size);
}

__attribute__((destructor)) static void end(void) {
    const char *path = getenv("COUNT");
    unsigned long total = count;
    refused = 0;
    FILE *file = path ? fopen(path, "w") : NULL;
    if (file) {
        fprintf(file, "%lu\n", total);
        fclose(file);
    }
}
