/* What a directory costs a host: it is entered with files of rules of one line each, twenty names are
   decided at once, and it is left. No disk is read. Writes the microseconds of a processor for one.
   directory [DIRECTORIES [FILES]] */
#define _POSIX_C_SOURCE 200809L

#include "ignore_proved.h"

#include <stdio.h>
#include <stdlib.h>
#include <string.h>
#include <time.h>

#define TEXT(text) (const uint8_t *)(text), strlen(text)
#define NAMES 20

static void done(uint32_t code) {
    if (code != IGNORE_OK) {
        fprintf(stderr, "the library answers %u\n", code);
        exit(2);
    }
}

/* Answers a call: the directory `/top/d` has files of one rule, and nothing else is there. */
static void answer(ignore_guide *guide, uint32_t code, ignore_place *place) {
    while (code == IGNORE_WANTS) {
        uint8_t path[256];
        uint32_t wanted;
        size_t whole;
        done(ignore_guide_wanted(guide, &wanted, path, sizeof path, &whole));
        if (wanted == IGNORE_WANTED_CANONICAL)
            code = ignore_guide_give(guide, 0, path, whole, IGNORE_NO_FAULT, place);
        else if (whole > 7 && !memcmp(path, "/top/d/", 7))
            code = ignore_guide_give(guide, 1, TEXT("*.o\n"), IGNORE_NO_FAULT, place);
        else
            code = ignore_guide_give(guide, 0, TEXT(""), IGNORE_FAULT_NOT_FOUND, place);
    }
    done(code);
}

static double seconds(void) {
    struct timespec time;
    clock_gettime(CLOCK_PROCESS_CPUTIME_ID, &time);
    return (double)time.tv_sec + (double)time.tv_nsec / 1e9;
}

int main(int count, char **words) {
    static const char *const files[] = {".gitignore", ".ignore", ".mine"};
    static const uint64_t no_sizes;
    long many = count > 1 ? atol(words[1]) : 100000, with = count > 2 ? atol(words[2]) : 3;
    char names[NAMES * 16];
    uint8_t kinds[NAMES], codes[NAMES];
    size_t length = 0;
    ignore_builder builder;
    ignore_guide guide;
    ignore_place top, place;
    for (size_t i = 0; i < NAMES; i++) {
        if ((long)i < with && i < 3)
            length += (size_t)sprintf(names + length, "%s", files[i]) + 1;
        else
            length += (size_t)sprintf(names + length, "name_%zu.%s", i, i % 5 ? "c" : "o") + 1;
        kinds[i] = i % 7 ? 1 : 2;
    }
    done(ignore_builder_new(TEXT(""), &builder));
    done(ignore_builder_env_current_dir(&builder, TEXT("/top")));
    done(ignore_builder_add_custom_ignore_filename(&builder, TEXT(".mine")));
    done(ignore_builder_require_git(&builder, false));
    done(ignore_builder_git_global(&builder, false));
    done(ignore_guide_new(&builder, &guide));
    answer(&guide, ignore_guide_root(&guide, TEXT("/top"), &top), &top);
    double begin = seconds();
    for (long i = 0; i < many; i++) {
        uint32_t code = ignore_guide_enter(&guide, &top, TEXT("d"), (uint8_t *)names, length, &place);
        answer(&guide, code, &place);
        done(ignore_guide_decide_all(&guide, &place, (uint8_t *)names, length, kinds, NAMES, &no_sizes,
                                     0, codes, NAMES));
        done(ignore_guide_leave(&guide, &place));
    }
    printf("%.2f\n", (seconds() - begin) / (double)many * 1e6);
    done(ignore_guide_leave(&guide, &top));
    ignore_guide_free(guide);
    ignore_builder_free(builder);
    return 0;
}
