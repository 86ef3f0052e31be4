/* Hosts of a guide that keep the header's rules of memory and no other: they answer wrongly, too
   seldom, too often, by halves, for another question, and call in any order by any place. Each call
   must end, answer what the header has, and leave the places as they are. Then many directories are
   entered and left, by which the process must not grow; what disk.c tells of names is as disk.h says,
   and it reads no pipe. hosts [CALLS DIRECTORIES] */
#define _GNU_SOURCE
#include "disk.h"
#include "failing.h"

#include <fcntl.h>
#include <sys/resource.h>
#include <sys/stat.h>
#include <sys/syscall.h>
#include <unistd.h>

#define MANY 24

/* Numbers that look random. */
static uint64_t seed = 1;

static size_t below(size_t count) {
    seed ^= seed << 13, seed ^= seed >> 7, seed ^= seed << 17;
    return (size_t)(seed * UINT64_C(2685821657736338717) >> 33) % count;
}

static const char *const names[] = {"a", "b.o", ".git", ".h", "x y", "\xc3\xa9", "build", "sub"};
#define NAME names[below(sizeof names / sizeof *names)]

static void guide_of(ignore_guide *guide, bool asks_much) {
    ignore_builder builder;
    CALL(IGNORE_OK, ignore_builder_new(TEXT(""), &builder));
    CALL(IGNORE_OK, ignore_builder_env_current_dir(&builder, TEXT("/w")));
    CALL(IGNORE_OK, ignore_builder_hidden(&builder, false));
    if (asks_much) {
        CALL(IGNORE_OK, ignore_builder_env_home(&builder, TEXT("/home")));
        CALL(IGNORE_OK, ignore_builder_add_custom_ignore_filename(&builder, TEXT(".mine")));
    } else {
        CALL(IGNORE_OK, ignore_builder_git_global(&builder, false));
    }
    CALL(IGNORE_OK, ignore_guide_new(&builder, guide));
    ignore_builder_free(builder);
}

/* Answers a call by the rules of `.ignore` files that have this text: all else isn't there. */
static uint32_t answered(ignore_guide *guide, uint32_t code, const char *rules,
                         ignore_place *place) {
    while (code == IGNORE_WANTS) {
        uint32_t wanted;
        uint8_t path[256];
        size_t whole;
        CALL(IGNORE_OK, ignore_guide_wanted(guide, &wanted, path, sizeof path, &whole));
        HOLDS(whole <= sizeof path);
        bool is_rules = whole > 8 && !memcmp(path + whole - 7, ".ignore", 7);
        if (wanted == IGNORE_WANTED_CANONICAL)
            code = ignore_guide_give(guide, 0, path, whole, IGNORE_NO_FAULT, place);
        else if (is_rules && rules)
            code = ignore_guide_give(guide, 1, TEXT(rules), IGNORE_NO_FAULT, place);
        else
            code = ignore_guide_give(guide, 0, TEXT(""), IGNORE_FAULT_NOT_FOUND, place);
    }
    return code;
}

/* An answer to anything, to be given for whatever is asked. */
static uint32_t give_anything(ignore_guide *guide, ignore_place *place) {
    static const char *const texts[] = {
        "", "*.o\n", "{\n", "gitdir: /x\n", "gitdir: a", "/x/y", "..", "a/b/", "\xff\nb", "\n\n",
        "excludesfile = /e\n", "!\n", "/", "//w", "[", "gitdir: ../..\n", "a\0b",
    };
    static const uint32_t kinds[] = {0, 1, 2, 4, 1, 1, 3, 99};
    size_t at = below(sizeof texts / sizeof *texts);
    uint32_t fault = below(2) ? IGNORE_NO_FAULT : (uint32_t)below(14);
    return ignore_guide_give(guide, kinds[below(8)], (const uint8_t *)texts[at],
                             at + 1 == sizeof texts / sizeof *texts ? 3 : strlen(texts[at]), fault,
                             place);
}

/* Makes calls in any order, by places that are, that were and that never were. */
static void anything(size_t calls) {
    ignore_guide guide;
    ignore_place places[MANY] = {{0, 0}}, *at;
    bool are_in[MANY] = {false}, waits = false;
    size_t waiting = 0;
    guide_of(&guide, true);
    for (size_t call = 0; call < calls; call++) {
        size_t number = below(MANY), parent = below(MANY);
        const char *name = NAME, *listed = below(3) ? "" : NAME, *root = below(2) ? "/w" : "r/./x";
        ignore_found found;
        uint8_t room[64], codes[2];
        uint32_t code;
        at = &places[number];
        switch (below(7)) {
        case 0:
        case 1:
            if (are_in[number])
                break;
            code = below(8) ? ignore_guide_enter(&guide, &places[parent], TEXT(name),
                                                 (const uint8_t *)listed,
                                                 strlen(listed) + (*listed != 0), at)
                            : ignore_guide_root(&guide, TEXT(root), at);
            HOLDS(!waits || code == IGNORE_MISUSED);
            HOLDS(code == IGNORE_OK || code == IGNORE_WANTS || code == IGNORE_MISUSED);
            HOLDS((code == IGNORE_OK) == (at->serial != 0));
            are_in[number] = code == IGNORE_OK;
            if (code == IGNORE_WANTS)
                waits = true, waiting = number;
            break;
        case 2:
        case 3:
            code = give_anything(&guide, waits ? &places[waiting] : at);
            HOLDS(waits || code == IGNORE_MISUSED);
            HOLDS(code == IGNORE_OK || code == IGNORE_WANTS || code == IGNORE_MISUSED
                  || code == IGNORE_NOT_UTF8);
            if (!waits)
                are_in[number] = false;
            if (waits && code == IGNORE_OK)
                waits = false, are_in[waiting] = true;
            break;
        case 4:
            code = ignore_guide_decide(&guide, at, TEXT(name), below(2), below(9), &found);
            HOLDS(are_in[number] ? code >= IGNORE_NONE && code <= IGNORE_WHITELIST
                                 : code == IGNORE_MISUSED);
            break;
        case 5:
            code = ignore_guide_leave(&guide, at);
            HOLDS(code == IGNORE_OK || code == IGNORE_MISUSED);
            HOLDS(code == IGNORE_MISUSED || (are_in[number] && !waits));
            are_in[number] = are_in[number] && code != IGNORE_OK;
            break;
        default:
            code = ignore_guide_decide_all(&guide, at, BYTES("a\0..\0"), (const uint8_t *)"\2\7", 2,
                                           IGNORE_NO_SIZES, codes, 2);
            HOLDS(are_in[number] ? code == IGNORE_OK && codes[1] == IGNORE_NONE + 8
                                 : code == IGNORE_MISUSED);
            ignore_problem problem;
            code = ignore_guide_problem(&guide, below(3), &problem, room, below(sizeof room));
            HOLDS(code == IGNORE_OK || code == IGNORE_NONE || code == IGNORE_MISUSED);
        }
    }
    ignore_guide_free(guide);
}

/* The largest size that the process has had, in KiB. */
static long largest(void) {
    struct rusage used;
    getrusage(RUSAGE_SELF, &used);
    return used.ru_maxrss;
}

/* Enters and leaves directories, some of which have rules, never more than three at once. */
static void many_directories(size_t count) {
    ignore_guide guide;
    ignore_place places[3];
    ignore_found found;
    long before = 0;
    if (count == 0)
        return;
    guide_of(&guide, false);
    uint32_t first = ignore_guide_root(&guide, TEXT("/w"), &places[0]);
    CALL(IGNORE_OK, answered(&guide, first, "*.o\n", &places[0]));
    for (size_t i = 0; i < count; i += 2) {
        if (i == count / 16 * 2)
            before = largest();
        for (int depth = 1; depth < 3; depth++) {
            ignore_place *at = &places[depth];
            uint32_t begun = ignore_guide_enter(&guide, at - 1, TEXT("d"), BYTES(".ignore\0x\0"), at);
            CALL(IGNORE_OK, answered(&guide, begun, depth == 1 ? "y\n!z\n" : NULL, at));
        }
        CALL(IGNORE_IGNORE, ignore_guide_decide(&guide, &places[2], TEXT("y"), false, 0, &found));
        CALL(IGNORE_OK, ignore_guide_leave(&guide, &places[2]));
        CALL(IGNORE_OK, ignore_guide_leave(&guide, &places[1]));
    }
    if (largest() > before + 64) {
        wrong++;
        printf("%zu directories: %ld KiB more\n", count, largest() - before);
    }
    ignore_guide_free(guide);
}

/* Names of up to three bytes of some: each is told as UTF-8, as no other, and comes back. */
static void names_of_the_disk(void) {
    static const unsigned char bytes[] = {'a', 0x80, 0x9e, 0x9f, 0xa9, 0xbf, 0xc3, 0xed, 0xef, 0xf0, 0xff};
    for (size_t i = 0; i < 11 * 11 * 11 * 11; i++) {
        char own[5] = {(char)bytes[i % 11], (char)bytes[i / 11 % 11], (char)bytes[i / 121 % 11],
                       (char)bytes[i / 1331], 0};
        char *told = disk_told(own), *back = disk_own(told, strlen(told));
        ignore_builder builder;
        HOLDS(!strcmp(own, back));
        CALL(IGNORE_OK, ignore_builder_new(TEXT(told), &builder));
        ignore_builder_free(builder);
        free(told);
        free(back);
    }
    char *told = disk_told("\xef\x9f\xbf\xff"), *plain = disk_told("\xef\x9d\xbf\xc3\xa9");
    same("\xef\x9f\xaf\xef\x9e\x9f\xef\x9e\xbf\xef\x9f\xbf", (uint8_t *)told, strlen(told));
    same("\xef\x9d\xbf\xc3\xa9", (uint8_t *)plain, strlen(plain));
    free(told);
    free(plain);
}

/* For disk.c: what is named `.ignore` is a file when it is asked for, whatever it is after that. */
int fstatat(int dir, const char *path, struct stat *found, int flags) {
    int code = (int)syscall(SYS_newfstatat, dir, path, found, flags);
    if (!code && strstr(path, ".ignore"))
        found->st_mode = S_IFREG;
    return code;
}

/* A file of rules that becomes a pipe before it is read, and one whose name has a zero inside: there
   is none, also where a file has the name before the zero. */
static void files_that_are_none(void) {
    char folder[] = "/tmp/hosts-XXXXXX", pipe_path[64], file[64];
    ignore_builder builder;
    ignore_guide guide;
    ignore_place place;
    ignore_found found;
    HOLDS(mkdtemp(folder) != NULL);
    snprintf(pipe_path, sizeof pipe_path, "%s/.ignore", folder);
    snprintf(file, sizeof file, "%s/a", folder);
    FILE *rules = fopen(file, "w");
    HOLDS(rules && fputs("*.o", rules) >= 0 && !fclose(rules) && !mkfifo(pipe_path, 0600));
    int pipe_end = open(pipe_path, O_RDWR);
    HOLDS(write(pipe_end, "*.o\n", 4) == 4);
    CALL(IGNORE_OK, ignore_builder_new(TEXT(""), &builder));
    CALL(IGNORE_OK, ignore_builder_add_custom_ignore_filename(&builder, BYTES("a\0b")));
    CALL(IGNORE_OK, ignore_guide_new(&builder, &guide));
    ignore_builder_free(builder);
    uint32_t begun = ignore_guide_root(&guide, TEXT(folder), &place);
    CALL(IGNORE_OK, disk_answer(&guide, begun, &place));
    CALL(IGNORE_NONE, ignore_guide_decide(&guide, &place, TEXT("x.o"), false, 0, &found));
    ignore_guide_free(guide);
    HOLDS(!close(pipe_end) && !unlink(pipe_path) && !unlink(file) && !rmdir(folder));
}

int main(int count, char **words) {
    size_t calls = count > 1 ? strtoull(words[1], NULL, 10) : 300000;
    for (size_t i = 0; i < 100; i++)
        seed = i * 77 + 1, anything(calls / 100);
    many_directories(count > 2 ? strtoull(words[2], NULL, 10) : 100000);
    names_of_the_disk();
    files_that_are_none();
    printf("%lu wrong answers\n", wrong);
    return wrong > 0;
}
