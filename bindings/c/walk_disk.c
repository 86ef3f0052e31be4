/* Lists what is below folders and no rule ignores: walk_disk [OPTION].. ROOT.., with the options of
   `ig` that stand in `switches`, `texts` and `numbers` below, -g GLOB and -L. A walk of one's own by
   a guide of ignore_proved.h: this file chooses what is entered, in which order; disk.c reads paths;
   the library decides. Copy it: in the public domain, by the Unlicense in LICENSE. */
#define _POSIX_C_SOURCE 200809L

#include "disk.h"

#include <errno.h>
#include <limits.h>
#include <stdio.h>
#include <stdlib.h>
#include <string.h>
#include <sys/stat.h>
#include <unistd.h>

#define TEXT(text) (const uint8_t *)(text), strlen(text)

static const struct {
    const char *word;
    uint32_t (*set)(ignore_builder *, bool);
} switches[] = {
    {"-H", ignore_builder_hidden},                    {"--no-ignore-dot", ignore_builder_ignore},
    {"--no-ignore-parent", ignore_builder_parents},   {"--no-ignore-vcs", ignore_builder_git_ignore},
    {"--no-ignore-vcs", ignore_builder_git_global},   {"--no-ignore-vcs", ignore_builder_git_exclude},
    {"--no-require-git", ignore_builder_require_git},
};
static const struct {
    const char *word;
    uint32_t (*set)(ignore_builder *, const uint8_t *, size_t);
} texts[] = {
    {"--ignore-name", ignore_builder_add_custom_ignore_filename},
    {"-g", ignore_builder_add_override},
}, variables[] = {
    {"HOME", ignore_builder_env_home},
    {"XDG_CONFIG_HOME", ignore_builder_env_xdg_config_home},
    {"GIT_CONFIG_GLOBAL", ignore_builder_env_git_config_global},
    {"GIT_CONFIG_SYSTEM", ignore_builder_env_git_config_system},
};

/* A directory that was entered. */
typedef struct level {
    ignore_place place;
    disk_listing listing;
    uint8_t *codes;
    size_t next;            /* the number of the next entry */
    const char *own, *told; /* its name */
    size_t length;          /* of the path of the directory, with a slash after it */
    struct stat found;      /* where links are followed */
} level;

static ignore_guide guide;
static level *levels;
static size_t depth, room;
static char path[PATH_MAX + NAME_MAX + 2]; /* of the entry at hand */
static int wants, status;
static const uint64_t no_sizes;

static void fail(const char *what, const char *why) {
    fprintf(stderr, "%s: %s\n", what, why);
    status = 2;
}

/* Ends where the library is out of memory, or this file is wrong. */
static void done(uint32_t code) {
    if (code != IGNORE_OK && code != IGNORE_NONE) {
        fprintf(stderr, "the library answers %u\n", code);
        exit(3);
    }
}

/* What is wrong with the files of rules of the directory that was entered last; of more than a
   hundred parts the first, since each is looked for from the first one on. */
static void tell_problems(void) {
    ignore_problem part;
    uint8_t texts[4096];
    for (size_t i = 0; i < 100; i++) {
        if (ignore_guide_problem(&guide, i, &part, texts, sizeof texts) != IGNORE_OK)
            return;
        if (part.path + part.glob + part.text <= sizeof texts)
            fprintf(stderr, "%.*s: line %llu: %.*s %.*s\n", (int)part.path, texts,
                    (unsigned long long)part.line, (int)part.text, texts + part.path + part.glob,
                    (int)part.glob, texts + part.path);
    }
    fputs("more may be wrong with it\n", stderr);
}

/* Whether a link at the path leads to a directory that it is in. */
static bool is_loop(struct stat *found) {
    if (!(wants & DISK_FOLLOWS) || lstat(path, found))
        return false;
    bool is_link = S_ISLNK(found->st_mode);
    if (stat(path, found))
        return false;
    for (size_t i = 0; is_link && i < depth; i++)
        if (levels[i].found.st_dev == found->st_dev && levels[i].found.st_ino == found->st_ino)
            return true;
    return false;
}

/* Lists the directory at the path, enters it, below the last level or as a root, and decides on its
   entries. */
static void enter(const char *told, struct stat found) {
    level new = {.found = found};
    int error = disk_list(path, wants, &new.listing);
    if (error)
        return fail(path, strerror(error));
    disk_listing *listing = &new.listing;
    size_t length = strlen(path), count = listing->count;
    if (depth == room)
        levels = realloc(levels, (room = room * 2 + 16) * sizeof *levels);
    if (!levels || !(new.codes = malloc(count + 1)))
        done(IGNORE_NO_MEMORY);
    uint32_t code;
    if (depth)
        code = ignore_guide_enter(&guide, &levels[depth - 1].place, TEXT(told),
                                  (uint8_t *)listing->told, listing->told_length, &new.place);
    else
        code = ignore_guide_root(&guide, TEXT(told), &new.place);
    done(disk_answer(&guide, code, &new.place));
    tell_problems();
    const uint64_t *sizes = listing->sizes;
    if (count)
        done(ignore_guide_decide_all(&guide, &new.place, (uint8_t *)listing->told,
                                     listing->told_length, listing->kinds, count,
                                     sizes ? sizes : &no_sizes, sizes ? count : 0, new.codes,
                                     count));
    if (path[length - 1] != '/')
        path[length++] = '/';
    new.length = length;
    new.own = listing->own;
    new.told = listing->told;
    levels[depth++] = new;
}

static void leave(void) {
    level *last = &levels[--depth];
    done(ignore_guide_leave(&guide, &last->place));
    disk_listing_free(&last->listing);
    free(last->codes);
}

/* Goes through what is below a root. */
static void walk(const char *root) {
    char *told = disk_told(root);
    struct stat found;
    if (!told || strlen(root) >= sizeof path)
        return fail(root, "it is too long");
    strcpy(path, root);
    if (stat(root, &found) || !S_ISDIR(found.st_mode))
        fail(root, "it is no directory");
    else
        enter(told, found);
    free(told);
    while (depth) {
        level *last = &levels[depth - 1];
        if (last->next == last->listing.count) {
            leave();
            continue;
        }
        uint8_t code = last->codes[last->next], kind = last->listing.kinds[last->next++];
        const char *own = last->own, *name = last->told;
        last->own += strlen(own) + 1;
        last->told += strlen(name) + 1;
        if (last->length + strlen(own) >= sizeof path) {
            fail(own, strerror(ENAMETOOLONG));
            continue;
        }
        strcpy(path + last->length, own);
        if ((code & 3) == IGNORE_IGNORE)
            continue;
        if (kind == 3 && (wants & DISK_FOLLOWS)) {
            fail(path, "a link that leads nowhere");
            continue;
        }
        if (kind == 2 && is_loop(&found)) {
            fail(path, "a link to a directory that it is in");
            continue;
        }
        if (code & 8)
            puts(path);
        if (code & 4)
            enter(name, found);
    }
}

/* Tells a builder an option; how many words it takes, 0 for a root. */
static int option(ignore_builder *builder, const char *word, const char *next) {
    int taken = 0;
    for (size_t i = 0; i < sizeof switches / sizeof *switches; i++)
        if (!strcmp(word, switches[i].word))
            done(switches[i].set(builder, false)), taken = 1;
    for (size_t i = 0; next && i < sizeof texts / sizeof *texts; i++)
        if (!strcmp(word, texts[i].word))
            done(texts[i].set(builder, TEXT(next))), taken = 2;
    if (next && !strcmp(word, "-d"))
        done(ignore_builder_max_depth(builder, true, strtoull(next, NULL, 10))), taken = 2;
    if (next && !strcmp(word, "--max-filesize")) {
        done(ignore_builder_max_filesize(builder, true, strtoull(next, NULL, 10))), taken = 2;
        wants |= DISK_SIZES;
    }
    if (!strcmp(word, "-L"))
        wants |= DISK_FOLLOWS, taken = 1;
    return taken;
}

int main(int count, char **words) {
    ignore_builder builder;
    char cwd[PATH_MAX], *told;
    int at = 1;
    done(ignore_builder_new(TEXT(""), &builder));
    if (getcwd(cwd, sizeof cwd) && (told = disk_told(cwd))) {
        done(ignore_builder_env_current_dir(&builder, TEXT(told)));
        done(ignore_builder_overrides(&builder, TEXT(told), false));
        free(told);
    }
    for (size_t i = 0; i < sizeof variables / sizeof *variables; i++)
        if (getenv(variables[i].word) && (told = disk_told(getenv(variables[i].word)))) {
            done(variables[i].set(&builder, TEXT(told)));
            free(told);
        }
    for (int taken; at < count; at += taken)
        if (!(taken = option(&builder, words[at], words[at + 1])))
            break;
    done(ignore_builder_set_overrides(&builder));
    done(ignore_guide_new(&builder, &guide));
    ignore_builder_free(builder);
    for (; at < count; at++)
        walk(words[at]);
    ignore_guide_free(guide);
    free(levels);
    return status;
}
