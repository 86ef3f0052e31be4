/* See disk.h. In the public domain, by the Unlicense in LICENSE. */
#define _DEFAULT_SOURCE
#define _POSIX_C_SOURCE 200809L

#include "disk.h"

#include <dirent.h>
#include <errno.h>
#include <fcntl.h>
#include <stdlib.h>
#include <string.h>
#include <sys/stat.h>
#include <unistd.h>

/* Bytes in memory that grows. */
typedef struct bytes {
    char *at;
    size_t length, room;
} bytes;

/* Whether it has room for so many bytes more. */
static bool more(bytes *to, size_t count) {
    if (to->room - to->length >= count)
        return true;
    char *at = realloc(to->at, to->room * 2 + count);
    to->room = at ? to->room * 2 + count : to->room;
    to->at = at ? at : to->at;
    return at;
}

static bool put(bytes *to, const void *from, size_t count) {
    if (!more(to, count))
        return false;
    memcpy(to->at + to->length, from, count);
    to->length += count;
    return true;
}

/* How many bytes the character has with which a text begins in UTF-8; 0 where it begins with none. */
static size_t character(const unsigned char *s) {
    size_t length = *s < 0x80 ? 1 : *s < 0xc2 ? 0 : *s < 0xe0 ? 2 : *s < 0xf0 ? 3 : *s < 0xf5 ? 4 : 0;
    for (size_t at = 1; at < length; at++)
        if ((s[at] & 0xc0) != 0x80)
            return 0;
    bool is_odd = (*s == 0xe0 && s[1] < 0xa0) || (*s == 0xed && s[1] > 0x9f)
               || (*s == 0xf0 && s[1] < 0x90) || (*s == 0xf4 && s[1] > 0x8f);
    return is_odd ? 0 : length;
}

/* Whether a character of three bytes is one of U+F780 to U+F7FF. */
static bool is_private(const unsigned char *text) {
    return text[0] == 0xef && (text[1] == 0x9e || text[1] == 0x9f) && (text[2] & 0xc0) == 0x80;
}

static bool put_told(bytes *to, const char *own) {
    for (const unsigned char *at = (const unsigned char *)own; *at;) {
        size_t length = character(at);
        bool is_plain = length && !is_private(at);
        if (is_plain && !put(to, at, length))
            return false;
        for (size_t i = 0; !is_plain && i < (length ? length : 1); i++) {
            unsigned char told[] = {0xef, 0x9c | at[i] >> 6, 0x80 | (at[i] & 0x3f)};
            if (!put(to, told, sizeof told))
                return false;
        }
        at += length ? length : 1;
    }
    return put(to, "", 1);
}

char *disk_told(const char *own) {
    bytes to = {0};
    if (put_told(&to, own))
        return to.at;
    free(to.at);
    return NULL;
}

char *disk_own(const char *told, size_t length) {
    char *own = malloc(length + 1);
    size_t to = 0;
    for (size_t at = 0; own && at < length; to++) {
        const unsigned char *here = (const unsigned char *)told + at;
        bool is_byte = length - at >= 3 && is_private(here);
        own[to] = is_byte ? (char)((here[1] << 6 & 0xff) | (here[2] & 0x3f)) : told[at];
        at += is_byte ? 3 : 1;
    }
    if (own) /* (no path has a zero: nothing is at the empty one) */
        own[memchr(told, 0, length) ? 0 : to] = 0;
    return own;
}

static uint8_t kind_of(mode_t mode) {
    return S_ISREG(mode) ? 1 : S_ISDIR(mode) ? 2 : S_ISLNK(mode) ? 3 : 4;
}

/* Adds an entry to the parts of a listing; one that is gone meanwhile too. */
static bool add(int dir, const struct dirent *entry, int wants, bytes parts[4]) {
    struct stat found = {.st_mode = DTTOIF(entry->d_type)};
    bool follows = (wants & DISK_FOLLOWS) && (!found.st_mode || S_ISLNK(found.st_mode));
    bool asks = !found.st_mode || follows || ((wants & DISK_SIZES) && !S_ISDIR(found.st_mode));
    bool has = asks && ((follows && !fstatat(dir, entry->d_name, &found, 0))
                        || !fstatat(dir, entry->d_name, &found, AT_SYMLINK_NOFOLLOW));
    uint64_t size = has ? (uint64_t)found.st_size : IGNORE_NO_SIZE;
    uint8_t kind = kind_of(found.st_mode);
    return put(&parts[0], entry->d_name, strlen(entry->d_name) + 1)
        && put_told(&parts[1], entry->d_name) && put(&parts[2], &kind, 1)
        && (!(wants & DISK_SIZES) || put(&parts[3], &size, sizeof size));
}

int disk_list(const char *path, int wants, disk_listing *listing) {
    bytes parts[4] = {0};
    DIR *dir = opendir(path);
    if (!dir)
        return errno;
    for (struct dirent *entry; errno = 0, (entry = readdir(dir));)
        if (strcmp(entry->d_name, ".") && strcmp(entry->d_name, "..")
            && !add(dirfd(dir), entry, wants, parts))
            break;
    int error = errno;
    closedir(dir);
    if (!error && !parts[2].length && !put(&parts[1], ".", 2))
        error = ENOMEM;
    *listing = (disk_listing){parts[2].length, parts[0].at, parts[1].at, parts[1].length,
                              (uint8_t *)parts[2].at, (uint64_t *)(void *)parts[3].at};
    if (error)
        disk_listing_free(listing);
    return error;
}

void disk_listing_free(disk_listing *listing) {
    free(listing->own), free(listing->told), free(listing->kinds), free(listing->sizes);
}

static uint32_t fault_of(int error) {
    return error == 0       ? IGNORE_NO_FAULT
         : error == ENOENT  ? IGNORE_FAULT_NOT_FOUND
         : error == EACCES  ? IGNORE_FAULT_PERMISSION_DENIED
         : error == ENOTDIR ? IGNORE_FAULT_NOT_A_DIRECTORY
         : error == EISDIR  ? IGNORE_FAULT_IS_A_DIRECTORY
         : error == ELOOP   ? IGNORE_FAULT_LINK_LIMIT : IGNORE_FAULT_OTHER;
}

/* Reads a file, unless a pipe or a device is there by now: 0, or the errno that ended it. */
static int read_file(const char *path, bytes *to) {
    struct stat found;
    int fd = openat(AT_FDCWD, path, O_RDONLY | O_CLOEXEC | O_NONBLOCK);
    int error = fd < 0 || fstat(fd, &found) ? errno : S_ISREG(found.st_mode) ? 0 : EISDIR;
    for (ssize_t count = 1; count && !error;) {
        count = more(to, 4096) ? read(fd, to->at + to->length, to->room - to->length) : -1;
        to->length += count > 0 ? (size_t)count : 0;
        error = count < 0 && errno != EINTR ? errno : 0;
    }
    close(fd);
    return error;
}

static int read_canonical(const char *path, bytes *to) {
    char *real = realpath(path, NULL);
    int error = !real ? errno : put_told(to, real) ? 0 : ENOMEM;
    to->length -= to->length > 0;
    free(real);
    return error;
}

/* Reads what is wanted of a path, and gives it. */
static uint32_t give(ignore_guide *guide, uint32_t wanted, const char *path, ignore_place *place) {
    bytes to = {0};
    struct stat found = {0};
    int error = 0;
    if (wanted == IGNORE_WANTED_CANONICAL)
        error = read_canonical(path, &to);
    else if (fstatat(AT_FDCWD, path, &found, 0))
        error = errno;
    else if (wanted == IGNORE_WANTED_FILE)
        error = S_ISREG(found.st_mode) ? read_file(path, &to) : EISDIR;
    uint32_t code = ignore_guide_give(guide, found.st_mode ? kind_of(found.st_mode) : 0,
                                      (const uint8_t *)(to.at ? to.at : ""), to.length,
                                      fault_of(error), place);
    free(to.at);
    return code;
}

uint32_t disk_answer(ignore_guide *guide, uint32_t code, ignore_place *place) {
    bytes room = {0};
    while (code == IGNORE_WANTS) {
        uint32_t wanted = 0;
        size_t whole = 512;
        do
            code = !more(&room, whole) ? IGNORE_NO_MEMORY
                 : ignore_guide_wanted(guide, &wanted, (uint8_t *)room.at, room.room, &whole);
        while (code == IGNORE_OK && whole > room.room);
        char *path = code == IGNORE_OK ? disk_own(room.at, whole) : NULL;
        if (code == IGNORE_OK)
            code = path ? give(guide, wanted, path, place) : IGNORE_NO_MEMORY;
        free(path);
    }
    free(room.at);
    return code;
}
