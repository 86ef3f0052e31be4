/* The disk, for the guide of ignore_proved.h: it reads what a guide wants to know, and lists
   directories. It is for POSIX, and the library has no part in it. Copy it and change it as you
   like: it is in the public domain, by the Unlicense in LICENSE.

   The library's texts are UTF-8. A byte b of a name that isn't is told as the character U+F700 + b,
   and so is each byte of a character of U+F780 to U+F7FF in a name: no two names are told as one. */
#ifndef DISK_H
#define DISK_H

#include "ignore_proved.h"

/* What a directory lists, but for `.` and `..`, in the system's order. */
typedef struct disk_listing {
    size_t count;
    char *own;           /* the names as the disk has them, each ended by a zero */
    char *told;          /* the names as the library is told them, each ended by a zero */
    size_t told_length;  /* bytes of these; never 0, since an empty directory is told to list `.` */
    uint8_t *kinds;      /* of each: 1 a file, 2 a directory, 3 a link, 4 something else */
    uint64_t *sizes;     /* of each, where they are wanted; else null */
} disk_listing;

/* What is wanted of a listing. */
enum {
    DISK_FOLLOWS = 1, /* kinds and sizes of links are of what they lead to, if anything */
    DISK_SIZES = 2    /* sizes */
};

/* Lists a directory: 0, or an errno, and then there is nothing to be freed. */
int disk_list(const char *path, int wants, disk_listing *listing);
void disk_listing_free(disk_listing *listing);

/* A text of the disk as the library is told it, and back: each is ended by a zero, in memory of
   malloc; null where there is none. A text with a zero, which no path of the disk has, is the empty
   path. */
char *disk_told(const char *own);
char *disk_own(const char *told, size_t length);

/* Goes on with a call of a guide that answered `code`: as long as that is IGNORE_WANTS, it reads
   what is wanted from the disk and gives it. It returns what the call answers in the end.
   IGNORE_NO_MEMORY, too, where there is none for what is read: then the call may still wait, and the
   guide is to be freed. */
uint32_t disk_answer(ignore_guide *guide, uint32_t code, ignore_place *place);

#endif
