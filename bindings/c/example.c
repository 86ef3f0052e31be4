/* Asks the rules of a file about paths: example FILE PATH.. (a path that ends with / is a
   directory), and writes for each what the rules say, and the rule that decided. */
#include "ignore_proved.h"

#include <stdio.h>
#include <stdlib.h>
#include <string.h>

#define TEXT(text) (const uint8_t *)(text), strlen(text)

/* Reads a file, up to a megabyte. */
static size_t read_file(const char *path, char *room, size_t most) {
    FILE *file = fopen(path, "rb");
    if (!file) {
        perror(path);
        exit(2);
    }
    size_t length = fread(room, 1, most, file);
    fclose(file);
    return length;
}

static int ask(ignore_rules *rules, const char *path) {
    static const char *const said[] = {"", "none", "ignore", "whitelist"};
    char room[4096];
    ignore_reason reason;
    size_t length = strlen(path);
    bool is_dir = length > 1 && path[length - 1] == '/';
    uint32_t code = ignore_rules_decided(rules, (const uint8_t *)path, length - is_dir, is_dir,
                                         &reason, (uint8_t *)room, sizeof room);
    if (code > IGNORE_WHITELIST || reason.source + reason.pattern + reason.glob > sizeof room) {
        fprintf(stderr, "%s: code %u\n", path, code);
        return 1;
    }
    printf("%s %s", said[code], path);
    if (code != IGNORE_NONE)
        printf(" by %.*s of %.*s", (int)reason.pattern, room + reason.source, (int)reason.source,
               room);
    putchar('\n');
    return 0;
}

int main(int count, char **words) {
    static char text[1 << 20], problem[1 << 16];
    ignore_rule_options options = {false, true, false};
    ignore_rules rules;
    size_t length = 0;
    int status = 0;
    if (count < 2 || ignore_rules_new(TEXT(""), &options, &rules) != IGNORE_OK)
        return 2;
    size_t read = read_file(words[1], text, sizeof text);
    uint32_t added = ignore_rules_add_file(&rules, TEXT(words[1]), (const uint8_t *)text, read);
    if (added == IGNORE_REFUSED
        && ignore_rules_problem(&rules, (uint8_t *)problem, sizeof problem, &length) == IGNORE_OK)
        fprintf(stderr, "%.*s\n", (int)(length < sizeof problem ? length : sizeof problem),
                problem);
    if (ignore_rules_build(&rules) == IGNORE_OK)
        for (int i = 2; i < count; i++)
            status |= ask(&rules, words[i]);
    ignore_rules_free(rules);
    return status;
}
