/* Trees and texts that mean harm: links in circles, followed and not; folders inside folders; many
   files in one; bytes that aren't UTF-8, zeros, nothing at all; rooms of each size; lines that are
   long, and open what they don't close. Each call must end, and say what the header says.
   hostile [DEPTH FILES BYTES] */
#include "failing.h"

/* The room is as large as it must be and no larger, so that a write beyond it is seen. */
static uint8_t *room_of(size_t length) {
    uint8_t *room = malloc(length + !length);
    if (!room)
        exit(2);
    memset(room, '#', length + !length);
    return room;
}

/* Walks from a root, and compares the items: a path, or an error after a `!`. */
static void walks(ignore_tree *tree, const char *root, bool follows, const char *const *wanted) {
    ignore_builder builder;
    ignore_walk items;
    ignore_walk_entry entry;
    uint8_t room[512];
    CALL(IGNORE_OK, ignore_builder_new(TEXT(root), &builder));
    CALL(IGNORE_OK, ignore_builder_follow_links(&builder, follows));
    CALL(IGNORE_OK, ignore_walk_new(&builder, tree, &items));
    for (; *wanted; wanted++) {
        CALL(IGNORE_OK, ignore_walk_next(&items, &entry, room, sizeof room));
        HOLDS(entry.is_entry == (**wanted != '!'));
        same(*wanted + !entry.is_entry, room, entry.path + entry.error);
    }
    CALL(IGNORE_NONE, ignore_walk_next(&items, &entry, room, sizeof room));
    ignore_walk_free(items);
    ignore_builder_free(builder);
}

static void circles(void) {
    static const char *const seen[] = {
        "/t", "/t/a", "/t/b", "/t/self", "/t/none", "/t/d", "/t/d/up", "/t/d/here", "/t/d/over",
        "/t/e", "/t/e/over", NULL,
    };
    static const char *const followed[] = {
        "/t", "!/t/a: too many links", "!/t/b: too many links", "!/t/self: too many links",
        "!/t/none: not found", "/t/d", "!File system loop found: /t/d/up points to an ancestor /t",
        "!File system loop found: /t/d/here points to an ancestor /t/d", "/t/d/over",
        "!File system loop found: /t/d/over/over points to an ancestor /t/d", "/t/e", "/t/e/over",
        "!File system loop found: /t/e/over/up points to an ancestor /t",
        "!File system loop found: /t/e/over/here points to an ancestor /t/e/over",
        "!File system loop found: /t/e/over/over points to an ancestor /t/e", NULL,
    };
    static const char *const broken[] = {"!/t/a: too many links", NULL};
    ignore_tree tree;
    CALL(IGNORE_OK, ignore_tree_new(TEXT("/"), &tree));
    CALL(IGNORE_OK, ignore_tree_add_dir(&tree, TEXT("/t")));
    CALL(IGNORE_OK, ignore_tree_add_link(&tree, TEXT("/t/a"), TEXT("b")));
    CALL(IGNORE_OK, ignore_tree_add_link(&tree, TEXT("/t/b"), TEXT("/t/a")));
    CALL(IGNORE_OK, ignore_tree_add_link(&tree, TEXT("/t/self"), TEXT("self")));
    CALL(IGNORE_OK, ignore_tree_add_link(&tree, TEXT("/t/none"), TEXT("")));
    CALL(IGNORE_OK, ignore_tree_add_dir(&tree, TEXT("/t/d")));
    CALL(IGNORE_OK, ignore_tree_add_dir(&tree, TEXT("/t/e")));
    CALL(IGNORE_OK, ignore_tree_add_link(&tree, TEXT("/t/d/up"), TEXT("..")));
    CALL(IGNORE_OK, ignore_tree_add_link(&tree, TEXT("/t/d/here"), TEXT(".")));
    CALL(IGNORE_OK, ignore_tree_add_link(&tree, TEXT("/t/d/over"), TEXT("../e")));
    CALL(IGNORE_OK, ignore_tree_add_link(&tree, TEXT("/t/e/over"), TEXT("../d")));
    walks(&tree, "/t", false, seen);
    walks(&tree, "/t", true, followed);
    walks(&tree, "/t/a", false, broken);
    walks(&tree, "/t/a", true, broken);
    ignore_tree_free(tree);
}

/* Counts the entries and the errors of a walk, or the code of why there is none. */
static uint32_t counted(ignore_builder *builder, ignore_tree *tree, size_t most,
                        unsigned long found[2]) {
    ignore_walk items;
    ignore_walk_entry entry;
    uint8_t *room = room_of(most);
    uint32_t code = ignore_walk_new(builder, tree, &items);
    found[0] = found[1] = 0;
    if (code == IGNORE_OK) {
        while ((code = ignore_walk_next(&items, &entry, room, most)) == IGNORE_OK)
            found[!entry.is_entry]++;
        ignore_walk_free(items);
    }
    free(room);
    return code;
}

/* A hundred links, each to the next, of which the last forty lead somewhere; and forty folders, in
   each of which two links lead to the next, so that a walk has more items than a memory. */
static void chains(void) {
    ignore_tree tree;
    ignore_builder builder;
    unsigned long found[2];
    char path[64], target[64];
    CALL(IGNORE_OK, ignore_tree_new(TEXT("/"), &tree));
    CALL(IGNORE_OK, ignore_tree_add_dir(&tree, TEXT("/c")));
    CALL(IGNORE_OK, ignore_tree_add_dir(&tree, TEXT("/e")));
    for (int i = 0; i < 100; i++) {
        snprintf(path, sizeof path, "/c/l%d", i);
        snprintf(target, sizeof target, "l%d", i + 1);
        CALL(IGNORE_OK, ignore_tree_add_link(&tree, TEXT(path), TEXT(target)));
    }
    CALL(IGNORE_OK, ignore_tree_add_dir(&tree, TEXT("/c/l100")));
    for (int i = 0; i < 80; i++) {
        snprintf(path, sizeof path, "/e/d%d", i / 2);
        if (i % 2 == 0)
            CALL(IGNORE_OK, ignore_tree_add_dir(&tree, TEXT(path)));
        snprintf(path, sizeof path, "/e/d%d/%d", i / 2, i % 2);
        snprintf(target, sizeof target, "../d%d", i / 2 + 1);
        CALL(IGNORE_OK, ignore_tree_add_link(&tree, TEXT(path), TEXT(target)));
    }
    CALL(IGNORE_OK, ignore_builder_new(TEXT("/c"), &builder));
    CALL(IGNORE_NONE, counted(&builder, &tree, 64, found));
    HOLDS(found[0] == 102 && found[1] == 0);
    CALL(IGNORE_OK, ignore_builder_follow_links(&builder, true));
    CALL(IGNORE_NONE, counted(&builder, &tree, 64, found));
    HOLDS(found[0] == 42 && found[1] == 60);
    ignore_builder_free(builder);
    CALL(IGNORE_OK, ignore_builder_new(TEXT("/e/d0"), &builder));
    CALL(IGNORE_OK, ignore_builder_limit(&builder, 2000));
    CALL(IGNORE_NONE, counted(&builder, &tree, 64, found));
    HOLDS(found[0] == 3 && found[1] == 0);
    CALL(IGNORE_OK, ignore_builder_follow_links(&builder, true));
    CALL(IGNORE_LIMIT, counted(&builder, &tree, 64, found));
    ignore_builder_free(builder);
    ignore_tree_free(tree);
}

static void deep(size_t depth) {
    ignore_tree tree;
    ignore_builder builder;
    ignore_matcher matcher;
    ignore_found found;
    unsigned long items[2];
    size_t length = 0, whole = 0;
    uint8_t *path = room_of(2 * depth + 2), *room = room_of(2 * depth);
    CALL(IGNORE_OK, ignore_tree_new(TEXT("/"), &tree));
    CALL(IGNORE_OK, ignore_tree_add_file(&tree, TEXT("/.ignore"), TEXT("x\n")));
    for (size_t i = 0; i < depth; i++) {
        memcpy(path + length, "/d", 2);
        length += 2;
        CALL(IGNORE_OK, ignore_tree_add_dir(&tree, path, length));
    }
    memcpy(path + length, "/x", 2);
    CALL(IGNORE_OK, ignore_builder_new(TEXT("/"), &builder));
    CALL(IGNORE_OK, ignore_matcher_new(&builder, &tree, &matcher));
    CALL(IGNORE_IGNORE,
         ignore_matcher_matched(&matcher, &tree, path + 1, length + 1, false, &found));
    CALL(IGNORE_NONE, ignore_matcher_matched(&matcher, &tree, path + 1, length - 1, true, &found));
    HOLDS(found.should_descend);
    CALL(IGNORE_OK, ignore_matcher_normalize(&matcher, path, length, room, 2 * depth, &whole));
    HOLDS(whole == length - 1 && !memcmp(room, path + 1, whole));
    CALL(IGNORE_OK, ignore_matcher_forget(&matcher, TEXT("d/d"), &whole));
    HOLDS(whole == depth - 1);
    CALL(IGNORE_NONE, counted(&builder, &tree, 2 * depth, items));
    HOLDS(items[0] == depth + 1 && items[1] == 0);
    CALL(IGNORE_OK, ignore_tree_remove(&tree, TEXT("/d")));
    CALL(IGNORE_NONE, counted(&builder, &tree, 2 * depth, items));
    HOLDS(items[0] == 1 && items[1] == 0);
    ignore_matcher_free(matcher);
    ignore_builder_free(builder);
    ignore_tree_free(tree);
    free(path);
    free(room);
}

static void wide(unsigned files) {
    ignore_tree tree;
    ignore_builder builder;
    unsigned long found[2];
    char path[32];
    CALL(IGNORE_OK, ignore_tree_new(TEXT("/"), &tree));
    CALL(IGNORE_OK, ignore_tree_add_file(&tree, TEXT("/.ignore"), TEXT("*7\n")));
    for (unsigned i = 0; i < files; i++) {
        snprintf(path, sizeof path, "/%u", i);
        CALL(IGNORE_OK, ignore_tree_add_file(&tree, TEXT(path), TEXT("")));
    }
    CALL(IGNORE_OK, ignore_builder_new(TEXT("/"), &builder));
    CALL(IGNORE_NONE, counted(&builder, &tree, 32, found));
    HOLDS(found[0] == files - files / 10 + 1 && found[1] == 0);
    ignore_builder_free(builder);
    ignore_tree_free(tree);
}

/* Bytes that aren't UTF-8, in each of their kinds; zeros, which are as other characters; no bytes. */
static void texts(void) {
    static const char *const wrong_bytes[] = {
        "\xff", "\xc3", "\xc0\x80", "\xed\xa0\x80", "\xf4\x90\x80\x80", "a\x80", "\xe2\x82",
    };
    ignore_rule_options options = {false, true, false};
    ignore_rules rules;
    ignore_tree tree;
    ignore_counts counts;
    CALL(IGNORE_OK, ignore_rules_new(TEXT(""), &options, &rules));
    CALL(IGNORE_OK, ignore_tree_new(TEXT("/"), &tree));
    for (size_t i = 0; i < sizeof wrong_bytes / sizeof *wrong_bytes; i++) {
        char path[16];
        snprintf(path, sizeof path, "/%s", wrong_bytes[i]);
        CALL(IGNORE_NOT_UTF8, ignore_rules_add_line(&rules, TEXT(""), TEXT(wrong_bytes[i])));
        CALL(IGNORE_NOT_UTF8, ignore_rules_add_file(&rules, TEXT(wrong_bytes[i]), TEXT("a")));
        CALL(IGNORE_NOT_UTF8, ignore_tree_add_dir(&tree, TEXT(path)));
        CALL(IGNORE_OK, ignore_tree_add_file(&tree, BYTES("/f"), TEXT(wrong_bytes[i])));
        CALL(IGNORE_OK, ignore_tree_remove(&tree, BYTES("/f")));
    }
    CALL(IGNORE_OK, ignore_rules_add_line(&rules, TEXT(""), BYTES("a\0b")));
    CALL(IGNORE_OK, ignore_rules_add_line(&rules, TEXT(""), TEXT("")));
    CALL(IGNORE_OK, ignore_rules_add_file(&rules, TEXT(""), TEXT("")));
    CALL(IGNORE_OK, ignore_tree_add_file(&tree, BYTES("/a\0b"), BYTES("\0")));
    CALL(IGNORE_EXISTS, ignore_tree_add_dir(&tree, BYTES("/a\0b")));
    CALL(IGNORE_NOT_CLEAN, ignore_tree_add_dir(&tree, TEXT("")));
    CALL(IGNORE_NOT_CLEAN, ignore_tree_add_dir(&tree, TEXT("//a")));
    CALL(IGNORE_NOT_CLEAN, ignore_tree_add_dir(&tree, TEXT("/a/")));
    CALL(IGNORE_NOT_CLEAN, ignore_tree_add_dir(&tree, TEXT("/./a")));
    CALL(IGNORE_NOT_CLEAN, ignore_tree_add_dir(&tree, TEXT("/..")));
    CALL(IGNORE_OK, ignore_rules_build(&rules));
    CALL(IGNORE_OK, ignore_rules_counts(&rules, &counts));
    HOLDS(counts.ignores == 1 && counts.whitelists == 0);
    CALL(IGNORE_IGNORE, ignore_rules_matched(&rules, BYTES("x/a\0b"), false));
    CALL(IGNORE_NONE, ignore_rules_matched(&rules, BYTES("x/a"), false));
    CALL(IGNORE_NONE, ignore_rules_matched(&rules, TEXT(""), false));
    ignore_rules_free(rules);
    ignore_tree_free(tree);
}

/* What has texts to hand out. */
static struct {
    ignore_rules rules;
    ignore_tree tree;
    ignore_builder builder;
    ignore_matcher matcher;
} kept;

/* Has a text of one of five kinds put into a room: the length of all of it. */
static size_t put(int kind, size_t all, uint8_t *room, size_t size) {
    size_t whole = 0;
    if (kind == 0) {
        CALL(IGNORE_OK, ignore_rules_problem(&kept.rules, room, size, &whole));
    } else if (kind == 1) {
        ignore_reason reason;
        CALL(IGNORE_IGNORE,
             ignore_rules_decided(&kept.rules, TEXT("a.o"), false, &reason, room, size));
        whole = reason.source + reason.pattern + reason.glob;
    } else if (kind == 2) {
        CALL(IGNORE_OK,
             ignore_matcher_normalize(&kept.matcher, TEXT("/t/./a//b/"), room, size, &whole));
    } else if (kind == 3) {
        ignore_found found;
        ignore_why why;
        CALL(IGNORE_IGNORE, ignore_matcher_explained(&kept.matcher, &kept.tree, TEXT("f/x"), false,
                                                     &found, &why, room, size));
        whole = why.directory + why.source + why.pattern + why.glob + why.ancestor;
    } else {
        ignore_walk items;
        ignore_walk_entry entry;
        CALL(IGNORE_OK, ignore_walk_new(&kept.builder, &kept.tree, &items));
        CALL(size < all ? IGNORE_ROOM : IGNORE_OK, ignore_walk_next(&items, &entry, room, size));
        whole = entry.path + entry.error;
        ignore_walk_free(items);
    }
    return whole;
}

/* The texts of a problem, of a rule, of a path, of a reason and of an item, for rooms from nothing on:
   the first bytes, as many as there is room for, and the length of all. */
static void rooms(void) {
    static const char *const told[] = {
        "error parsing glob '{': unclosed alternates", "sourcea.o**/a.o", "a/b",
        "/t//t/.ignoref/f", "/t",
    };
    ignore_rule_options options = {false, true, false};
    CALL(IGNORE_OK, ignore_rules_new(TEXT(""), &options, &kept.rules));
    CALL(IGNORE_OK, ignore_rules_add_line(&kept.rules, TEXT("source"), TEXT("a.o")));
    CALL(IGNORE_REFUSED, ignore_rules_add_line(&kept.rules, TEXT(""), TEXT("{")));
    CALL(IGNORE_OK, ignore_tree_new(TEXT("/"), &kept.tree));
    CALL(IGNORE_OK, ignore_tree_add_dir(&kept.tree, TEXT("/t")));
    CALL(IGNORE_OK, ignore_tree_add_file(&kept.tree, TEXT("/t/.ignore"), TEXT("f/\n")));
    CALL(IGNORE_OK, ignore_builder_new(TEXT("/t"), &kept.builder));
    CALL(IGNORE_OK, ignore_matcher_new(&kept.builder, &kept.tree, &kept.matcher));
    for (int kind = 0; kind < 5; kind++) {
        size_t all = strlen(told[kind]);
        if (kind == 1)
            CALL(IGNORE_OK, ignore_rules_build(&kept.rules));
        for (size_t size = 0; size <= all + 1; size++) {
            uint8_t *room = room_of(size);
            HOLDS(put(kind, all, room, size) == all);
            HOLDS(!memcmp(room, told[kind], size < all ? size : all));
            HOLDS(size <= all || room[all] == '#');
            free(room);
        }
    }
    ignore_matcher_free(kept.matcher);
    ignore_builder_free(kept.builder);
    ignore_tree_free(kept.tree);
    ignore_rules_free(kept.rules);
}

/* Long lines: what is put again and again, and after the half of it something else. */
static void long_lines(size_t bytes) {
    static const struct {
        const char *first, *second;
        uint32_t code;
    } lines[] = {
        {"[", "[", IGNORE_OK}, {"a", "a", IGNORE_OK}, {"**/", "**/", IGNORE_OK},
        {"{a,", "{a,", IGNORE_REFUSED}, {"{a,", "}", IGNORE_REFUSED}, {"{a,b}", "{c}", IGNORE_OK},
        {"[a-", "z]", IGNORE_REFUSED}, {"\\", "\\", IGNORE_OK}, {"!", "!", IGNORE_OK},
        {"/", "/", IGNORE_OK}, {"*", "?", IGNORE_OK}, {" ", " ", IGNORE_OK}, {"#", "#", IGNORE_OK},
        {"}", "{", IGNORE_REFUSED}, {"\xc3\xa9", "\xf0\x9f\x98\x80", IGNORE_OK},
    };
    uint8_t *line = room_of(bytes), room[16];
    ignore_rule_options options = {false, true, false};
    for (size_t i = 0; i < sizeof lines / sizeof *lines; i++) {
        ignore_rules rules;
        size_t length = 0, whole = 0;
        for (int half = 1; half <= 2; half++) {
            const char *part = half == 1 ? lines[i].first : lines[i].second;
            for (size_t n = strlen(part); length + n <= bytes / 2 * half; length += n)
                memcpy(line + length, part, n);
        }
        CALL(IGNORE_OK, ignore_rules_new(TEXT(""), &options, &rules));
        CALL(lines[i].code, ignore_rules_add_line(&rules, TEXT(""), line, length));
        CALL(lines[i].code == IGNORE_OK ? IGNORE_NONE : IGNORE_OK,
             ignore_rules_problem(&rules, room, sizeof room, &whole));
        CALL(IGNORE_OK, ignore_rules_build(&rules));
        HOLDS(ignore_rules_matched(&rules, TEXT("x/y/z"), false) <= IGNORE_IGNORE);
        HOLDS(ignore_rules_matched(&rules, line, length < 300 ? length : 300, false)
              <= IGNORE_IGNORE);
        ignore_rules_free(rules);
    }
    free(line);
}

int main(int count, char **words) {
    circles();
    chains();
    texts();
    rooms();
    deep(count > 1 ? strtoul(words[1], NULL, 10) : 1500);
    wide(count > 2 ? (unsigned)strtoul(words[2], NULL, 10) : 100000);
    long_lines(count > 3 ? strtoul(words[3], NULL, 10) : 100000);
    printf("%lu wrong answers\n", wrong);
    return wrong > 0;
}
