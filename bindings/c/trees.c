/* Tells a tree, and asks a matcher and a walk over it, with each allocation failing in turn: a call
   that answers IGNORE_NO_MEMORY is made again, and must then answer as it does where none fails.
   Then asks one matcher a million questions, by which the process must not grow. */
#include "failing.h"

#include <sys/resource.h>

static void tell(ignore_tree *tree) {
    CALL(IGNORE_OK, ignore_tree_new(TEXT("/"), tree));
    CALL(IGNORE_OK, ignore_tree_add_dir(tree, TEXT("/t")));
    CALL(IGNORE_EXISTS, ignore_tree_add_dir(tree, TEXT("/t")));
    CALL(IGNORE_NO_PARENT, ignore_tree_add_dir(tree, TEXT("/u/v")));
    CALL(IGNORE_NOT_CLEAN, ignore_tree_add_dir(tree, TEXT("t")));
    CALL(IGNORE_OK, ignore_tree_add_dir(tree, TEXT("/t/a")));
    CALL(IGNORE_OK, ignore_tree_add_file(tree, TEXT("/t/.ignore"), TEXT("*.o\n{\n")));
    CALL(IGNORE_OK, ignore_tree_add_file(tree, TEXT("/t/a/.mine"), TEXT("!keep.o\n")));
    CALL(IGNORE_OK, ignore_tree_add_file(tree, TEXT("/t/a/x.c"), TEXT("")));
    CALL(IGNORE_OK, ignore_tree_add_file(tree, TEXT("/t/a/y.o"), TEXT("")));
    CALL(IGNORE_OK, ignore_tree_add_link(tree, TEXT("/t/l"), TEXT("a")));
    CALL(IGNORE_OK, ignore_tree_add_file(tree, TEXT("/t/gone"), TEXT("")));
    CALL(IGNORE_OK, ignore_tree_remove(tree, TEXT("/t/gone")));
    CALL(IGNORE_MISSING, ignore_tree_remove(tree, TEXT("/t/gone")));
}

static void set(ignore_builder *builder, ignore_tree *tree) {
    uint8_t room[256];
    size_t whole = 0;
    CALL(IGNORE_OK, ignore_builder_new(TEXT("/t"), builder));
    CALL(IGNORE_OK, ignore_builder_add_custom_ignore_filename(builder, TEXT(".mine")));
    CALL(IGNORE_OK, ignore_builder_env_current_dir(builder, TEXT("/")));
    CALL(IGNORE_OK, ignore_builder_max_depth(builder, true, 9));
    CALL(IGNORE_OK, ignore_builder_overrides(builder, TEXT("/t"), false));
    CALL(IGNORE_OK, ignore_builder_add_override(builder, TEXT("!*.tmp")));
    CALL(IGNORE_REFUSED, ignore_builder_add_override(builder, TEXT("{")));
    CALL(IGNORE_OK, ignore_builder_problem(builder, room, sizeof room, &whole));
    same("error parsing glob '{': unclosed alternates", room, whole);
    CALL(IGNORE_OK, ignore_builder_set_overrides(builder));
    CALL(IGNORE_OK, ignore_builder_type_add_def(builder, TEXT("log:*.log")));
    CALL(IGNORE_OK, ignore_builder_type_negate(builder, TEXT("log")));
    CALL(IGNORE_OK, ignore_builder_set_types(builder));
    CALL(IGNORE_REFUSED, ignore_builder_add_ignore(builder, tree, TEXT("/none")));
}

static void ask_all(ignore_matcher *matcher, ignore_tree *tree) {
    ignore_found found;
    size_t count = 0;
    uint8_t room[256];
    CALL(IGNORE_NONE, ignore_matcher_matched(matcher, tree, TEXT("a/x.c"), false, &found));
    CALL(IGNORE_IGNORE, ignore_matcher_matched(matcher, tree, TEXT("a/y.o"), false, &found));
    CALL(IGNORE_WHITELIST, ignore_matcher_matched(matcher, tree, TEXT("a/keep.o"), false, &found));
    CALL(IGNORE_IGNORE, ignore_matcher_matched(matcher, tree, TEXT("a/x.tmp"), false, &found));
    CALL(IGNORE_IGNORE, ignore_matcher_matched(matcher, tree, TEXT("x.log"), false, &found));
    CALL(IGNORE_OK, ignore_matcher_normalize(matcher, TEXT("/t/./a/../b"), room, sizeof room, &count));
    same("b", room, count);
    CALL(IGNORE_OK, ignore_tree_rewrite_file(tree, TEXT("/t/a/.mine"), TEXT("!y.o\n")));
    CALL(IGNORE_OK, ignore_matcher_forget(matcher, TEXT("a"), &count));
    CALL(IGNORE_WHITELIST, ignore_matcher_matched(matcher, tree, TEXT("a/y.o"), false, &found));
}

static void walk_all(ignore_builder *builder, ignore_tree *tree) {
    static const char *const wanted[] = {
        "/t/t/.ignore: line 2: error parsing glob '{': unclosed alternates",
        "/t/a", "/t/a/x.c", "/t/a/y.o", "/t/l",
    };
    ignore_walk_entry entry;
    uint8_t room[256];
    ignore_walk walk;
    CALL(IGNORE_OK, ignore_walk_new(builder, tree, &walk));
    CALL(IGNORE_ROOM, ignore_walk_next(&walk, &entry, room, 1));
    for (size_t i = 0; i < sizeof wanted / sizeof *wanted; i++) {
        CALL(IGNORE_OK, ignore_walk_next(&walk, &entry, room, sizeof room));
        same(wanted[i], room, entry.path + entry.error);
    }
    CALL(IGNORE_NONE, ignore_walk_next(&walk, &entry, room, sizeof room));
    ignore_walk_free(walk);
}

static void round_of_calls(void) {
    ignore_tree tree;
    ignore_builder builder;
    ignore_matcher matcher;
    tell(&tree);
    set(&builder, &tree);
    CALL(IGNORE_OK, ignore_matcher_new(&builder, &tree, &matcher));
    ask_all(&matcher, &tree);
    walk_all(&builder, &tree);
    ignore_builder_free(builder);
    ignore_matcher_free(matcher);
    ignore_tree_free(tree);
}

/* The largest size that the process has had, in KiB. */
static long largest(void) {
    struct rusage used;
    getrusage(RUSAGE_SELF, &used);
    return used.ru_maxrss;
}

static void many_questions(void) {
    ignore_tree tree;
    ignore_builder builder;
    ignore_matcher matcher;
    ignore_found found;
    tell(&tree);
    set(&builder, &tree);
    CALL(IGNORE_OK, ignore_matcher_new(&builder, &tree, &matcher));
    CALL(IGNORE_IGNORE, ignore_matcher_matched(&matcher, &tree, TEXT("a/y.o"), false, &found));
    long before = largest();
    for (int i = 0; i < 1000000; i++)
        CALL(IGNORE_IGNORE, ignore_matcher_matched(&matcher, &tree, TEXT("a/y.o"), false, &found));
    if (largest() > before + 64) {
        wrong++;
        printf("a million questions: %ld KiB more\n", largest() - before);
    }
    ignore_matcher_free(matcher);
    ignore_builder_free(builder);
    ignore_tree_free(tree);
}

int main(int count, char **words) {
    unsigned long whole = each_fails(round_of_calls);
    if (count < 2 || strcmp(words[1], "few"))
        many_questions();
    printf("%lu allocations failed in turn, %lu wrong answers\n", whole, wrong);
    return wrong > 0 || whole == 0;
}
