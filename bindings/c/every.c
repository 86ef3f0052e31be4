/* Makes each call of the header that `refusing.c` and `trees.c` leave out, with each of its answers,
   and with each allocation failing in turn: after IGNORE_NO_MEMORY the call is made again, and must
   then answer as it does where none fails. */
#include "failing.h"

/* What a call answers of each kind of handle that isn't its own, and of a text that isn't UTF-8. */
#define NOT_UTF8 BYTES("/\xff")

static void tell(ignore_tree *tree) {
    CALL(IGNORE_NOT_CLEAN, ignore_tree_new(TEXT("w"), tree));
    CALL(IGNORE_NOT_UTF8, ignore_tree_new(NOT_UTF8, tree));
    CALL(IGNORE_OK, ignore_tree_new(TEXT("/w"), tree));
    CALL(IGNORE_OK, ignore_tree_add_dir(tree, TEXT("/t")));
    CALL(IGNORE_OK, ignore_tree_add_dir(tree, TEXT("/t/odd")));
    CALL(IGNORE_OK, ignore_tree_add_dir(tree, TEXT("/t/shut")));
    CALL(IGNORE_OK, ignore_tree_add_file(tree, TEXT("/t/f"), TEXT("1234")));
    CALL(IGNORE_OK, ignore_tree_add_file(tree, TEXT("/t/big"), TEXT("")));
    CALL(IGNORE_OK, ignore_tree_add_file(tree, TEXT("/t/.ignore"), TEXT("f\n*.o\n")));
    CALL(IGNORE_OK, ignore_tree_add_file(tree, TEXT("/t/lost"), TEXT("")));
    CALL(IGNORE_OK, ignore_tree_add_file(tree, TEXT("/rules"), TEXT("*.tmp\n")));
    CALL(IGNORE_OK, ignore_tree_add_link(tree, TEXT("/t/l"), TEXT("odd")));
    CALL(IGNORE_NOT_UTF8, ignore_tree_add_link(tree, TEXT("/t/m"), NOT_UTF8));
    CALL(IGNORE_NO_PARENT, ignore_tree_add_file(tree, TEXT("/t/l/x"), TEXT("")));
    CALL(IGNORE_OK, ignore_tree_add_nameless(tree, TEXT("/t/odd")));
    CALL(IGNORE_MISSING, ignore_tree_add_nameless(tree, TEXT("/t/f")));
    CALL(IGNORE_OK, ignore_tree_set_size(tree, TEXT("/t/big"), 1 << 20));
    CALL(IGNORE_MISSING, ignore_tree_set_size(tree, TEXT("/t"), 1));
    CALL(IGNORE_OK, ignore_tree_set_identity(tree, TEXT("/t/odd"), 7, 0));
    CALL(IGNORE_MISSING, ignore_tree_set_identity(tree, TEXT("/none"), 7, 0));
    CALL(IGNORE_OK, ignore_tree_clear_identity(tree, TEXT("/t/shut")));
    CALL(IGNORE_MISSING, ignore_tree_clear_identity(tree, TEXT("/none")));
    CALL(IGNORE_OK, ignore_tree_fault_list(tree, TEXT("/t/shut"), IGNORE_FAULT_PERMISSION_DENIED));
    CALL(IGNORE_MISSING, ignore_tree_fault_list(tree, TEXT("/t/f"), IGNORE_FAULT_OTHER));
    CALL(IGNORE_OK, ignore_tree_fault_stat(tree, TEXT("/t/lost"), IGNORE_FAULT_OTHER));
    CALL(IGNORE_MISSING, ignore_tree_fault_stat(tree, TEXT("/none"), IGNORE_FAULT_OTHER));
    CALL(IGNORE_MISUSED, ignore_tree_fault_stat(tree, TEXT("/t"), IGNORE_FAULT_OTHER + 1));
    CALL(IGNORE_OK, ignore_tree_cut_contents(tree, TEXT("/t/.ignore"), 2, IGNORE_FAULT_OTHER));
    CALL(IGNORE_MISSING, ignore_tree_cut_contents(tree, TEXT("/t"), 2, IGNORE_FAULT_OTHER));
    CALL(IGNORE_MISUSED, ignore_tree_cut_contents(tree, TEXT("/t/f"), 2, UINT32_MAX));
    CALL(IGNORE_MISSING, ignore_tree_rewrite_file(tree, TEXT("/t"), TEXT("")));
    CALL(IGNORE_MISSING, ignore_tree_remove(tree, TEXT("/")));
}

static void switch_all(ignore_builder *builder) {
    uint32_t (*const calls[])(ignore_builder *, bool) = {
        ignore_builder_standard_filters, ignore_builder_hidden, ignore_builder_parents,
        ignore_builder_ignore, ignore_builder_git_ignore, ignore_builder_git_global,
        ignore_builder_git_exclude, ignore_builder_require_git,
        ignore_builder_ignore_case_insensitive, ignore_builder_git_trailing_spaces,
        ignore_builder_follow_links, ignore_builder_same_file_system,
    };
    for (size_t i = 0; i < sizeof calls / sizeof *calls; i++) {
        CALL(IGNORE_OK, calls[i](builder, true));
        CALL(IGNORE_OK, calls[i](builder, i == 0));
    }
    CALL(IGNORE_OK, ignore_builder_ignore(builder, true));
    CALL(IGNORE_OK, ignore_builder_hidden(builder, true));
}

static void label_all(ignore_builder *builder) {
    uint32_t (*const calls[])(ignore_builder *, const uint8_t *, size_t) = {
        ignore_builder_add_custom_ignore_filename, ignore_builder_add_ignore_path,
        ignore_builder_current_dir, ignore_builder_env_current_dir, ignore_builder_env_home,
        ignore_builder_env_xdg_config_home, ignore_builder_env_git_config_global,
        ignore_builder_env_git_config_system,
    };
    for (size_t i = 0; i < sizeof calls / sizeof *calls; i++) {
        CALL(IGNORE_NOT_UTF8, calls[i](builder, NOT_UTF8));
        CALL(IGNORE_OK, calls[i](builder, TEXT("/w")));
    }
    CALL(IGNORE_NOT_UTF8, ignore_builder_add(builder, NOT_UTF8));
}

static void choose_all(ignore_builder *builder) {
    uint8_t room[256];
    size_t whole = 9;
    CALL(IGNORE_MISUSED, ignore_builder_add_override(builder, TEXT("a")));
    CALL(IGNORE_MISUSED, ignore_builder_set_overrides(builder));
    CALL(IGNORE_OK, ignore_builder_type_add_defaults(builder));
    CALL(IGNORE_OK, ignore_builder_type_negate(builder, TEXT("elixir")));
    CALL(IGNORE_REFUSED, ignore_builder_set_types(builder));
    CALL(IGNORE_OK, ignore_builder_type_add_all_defaults(builder));
    CALL(IGNORE_OK, ignore_builder_set_types(builder));
    CALL(IGNORE_OK, ignore_builder_type_add(builder, TEXT("mine"), TEXT("*.mine")));
    CALL(IGNORE_REFUSED, ignore_builder_type_add(builder, TEXT("a b"), TEXT("*.mine")));
    CALL(IGNORE_OK, ignore_builder_problem(builder, room, sizeof room, &whole));
    HOLDS(whole > 0);
    CALL(IGNORE_REFUSED, ignore_builder_type_add_def(builder, TEXT("none")));
    CALL(IGNORE_OK, ignore_builder_type_select(builder, TEXT("nosuch")));
    CALL(IGNORE_REFUSED, ignore_builder_set_types(builder));
    CALL(IGNORE_OK, ignore_builder_type_clear(builder, TEXT("mine")));
    CALL(IGNORE_OK, ignore_builder_type_add(builder, TEXT("nosuch"), TEXT("*.x")));
    CALL(IGNORE_NONE, ignore_builder_problem(builder, room, sizeof room, &whole));
    HOLDS(whole == 0);
    CALL(IGNORE_OK, ignore_builder_overrides(builder, TEXT("/t"), true));
    CALL(IGNORE_NOT_UTF8, ignore_builder_add_override(builder, NOT_UTF8));
    CALL(IGNORE_OK, ignore_builder_add_override(builder, TEXT("!*.BAK")));
    CALL(IGNORE_OK, ignore_builder_set_overrides(builder));
}

static void limit_all(ignore_builder *builder) {
    CALL(IGNORE_OK, ignore_builder_max_depth(builder, false, 1));
    CALL(IGNORE_OK, ignore_builder_min_depth(builder, true, 1));
    CALL(IGNORE_OK, ignore_builder_max_filesize(builder, true, 1000));
}

static void set(ignore_builder *builder, ignore_tree *tree) {
    CALL(IGNORE_NOT_UTF8, ignore_builder_new(NOT_UTF8, builder));
    CALL(IGNORE_OK, ignore_builder_new(TEXT("/t"), builder));
    switch_all(builder);
    label_all(builder);
    limit_all(builder);
    CALL(IGNORE_OK, ignore_builder_add_ignore(builder, tree, TEXT("/rules")));
    CALL(IGNORE_NOT_UTF8, ignore_builder_add_ignore(builder, tree, NOT_UTF8));
}

/* Handles that keep something else than the call is for: it changes nothing. */
static void misuse(ignore_builder *builder, ignore_tree *tree, ignore_matcher *matcher) {
    ignore_builder in_tree = {tree->at};
    ignore_tree in_builder = {builder->at};
    ignore_matcher made = {NULL};
    ignore_walk items = {NULL};
    ignore_found found = {true, true};
    ignore_walk_entry entry;
    uint8_t room[8];
    size_t whole = 9;
    CALL(IGNORE_MISUSED, ignore_tree_add_dir(&in_builder, TEXT("/x")));
    CALL(IGNORE_MISUSED, ignore_builder_add(&in_tree, TEXT("/x")));
    CALL(IGNORE_MISUSED, ignore_builder_hidden(&in_tree, true));
    CALL(IGNORE_MISUSED, ignore_builder_type_add_defaults(&in_tree));
    CALL(IGNORE_MISUSED, ignore_builder_type_add_all_defaults(&in_tree));
    CALL(IGNORE_MISUSED, ignore_builder_problem(&in_tree, room, sizeof room, &whole));
    HOLDS(whole == 0);
    CALL(IGNORE_MISUSED, ignore_matcher_new(&in_tree, &in_builder, &made));
    CALL(IGNORE_MISUSED, ignore_walk_new(&in_tree, &in_builder, &items));
    HOLDS(made.at == NULL && items.at == NULL);
    ignore_tree in_matcher = {matcher->at};
    CALL(IGNORE_MISUSED, ignore_builder_add_ignore(builder, &in_matcher, TEXT("/rules")));
    CALL(IGNORE_MISUSED,
         ignore_matcher_matched(matcher, &in_builder, TEXT("a"), false, &found));
    HOLDS(!found.should_descend && !found.is_within_depth);
    ignore_walk not_items = {tree->at};
    CALL(IGNORE_MISUSED, ignore_walk_next(&not_items, &entry, room, sizeof room));
    HOLDS(!entry.is_entry && entry.path == 0 && entry.error == 0);
}

/* Asks why, and compares the answer, the kind of the reason, and its texts, one after the other. */
static ignore_why why(ignore_matcher *matcher, ignore_tree *tree, const char *path, uint32_t answer,
                      uint32_t kind, const char *texts) {
    ignore_why told;
    ignore_found found, alone;
    uint8_t room[64];
    CALL(answer, ignore_matcher_explained(matcher, tree, TEXT(path), false, &found, &told, room,
                                          sizeof room));
    HOLDS(told.kind == kind && told.is_inside == (told.ancestor > 0));
    same(texts, room, told.directory + told.source + told.pattern + told.glob + told.ancestor);
    CALL(answer, ignore_matcher_matched(matcher, tree, TEXT(path), false, &alone));
    HOLDS(found.should_descend == alone.should_descend
          && found.is_within_depth == alone.is_within_depth);
    return told;
}

/* Why is asked with each kind of reason; `/t/.ignore` has `f`, `/rules` has `*.tmp`. */
static void explain_all(ignore_matcher *matcher, ignore_tree *tree) {
    ignore_tree in_matcher = {matcher->at};
    ignore_found found = {true, true};
    ignore_why told = {.kind = 9, .pattern = 9, .is_inside = true};
    uint8_t room[8] = "####";
    CALL(IGNORE_NOT_UTF8, ignore_matcher_explained(matcher, tree, NOT_UTF8, false, &found, &told,
                                                   room, 4));
    HOLDS(!found.is_within_depth && told.kind == 0 && told.pattern == 0 && !told.is_inside);
    told.kind = 9;
    CALL(IGNORE_MISUSED, ignore_matcher_explained(matcher, &in_matcher, TEXT("f"), false, &found,
                                                  &told, room, 4));
    HOLDS(told.kind == 0 && !memcmp(room, "####", 4));
    CALL(IGNORE_IGNORE, ignore_matcher_explained(matcher, tree, TEXT("x.bak"), false, &found, &told,
                                                 room, 4));
    HOLDS(told.pattern == 6 && !memcmp(room, "!*.b", 4));
    told = why(matcher, tree, "f", IGNORE_IGNORE, IGNORE_WHY_RULE, "//t/.ignoref");
    HOLDS(told.rank == IGNORE_RANK_IGNORE && told.line == 1 && told.has_source);
    HOLDS(told.directory == 1 && told.source == 10 && told.pattern == 1);
    told = why(matcher, tree, "x.tmp", IGNORE_IGNORE, IGNORE_WHY_RULE, "/rules*.tmp");
    HOLDS(told.rank == IGNORE_RANK_EXPLICIT && told.directory == 0 && told.source == 6);
    told = why(matcher, tree, "f/in/x", IGNORE_IGNORE, IGNORE_WHY_RULE, "//t/.ignoreff");
    HOLDS(told.ancestor == 1 && told.pattern == 1);
    told = why(matcher, tree, "big", IGNORE_IGNORE, IGNORE_WHY_LARGER, "");
    HOLDS(told.size == 1 << 20 && told.limit == 1000 && told.rank == 0);
    told = why(matcher, tree, ".x/y", IGNORE_IGNORE, IGNORE_WHY_HIDDEN, ".x");
    HOLDS(told.size == 0 && !told.has_source);
    why(matcher, tree, "x.o", IGNORE_NONE, IGNORE_WHY_NO_RULE, "");
    why(matcher, tree, "./f", IGNORE_NONE, IGNORE_WHY_NOT_ASKED, "");
    why(matcher, tree, "", IGNORE_IGNORE, IGNORE_WHY_TOO_SHALLOW, "");
}

/* The reasons of globs that whitelist, of file types, of the greatest depth, and of a root that is
   none. */
static void explain_chosen(void) {
    ignore_tree tree;
    ignore_builder builder;
    ignore_matcher matcher;
    CALL(IGNORE_OK, ignore_tree_new(TEXT("/"), &tree));
    CALL(IGNORE_OK, ignore_tree_add_dir(&tree, TEXT("/t")));
    CALL(IGNORE_OK, ignore_tree_add_file(&tree, TEXT("/f"), TEXT("")));
    CALL(IGNORE_OK, ignore_builder_new(TEXT("/t"), &builder));
    CALL(IGNORE_OK, ignore_builder_max_depth(&builder, true, 2));
    CALL(IGNORE_OK, ignore_builder_type_add(&builder, TEXT("web"), TEXT("*.css")));
    CALL(IGNORE_OK, ignore_builder_type_add(&builder, TEXT("old"), TEXT("*.old")));
    CALL(IGNORE_OK, ignore_builder_type_select(&builder, TEXT("web")));
    CALL(IGNORE_OK, ignore_builder_type_negate(&builder, TEXT("old")));
    CALL(IGNORE_OK, ignore_builder_set_types(&builder));
    CALL(IGNORE_OK, ignore_matcher_new(&builder, &tree, &matcher));
    ignore_why told =
        why(&matcher, &tree, "a.css", IGNORE_WHITELIST, IGNORE_WHY_TYPE, "web*.css");
    HOLDS(told.pattern == 3 && told.glob == 5);
    why(&matcher, &tree, "a.old", IGNORE_IGNORE, IGNORE_WHY_TYPE, "old*.old");
    why(&matcher, &tree, "a.c", IGNORE_IGNORE, IGNORE_WHY_NO_TYPE, "");
    why(&matcher, &tree, "a/b/c", IGNORE_IGNORE, IGNORE_WHY_TOO_DEEP, "");
    why(&matcher, &tree, "", IGNORE_NONE, IGNORE_WHY_UNRULED, "");
    ignore_matcher_free(matcher);
    CALL(IGNORE_OK, ignore_builder_overrides(&builder, TEXT("/t"), false));
    CALL(IGNORE_OK, ignore_builder_add_override(&builder, TEXT("*.c")));
    CALL(IGNORE_OK, ignore_builder_set_overrides(&builder));
    CALL(IGNORE_OK, ignore_matcher_new(&builder, &tree, &matcher));
    why(&matcher, &tree, "a.c", IGNORE_WHITELIST, IGNORE_WHY_OVERRIDE, "*.c");
    why(&matcher, &tree, "a.css", IGNORE_IGNORE, IGNORE_WHY_NO_OVERRIDE, "");
    ignore_matcher_free(matcher);
    ignore_builder_free(builder);
    CALL(IGNORE_OK, ignore_builder_new(TEXT("/f"), &builder));
    CALL(IGNORE_OK, ignore_matcher_new(&builder, &tree, &matcher));
    why(&matcher, &tree, "a", IGNORE_NONE, IGNORE_WHY_UNRULED, "");
    ignore_matcher_free(matcher);
    ignore_builder_free(builder);
    ignore_tree_free(tree);
}

static void ask_all(ignore_matcher *matcher, ignore_tree *tree) {
    ignore_found found;
    size_t whole = 9;
    uint8_t room[16];
    CALL(IGNORE_NOT_UTF8, ignore_matcher_matched(matcher, tree, NOT_UTF8, false, &found));
    CALL(IGNORE_IGNORE, ignore_matcher_matched(matcher, tree, TEXT("f"), false, &found));
    HOLDS(!found.should_descend);
    CALL(IGNORE_NONE, ignore_matcher_matched(matcher, tree, TEXT("x.o"), false, &found));
    CALL(IGNORE_IGNORE, ignore_matcher_matched(matcher, tree, TEXT("x.tmp"), false, &found));
    CALL(IGNORE_IGNORE, ignore_matcher_matched(matcher, tree, TEXT("x.bak"), false, &found));
    CALL(IGNORE_IGNORE, ignore_matcher_matched(matcher, tree, TEXT("big"), false, &found));
    CALL(IGNORE_NONE, ignore_matcher_matched(matcher, tree, TEXT("./f"), false, &found));
    CALL(IGNORE_NONE, ignore_matcher_matched(matcher, tree, TEXT("/t/f"), false, &found));
    CALL(IGNORE_NONE, ignore_matcher_matched(matcher, tree, TEXT("odd/deep"), true, &found));
    HOLDS(found.should_descend && found.is_within_depth);
    CALL(IGNORE_NOT_UTF8, ignore_matcher_forget(matcher, NOT_UTF8, &whole));
    HOLDS(whole == 0);
    CALL(IGNORE_OK, ignore_matcher_forget(matcher, TEXT(""), &whole));
    HOLDS(whole == 2);
    CALL(IGNORE_OK, ignore_matcher_forget(matcher, TEXT("elsewhere"), &whole));
    HOLDS(whole == 0);
    CALL(IGNORE_NOT_UTF8, ignore_matcher_normalize(matcher, NOT_UTF8, room, sizeof room, &whole));
    HOLDS(whole == 0);
    CALL(IGNORE_NONE, ignore_matcher_normalize(matcher, TEXT("/u"), room, sizeof room, &whole));
    HOLDS(whole == 0);
}

static void walk_all(ignore_builder *builder, ignore_tree *tree) {
    ignore_walk_entry entry;
    uint8_t room[256];
    ignore_walk items;
    unsigned entries = 0, errors = 0;
    uint32_t code;
    CALL(IGNORE_OK, ignore_builder_limit(builder, 3));
    CALL(IGNORE_LIMIT, ignore_walk_new(builder, tree, &items));
    CALL(IGNORE_OK, ignore_builder_limit(builder, UINT64_MAX));
    CALL(IGNORE_OK, ignore_builder_follow_links(builder, true));
    CALL(IGNORE_OK, ignore_walk_new(builder, tree, &items));
    do {
        code = ignore_walk_next(&items, &entry, room, sizeof room);
        if (code == IGNORE_OK) {
            entries += entry.is_entry;
            errors += entry.error > 0;
        }
    } while (code == IGNORE_OK || (code == IGNORE_NO_MEMORY && failing));
    HOLDS(code == IGNORE_NONE && entries == 4 && errors == 3);
    ignore_walk_free(items);
}

static void ask_rules(ignore_rules *rules) {
    ignore_reason reason;
    uint8_t room[64];
    CALL(IGNORE_IGNORE, ignore_rules_decided_path_or_any_parents(
                            rules, TEXT("/r/build/z"), false, &reason, room, sizeof room));
    same("BUILD/**/BUILD", room, reason.source + reason.pattern + reason.glob);
    HOLDS(reason.is_only_dir && !reason.has_source && reason.line == 0);
    CALL(IGNORE_OUTSIDE, ignore_rules_decided_path_or_any_parents(
                             rules, TEXT("/else"), false, &reason, room, sizeof room));
    CALL(IGNORE_OUTSIDE, ignore_rules_matched_path_or_any_parents(rules, TEXT("/else"), false));
    HOLDS(reason.pattern == 0 && !reason.is_only_dir);
    CALL(IGNORE_IGNORE, ignore_rules_decided(rules, TEXT("x"), true, &reason, room, sizeof room));
    HOLDS(reason.line == 1 && reason.has_source);
    CALL(IGNORE_IGNORE, ignore_rules_rule(rules, 0, &reason, room, sizeof room));
    same("BUILD/**/BUILD", room, reason.source + reason.pattern + reason.glob);
    HOLDS(reason.is_only_dir && !reason.has_source);
    CALL(IGNORE_WHITELIST, ignore_rules_rule(rules, 1, &reason, room, sizeof room));
    same("s!Keep\\ **/Keep\\ ", room, reason.source + reason.pattern + reason.glob);
    CALL(IGNORE_IGNORE, ignore_rules_rule(rules, 2, &reason, room, 1));
    HOLDS(reason.line == 1 && reason.source == 1 && reason.pattern == 1 && room[0] == 'f');
    CALL(IGNORE_NONE, ignore_rules_rule(rules, 3, &reason, room, sizeof room));
    CALL(IGNORE_NONE, ignore_rules_rule(rules, SIZE_MAX, &reason, room, sizeof room));
    HOLDS(reason.line == 0 && reason.pattern == 0 && !reason.has_source && room[0] == 'f');
    CALL(IGNORE_NONE, ignore_rules_matched(rules, TEXT("y"), false));
    CALL(IGNORE_NOT_UTF8, ignore_rules_matched(rules, NOT_UTF8, false));
}

/* As git asks: folders from the root down, which isn't asked. */
static void ask_as_git(void) {
    static const ignore_rule_options options = {false, true, false};
    static const struct {
        const char *path;
        uint32_t code;
        const char *texts;
    } asked[] = {
        {"/r/a/keep/x", IGNORE_IGNORE, "a/**/a"}, {"a/b/a/keep", IGNORE_IGNORE, "a/**/a"},
        {"/r/b/keep", IGNORE_WHITELIST, "!keep**/keep"}, {"/r/keep/x", IGNORE_NONE, ""},
        {"a", IGNORE_NONE, ""}, {"", IGNORE_NONE, ""}, {"/r/", IGNORE_NONE, ""},
        {"/else/x", IGNORE_NONE, ""}, {"/else/a/x", IGNORE_IGNORE, "a/**/a"},
    };
    ignore_rules rules;
    ignore_reason reason;
    uint8_t room[32];
    CALL(IGNORE_OK, ignore_rules_new(TEXT("/r"), &options, &rules));
    CALL(IGNORE_MISUSED, ignore_rules_matched_as_git(&rules, TEXT("a"), false));
    CALL(IGNORE_OK, ignore_rules_add_line(&rules, TEXT(""), TEXT("a/")));
    CALL(IGNORE_OK, ignore_rules_add_line(&rules, TEXT(""), TEXT("!keep")));
    CALL(IGNORE_OK, ignore_rules_build(&rules));
    for (size_t i = 0; i < sizeof asked / sizeof *asked; i++) {
        CALL(asked[i].code, ignore_rules_matched_as_git(&rules, TEXT(asked[i].path), false));
        CALL(asked[i].code, ignore_rules_decided_as_git(&rules, TEXT(asked[i].path), false, &reason,
                                                        room, sizeof room));
        same(asked[i].texts, room, reason.source + reason.pattern + reason.glob);
    }
    CALL(IGNORE_NOT_UTF8, ignore_rules_matched_as_git(&rules, NOT_UTF8, false));
    CALL(IGNORE_NOT_UTF8, ignore_rules_decided_as_git(&rules, NOT_UTF8, false, &reason, room, 9));
    HOLDS(reason.pattern == 0 && !reason.is_only_dir);
    ignore_rules_free(rules);
    CALL(IGNORE_OK, ignore_rules_new(TEXT(""), &options, &rules));
    CALL(IGNORE_OK, ignore_rules_add_line(&rules, TEXT(""), TEXT("*/")));
    CALL(IGNORE_OK, ignore_rules_build(&rules));
    CALL(IGNORE_IGNORE, ignore_rules_matched_path_or_any_parents(&rules, TEXT("a"), false));
    CALL(IGNORE_NONE, ignore_rules_matched_as_git(&rules, TEXT("a"), false));
    CALL(IGNORE_IGNORE, ignore_rules_matched_as_git(&rules, TEXT("a"), true));
    CALL(IGNORE_NONE, ignore_rules_matched_as_git(&rules, TEXT(""), true));
    CALL(IGNORE_IGNORE, ignore_rules_matched_as_git(&rules, TEXT("a/b"), false));
    ignore_rules_free(rules);
}

static void rules_round(void) {
    ignore_rule_options options = {true, false, true};
    ignore_counts counts = {9, 9};
    uint8_t room[64];
    size_t whole = 9;
    ignore_rules rules;
    CALL(IGNORE_NOT_UTF8, ignore_rules_new(NOT_UTF8, &options, &rules));
    CALL(IGNORE_OK, ignore_rules_new(TEXT("/r"), &options, &rules));
    CALL(IGNORE_MISUSED, ignore_rules_counts(&rules, &counts));
    HOLDS(counts.ignores == 0 && counts.whitelists == 0);
    CALL(IGNORE_MISUSED, ignore_rules_matched(&rules, TEXT("a"), false));
    CALL(IGNORE_MISUSED, ignore_rules_rule(&rules, 0, &(ignore_reason){0}, room, sizeof room));
    CALL(IGNORE_NONE, ignore_rules_problem(&rules, room, sizeof room, &whole));
    HOLDS(whole == 0);
    CALL(IGNORE_REFUSED, ignore_rules_add_line(&rules, TEXT(""), TEXT("[a")));
    CALL(IGNORE_NOT_UTF8, ignore_rules_add_line(&rules, NOT_UTF8, TEXT("a")));
    CALL(IGNORE_NOT_UTF8, ignore_rules_add_line(&rules, TEXT(""), NOT_UTF8));
    CALL(IGNORE_NOT_UTF8, ignore_rules_add_file(&rules, NOT_UTF8, TEXT("a")));
    CALL(IGNORE_OK, ignore_rules_add_line(&rules, TEXT(""), TEXT("BUILD/")));
    options.case_insensitive = false;
    CALL(IGNORE_OK, ignore_rules_set_options(&rules, &options));
    CALL(IGNORE_OK, ignore_rules_add_line(&rules, TEXT("s"), TEXT("!Keep\\ ")));
    CALL(IGNORE_REFUSED, ignore_rules_add_file(&rules, TEXT("f"), BYTES("x\n\xff\ny\n")));
    CALL(IGNORE_OK, ignore_rules_build(&rules));
    CALL(IGNORE_MISUSED, ignore_rules_build(&rules));
    CALL(IGNORE_MISUSED, ignore_rules_set_options(&rules, &options));
    CALL(IGNORE_MISUSED, ignore_rules_add_line(&rules, TEXT(""), TEXT("a")));
    CALL(IGNORE_MISUSED, ignore_rules_problem(&rules, room, sizeof room, &whole));
    HOLDS(whole == 0);
    ask_rules(&rules);
    ignore_rules_free(rules);
}

static void tree_round(void) {
    ignore_tree tree;
    ignore_builder builder, chosen;
    ignore_matcher matcher;
    tell(&tree);
    set(&builder, &tree);
    CALL(IGNORE_OK, ignore_builder_overrides(&builder, TEXT("/t"), true));
    CALL(IGNORE_OK, ignore_builder_add_override(&builder, TEXT("!*.bak")));
    CALL(IGNORE_OK, ignore_builder_set_overrides(&builder));
    CALL(IGNORE_OK, ignore_matcher_new(&builder, &tree, &matcher));
    misuse(&builder, &tree, &matcher);
    ask_all(&matcher, &tree);
    explain_all(&matcher, &tree);
    walk_all(&builder, &tree);
    CALL(IGNORE_OK, ignore_builder_add(&builder, TEXT("/w")));
    ignore_matcher_free(matcher);
    CALL(IGNORE_MISUSED, ignore_matcher_new(&builder, &tree, &matcher));
    ignore_builder_free(builder);
    ignore_tree_free(tree);
    CALL(IGNORE_OK, ignore_builder_new(TEXT("/t"), &chosen));
    choose_all(&chosen);
    ignore_builder_free(chosen);
}

/* What is answered where there are no rules, and where the working directory isn't told. */
static void untold_round(void) {
    static const ignore_rule_options options = {false, true, false};
    ignore_rules rules;
    ignore_tree tree;
    ignore_builder builder;
    ignore_matcher matcher;
    uint8_t room[8];
    size_t whole = 1;
    CALL(IGNORE_OK, ignore_rules_new(TEXT("r"), &options, &rules));
    CALL(IGNORE_REFUSED, ignore_rules_add_file(&rules, TEXT("f"), BYTES("\xff\na\n")));
    CALL(IGNORE_OK, ignore_rules_build(&rules));
    CALL(IGNORE_NONE, ignore_rules_matched_path_or_any_parents(&rules, TEXT("/x"), false));
    ignore_rules_free(rules);
    CALL(IGNORE_OK, ignore_tree_new(TEXT("/"), &tree));
    CALL(IGNORE_OK, ignore_tree_add_file(&tree, TEXT("/rules"), TEXT("a\n")));
    CALL(IGNORE_OK, ignore_builder_new(TEXT("r"), &builder));
    CALL(IGNORE_REFUSED, ignore_builder_add_ignore(&builder, &tree, TEXT("/rules")));
    CALL(IGNORE_OK, ignore_matcher_new(&builder, &tree, &matcher));
    CALL(IGNORE_NONE, ignore_matcher_normalize(&matcher, TEXT("/r/a"), room, sizeof room, &whole));
    HOLDS(whole == 0);
    ignore_matcher_free(matcher);
    ignore_builder_free(builder);
    ignore_tree_free(tree);
}

/* The text of each fault, by its number. */
static void faults_round(void) {
    static const char *const texts[] = {
        [IGNORE_FAULT_NOT_FOUND] = "not found",
        [IGNORE_FAULT_PERMISSION_DENIED] = "permission denied",
        [IGNORE_FAULT_NOT_A_DIRECTORY] = "not a directory",
        [IGNORE_FAULT_IS_A_DIRECTORY] = "is a directory",
        [IGNORE_FAULT_INVALID_DATA] = "invalid data",
        [IGNORE_FAULT_BAD_NAME] = "file name is not UTF-8",
        [IGNORE_FAULT_LINK_LIMIT] = "too many links",
        [IGNORE_FAULT_NO_IDENTITY] = "identity unknown",
        [IGNORE_FAULT_NO_CURRENT_DIR] = "current directory unknown",
        [IGNORE_FAULT_STEP_LIMIT] = "step limit reached",
        [IGNORE_FAULT_NO_METADATA] = "<stdin> has no metadata",
        [IGNORE_FAULT_OTHER] = "input or output failed",
    };
    for (uint32_t fault = 0; fault < sizeof texts / sizeof *texts; fault++) {
        ignore_tree tree;
        ignore_builder builder;
        ignore_walk items;
        ignore_walk_entry entry;
        uint8_t room[64];
        CALL(IGNORE_OK, ignore_tree_new(TEXT("/"), &tree));
        CALL(IGNORE_OK, ignore_tree_add_dir(&tree, TEXT("/d")));
        CALL(IGNORE_OK, ignore_tree_fault_list(&tree, TEXT("/d"), fault));
        CALL(IGNORE_OK, ignore_builder_new(TEXT("/d"), &builder));
        CALL(IGNORE_OK, ignore_walk_new(&builder, &tree, &items));
        CALL(IGNORE_OK, ignore_walk_next(&items, &entry, room, sizeof room));
        HOLDS(entry.is_entry && entry.kind == 2 && entry.depth == 0);
        CALL(IGNORE_OK, ignore_walk_next(&items, &entry, room, sizeof room));
        HOLDS(!entry.is_entry && entry.path == 0 && entry.error > 4);
        same(texts[fault], room + 4, entry.error - 4);
        ignore_walk_free(items);
        ignore_builder_free(builder);
        ignore_tree_free(tree);
    }
}

int main(void) {
    unsigned long whole = each_fails(rules_round);
    whole += each_fails(faults_round);
    whole += each_fails(untold_round);
    whole += each_fails(tree_round);
    whole += each_fails(explain_chosen);
    whole += each_fails(ask_as_git);
    CALL(IGNORE_VERSION, ignore_version());
    printf("%lu allocations failed in turn, %lu wrong answers\n", whole, wrong);
    return wrong > 0 || whole == 0;
}
