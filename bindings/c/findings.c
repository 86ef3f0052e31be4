/* Asks what holds of rules over all paths: which of a list decide on nothing, and whether two lists say
   the same; with each allocation failing in turn, after which the call is made again, and must then
   answer as it does where none fails. */
#include "failing.h"

static const ignore_rule_options reading = {false, true, false};

/* Rules of a root and lines, each ended by a newline. */
static ignore_rules rules_of(const char *root, const char *lines) {
    ignore_rules rules = {NULL};
    CALL(IGNORE_OK, ignore_rules_new(TEXT(root), &reading, &rules));
    CALL(IGNORE_OK, ignore_rules_add_file(&rules, TEXT("f"), TEXT(lines)));
    CALL(IGNORE_OK, ignore_rules_build(&rules));
    return rules;
}

/* Whether all of a finding is zero. */
static bool is_nothing(const ignore_finding *it) {
    return it->kind == 0 && it->rule == 0 && it->overruling == 0 && it->path == 0
           && it->folder == 0 && it->folder_rule == 0 && !it->is_dir;
}

static bool is_no_difference(const ignore_difference *it) {
    return it->before == 0 && it->after == 0 && it->path == 0 && it->before_rule == 0
           && it->after_rule == 0 && !it->is_dir;
}

/* Which rules overrule one: `a.o` the last two, `*.o` the last, `..` applies to nothing. */
static void overruled_round(void) {
    ignore_rules rules = rules_of("r", "a.o\n*.o\n..\n!*.o\n");
    ignore_findings findings = {NULL};
    ignore_finding found;
    uint8_t room[8] = "-------";
    size_t rule = 9;
    CALL(IGNORE_OK, ignore_rules_dead(&rules, 10000, &findings));
    CALL(IGNORE_OK, ignore_findings_rule(&findings, 0, &found, room, sizeof room));
    HOLDS(found.rule == 0 && found.kind == IGNORE_DEAD_OVERRULED && found.overruling == 1);
    HOLDS(found.path == 0 && found.folder == 0 && found.folder_rule == 0 && !found.is_dir);
    CALL(IGNORE_OK, ignore_findings_overruling(&findings, 0, 0, &rule));
    HOLDS(rule == 3);
    CALL(IGNORE_NONE, ignore_findings_overruling(&findings, 0, 1, &rule));
    HOLDS(rule == 0);
    CALL(IGNORE_OK, ignore_findings_rule(&findings, 1, &found, room, sizeof room));
    HOLDS(found.rule == 1 && found.kind == IGNORE_DEAD_OVERRULED && found.overruling == 1);
    CALL(IGNORE_OK, ignore_findings_rule(&findings, 2, &found, room, sizeof room));
    HOLDS(found.rule == 2 && found.kind == IGNORE_DEAD_UNMATCHED && found.overruling == 0);
    CALL(IGNORE_NONE, ignore_findings_overruling(&findings, 2, 0, &rule));
    CALL(IGNORE_NONE, ignore_findings_rule(&findings, 3, &found, room, sizeof room));
    HOLDS(is_nothing(&found));
    CALL(IGNORE_NONE, ignore_findings_rule(&findings, SIZE_MAX, &found, room, sizeof room));
    rule = 9;
    CALL(IGNORE_NONE, ignore_findings_overruling(&findings, SIZE_MAX, SIZE_MAX, &rule));
    HOLDS(rule == 0 && room[0] == '-');
    ignore_findings_free(findings);
    ignore_rules_free(rules);
}

/* Two rules by turns overrule one, and their findings outlive the rules. */
static void two_round(void) {
    ignore_rules rules = rules_of("", "a*\n!a\na?*\n");
    ignore_findings findings = {NULL};
    ignore_finding found;
    size_t rule = 9;
    CALL(IGNORE_OK, ignore_rules_dead(&rules, 10000, &findings));
    ignore_rules_free(rules);
    CALL(IGNORE_OK, ignore_findings_rule(&findings, 0, &found, (uint8_t *)"", 0));
    HOLDS(found.rule == 0 && found.kind == IGNORE_DEAD_OVERRULED && found.overruling == 2);
    CALL(IGNORE_OK, ignore_findings_overruling(&findings, 0, 0, &rule));
    HOLDS(rule == 1);
    CALL(IGNORE_OK, ignore_findings_overruling(&findings, 0, 1, &rule));
    HOLDS(rule == 2);
    CALL(IGNORE_NONE, ignore_findings_overruling(&findings, 0, 2, &rule));
    CALL(IGNORE_NONE, ignore_findings_overruling(&findings, 1, 0, &rule));
    ignore_findings_free(findings);
}

/* A rule that decides in an ignored folder alone, with an example. */
static void folder_round(void) {
    ignore_rules rules = rules_of("", "*.c\nout/\n!out/keep/\n");
    ignore_findings findings = {NULL};
    ignore_finding found;
    uint8_t room[16];
    CALL(IGNORE_OK, ignore_rules_dead(&rules, 10000, &findings));
    CALL(IGNORE_OK, ignore_findings_rule(&findings, 0, &found, room, sizeof room));
    HOLDS(found.rule == 2 && found.kind == IGNORE_DEAD_BY_FOLDERS && found.overruling == 0);
    HOLDS(found.path == 8 && found.folder == 3 && found.folder_rule == 1 && found.is_dir);
    same("out/keepout", room, found.path + found.folder);
    memset(room, '-', sizeof room);
    CALL(IGNORE_OK, ignore_findings_rule(&findings, 0, &found, room, 4));
    HOLDS(found.path == 8 && found.folder == 3);
    same("out/-", room, 5);
    CALL(IGNORE_NONE, ignore_findings_rule(&findings, 1, &found, room, sizeof room));
    HOLDS(is_nothing(&found) && room[0] == 'o');
    ignore_findings_free(findings);
    ignore_rules_free(rules);
}

/* Whether a list has no dead rule. */
static void none_dead(const char *lines) {
    ignore_rules rules = rules_of("", lines);
    ignore_findings findings = {NULL};
    ignore_finding found;
    CALL(IGNORE_OK, ignore_rules_dead(&rules, 10000, &findings));
    CALL(IGNORE_NONE, ignore_findings_rule(&findings, 0, &found, (uint8_t *)"", 0));
    ignore_findings_free(findings);
    ignore_rules_free(rules);
}

/* With few states it isn't known whether a rule decides in ignored folders; with more it is. */
static void unreached(void) {
    ignore_rules rules = rules_of("", "a/\n!a/b*c\n");
    ignore_findings findings = {NULL};
    ignore_finding found = {0};
    uint32_t kinds[5] = {0}, code;
    for (size_t limit = 0; limit < 5000 && found.kind != IGNORE_DEAD_BY_FOLDERS; limit++) {
        code = ignore_rules_dead(&rules, limit, &findings);
        HOLDS(code == IGNORE_OK || code == IGNORE_TOO_LARGE);
        if (code != IGNORE_OK)
            continue;
        CALL(IGNORE_OK, ignore_findings_rule(&findings, 0, &found, (uint8_t *)"", 0));
        HOLDS(found.rule == 1 && found.kind < 5);
        kinds[found.kind]++;
        ignore_findings_free(findings);
    }
    HOLDS(kinds[IGNORE_DEAD_UNREACHED] > 0 && kinds[IGNORE_DEAD_BY_FOLDERS] == 1);
    ignore_rules_free(rules);
}

/* Compares two lists of lines. */
static ignore_difference differ(const char *before, const char *after, bool only_ignored,
                                uint32_t answer, const char *path) {
    ignore_rules one = rules_of("one", before), two = rules_of("/two", after);
    ignore_compare_options options = {10000, only_ignored};
    ignore_difference found;
    uint8_t room[16] = "-";
    CALL(answer, ignore_rules_same(&one, &two, &options, &found, room, sizeof room));
    if (answer == IGNORE_DIFFERENT)
        same(path, room, found.path);
    else
        HOLDS(is_no_difference(&found) && room[0] == '-');
    CALL(answer, ignore_rules_same(&one, &two, &options, &found, (uint8_t *)"", 0));
    CALL(IGNORE_NONE, ignore_rules_matched(&one, TEXT("none"), false));
    CALL(IGNORE_NONE, ignore_rules_matched(&two, TEXT("none"), false));
    ignore_rules_free(one);
    ignore_rules_free(two);
    return found;
}

static void same_round(void) {
    differ("*.o\n!*.o\n", "!*.o\n", false, IGNORE_OK, "");
    differ("a/\n!a/b\n", "a/\n", false, IGNORE_OK, "");
    differ("", "#\n", false, IGNORE_OK, "");
    differ("!a\n", "", true, IGNORE_OK, "");
    none_dead("*.o\n!keep.o\nout/\n");
    none_dead("");
}

static void different_round(void) {
    ignore_difference found = differ("!ab\n", "", false, IGNORE_DIFFERENT, "ab");
    HOLDS(found.path == 2 && found.before == IGNORE_WHITELIST && found.before_rule == 0);
    HOLDS(found.after == IGNORE_NONE && found.after_rule == 0);
    found = differ("x\nab/\n", "x\nab\n", true, IGNORE_DIFFERENT, "ab");
    HOLDS(!found.is_dir && found.before == IGNORE_NONE && found.before_rule == 0);
    HOLDS(found.after == IGNORE_IGNORE && found.after_rule == 1);
    found = differ("ab/\n", "ab/\n!ab/\n", false, IGNORE_DIFFERENT, "ab");
    HOLDS(found.is_dir && found.before == IGNORE_IGNORE && found.before_rule == 0);
    HOLDS(found.after == IGNORE_WHITELIST && found.after_rule == 1);
    found = differ("/*/\n!a/\na/\n", "/*/\n!a/\na/*\n!a/\n", true, IGNORE_DIFFERENT, "a");
    HOLDS(found.is_dir && found.before_rule == 2 && found.after == IGNORE_WHITELIST);
}

/* Too few states, and handles that keep something else, or aren't so far. */
static void misused_round(void) {
    ignore_rules rules = rules_of("", "a*b\n*c\n"), lines = {NULL}, other = rules_of("", "*c\n");
    ignore_findings findings = {NULL};
    ignore_compare_options options = {3, false};
    ignore_difference found;
    ignore_finding finding;
    uint8_t room[8] = "-------";
    size_t rule = 9;
    CALL(IGNORE_OK, ignore_rules_new(TEXT(""), &reading, &lines));
    CALL(IGNORE_TOO_LARGE, ignore_rules_dead(&rules, 3, &findings));
    CALL(IGNORE_MISUSED, ignore_rules_dead(&lines, 3, &findings));
    HOLDS(findings.at == NULL);
    CALL(IGNORE_TOO_LARGE, ignore_rules_same(&rules, &other, &options, &found, room, 8));
    HOLDS(is_no_difference(&found));
    options.limit = 10000;
    CALL(IGNORE_MISUSED, ignore_rules_same(&rules, &lines, &options, &found, room, 8));
    HOLDS(is_no_difference(&found));
    CALL(IGNORE_MISUSED, ignore_rules_same(&lines, &rules, &options, &found, room, 8));
    HOLDS(is_no_difference(&found) && room[0] == '-');
    CALL(IGNORE_DIFFERENT, ignore_rules_same(&rules, &other, &options, &found, room, 8));
    same("ab", room, found.path);
    room[0] = '-';
    ignore_findings in_rules = {rules.at};
    CALL(IGNORE_MISUSED, ignore_findings_rule(&in_rules, 0, &finding, room, sizeof room));
    HOLDS(is_nothing(&finding) && room[0] == '-');
    CALL(IGNORE_MISUSED, ignore_findings_overruling(&in_rules, 0, 0, &rule));
    HOLDS(rule == 0);
    CALL(IGNORE_OK, ignore_rules_dead(&rules, 10000, &findings));
    ignore_rules in_findings = {findings.at};
    CALL(IGNORE_MISUSED, ignore_rules_matched(&in_findings, TEXT("a"), false));
    CALL(IGNORE_MISUSED, ignore_rules_build(&in_findings));
    CALL(IGNORE_MISUSED, ignore_rules_dead(&in_findings, 10000, &findings));
    ignore_findings_free(findings);
    ignore_rules_free(rules);
    ignore_rules_free(lines);
    ignore_rules_free(other);
}

int main(void) {
    unsigned long whole = each_fails(overruled_round);
    whole += each_fails(two_round);
    whole += each_fails(folder_round);
    whole += each_fails(same_round);
    whole += each_fails(different_round);
    whole += each_fails(misused_round);
    unreached();
    printf("%lu allocations failed in turn, %lu wrong answers\n", whole, wrong);
    return wrong > 0 || whole == 0;
}
