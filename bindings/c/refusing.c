/* Makes rules and asks them with each allocation failing in turn: a call that answers
   IGNORE_NO_MEMORY is made again, and must then answer as it does where none fails. Then asks one
   handle a million questions, by which the process must not grow. */
#include "failing.h"

#include <sys/resource.h>

static void ask_all(ignore_rules *rules) {
    uint8_t room[256];
    ignore_reason reason;
    ignore_counts counts = {0, 0};
    CALL(IGNORE_IGNORE, ignore_rules_matched(rules, TEXT("root/x/a.o"), false));
    CALL(IGNORE_IGNORE, ignore_rules_matched(rules, TEXT("root/bx.d"), false));
    CALL(IGNORE_NONE, ignore_rules_matched(rules, TEXT("root/build"), false));
    CALL(IGNORE_IGNORE,
         ignore_rules_matched_path_or_any_parents(rules, TEXT("root/build/x"), false));
    CALL(IGNORE_WHITELIST,
         ignore_rules_decided(rules, TEXT("keep.o"), false, &reason, room, sizeof room));
    same("f!keep.o**/keep.o", room, reason.source + reason.pattern + reason.glob);
    CALL(IGNORE_IGNORE,
         ignore_rules_decided(rules, TEXT("b.tmp"), false, &reason, room, sizeof room));
    same("a/source*.tmp**/*.tmp", room, reason.source + reason.pattern + reason.glob);
    CALL(IGNORE_OK, ignore_rules_counts(rules, &counts));
    if (counts.ignores != 5 || counts.whitelists != 1) {
        wrong++;
        printf("allocation %lu fails: %d and %d rules\n", failing, (int)counts.ignores,
               (int)counts.whitelists);
    }
}

static void round_of_calls(void) {
    static const char file[] =
        "*.o\n!keep.o\nbuild/\n[z-a]\n{a,b}*.{c,d}\nsrc/**/x[0-9]?.log\n";
    ignore_rule_options options = {false, true, false};
    uint8_t room[256];
    size_t whole = 0;
    ignore_rules rules;
    CALL(IGNORE_OK, ignore_rules_new(TEXT("root"), &options, &rules));
    CALL(IGNORE_OK, ignore_rules_add_line(&rules, TEXT("a/source"), TEXT("*.tmp")));
    CALL(IGNORE_REFUSED, ignore_rules_add_line(&rules, TEXT(""), TEXT("{")));
    CALL(IGNORE_OK, ignore_rules_problem(&rules, room, sizeof room, &whole));
    same("error parsing glob '{': unclosed alternates", room, whole);
    CALL(IGNORE_REFUSED, ignore_rules_add_file(&rules, TEXT("f"), TEXT(file)));
    CALL(IGNORE_OK, ignore_rules_problem(&rules, room, sizeof room, &whole));
    same("f: line 4: error parsing glob '[z-a]': invalid range", room, whole);
    CALL(IGNORE_OK, ignore_rules_build(&rules));
    ask_all(&rules);
    ignore_rules_free(rules);
}

/* The largest size that the process has had, in KiB. */
static long largest(void) {
    struct rusage used;
    getrusage(RUSAGE_SELF, &used);
    return used.ru_maxrss;
}

static void many_questions(void) {
    ignore_rule_options options = {false, true, false};
    ignore_rules rules;
    ignore_reason reason;
    uint8_t room[256];
    CALL(IGNORE_OK, ignore_rules_new(TEXT(""), &options, &rules));
    CALL(IGNORE_OK, ignore_rules_add_file(&rules, TEXT(".gitignore"), TEXT("*.o\n{a,b}*.c\n")));
    CALL(IGNORE_OK, ignore_rules_build(&rules));
    CALL(IGNORE_IGNORE,
         ignore_rules_decided(&rules, TEXT("x/b.c"), false, &reason, room, sizeof room));
    long before = largest();
    for (int i = 0; i < 1000000; i++)
        CALL(IGNORE_IGNORE,
             ignore_rules_decided(&rules, TEXT("x/b.c"), false, &reason, room, sizeof room));
    if (largest() > before + 64) {
        wrong++;
        printf("a million questions: %ld KiB more\n", largest() - before);
    }
    ignore_rules_free(rules);
}

int main(int count, char **words) {
    unsigned long whole = each_fails(round_of_calls);
    if (count < 2 || strcmp(words[1], "few"))
        many_questions();
    printf("%lu allocations failed in turn, %lu wrong answers\n", whole, wrong);
    return wrong > 0 || whole == 0;
}
