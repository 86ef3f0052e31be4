/* Leads a guide through folders that a table has, with each of its calls and answers, and with each
   allocation failing in turn: after IGNORE_NO_MEMORY a call is made again, and the one that waited from
   its beginning. Each path is asked for once, and each file is parsed once. */
#include "failing.h"

/* What is at paths: the number of a kind, bytes, or a fault that ends the reading. */
static const struct thing {
    const char *path, *bytes;
    uint32_t kind, fault;
} things[] = {
    {"/w/extra", "*.tmp\n[z-a]\n", 1, IGNORE_NO_FAULT},
    {"/home/.gitconfig", "[core]\n\texcludesfile = /home/rules\n", 1, IGNORE_NO_FAULT},
    {"/home/rules", "*.global\n", 1, IGNORE_NO_FAULT},
    {"/.ignore", "*.above\n", 1, IGNORE_NO_FAULT},
    {"/t", "/t", 2, IGNORE_NO_FAULT},
    {"/t/.git", "", 2, IGNORE_NO_FAULT},
    {"/t/.gitignore", "*.o\n!keep.o\nout/\n{a\n", 1, IGNORE_NO_FAULT},
    {"/t/.git/info/exclude", "*.x\n", 1, IGNORE_FAULT_OTHER},
    {"/t/.ignore", "", 1, IGNORE_FAULT_PERMISSION_DENIED},
    {"/t/src/.gitignore", "/deep.c\n", 1, IGNORE_NO_FAULT},
};

#define THINGS (sizeof things / sizeof *things)

static unsigned asked[THINGS], others;

static const struct thing *thing_at(const uint8_t *path, size_t length) {
    for (size_t i = 0; i < THINGS; i++)
        if (strlen(things[i].path) == length && !memcmp(things[i].path, path, length)) {
            asked[i]++;
            return &things[i];
        }
    others++;
    return NULL;
}

/* Answers what is wanted, and returns what the call that waits answers then. */
static uint32_t answer(ignore_guide *guide, ignore_place *place) {
    uint8_t path[64];
    uint32_t wanted;
    size_t whole;
    CALL(IGNORE_OK, ignore_guide_wanted(guide, &wanted, path, sizeof path, &whole));
    const struct thing *thing = thing_at(path, whole);
    if (!thing)
        return ignore_guide_give(guide, 0, TEXT(""), IGNORE_FAULT_NOT_FOUND, place);
    return ignore_guide_give(guide, thing->kind, TEXT(thing->bytes), thing->fault, place);
}

typedef struct folder {
    const ignore_place *parent;
    const char *name, *names;
    size_t length;
} folder;

static uint32_t begin(ignore_guide *guide, const folder *where, ignore_place *place) {
    if (!where->parent)
        return ignore_guide_root(guide, TEXT(where->name), place);
    return ignore_guide_enter(guide, where->parent, TEXT(where->name),
                              (const uint8_t *)where->names, where->length, place);
}

/* Begins a root, or enters a folder, up to its place; anew where memory ran out on the way. */
static uint32_t come(ignore_guide *guide, const folder *where, ignore_place *place) {
    uint32_t code;
    do {
        code = begin(guide, where, place);
        while (code == IGNORE_WANTS)
            code = answer(guide, place);
    } while (code == IGNORE_NO_MEMORY && failing);
    return code;
}

static void make(ignore_guide *guide) {
    ignore_builder builder;
    ignore_guide none = {NULL};
    CALL(IGNORE_OK, ignore_builder_new(TEXT("/elsewhere"), &builder));
    CALL(IGNORE_OK, ignore_builder_env_current_dir(&builder, TEXT("/w")));
    CALL(IGNORE_OK, ignore_builder_env_home(&builder, TEXT("/home")));
    CALL(IGNORE_OK, ignore_builder_max_filesize(&builder, true, 100));
    CALL(IGNORE_OK, ignore_builder_max_depth(&builder, true, 2));
    CALL(IGNORE_NOT_UTF8, ignore_builder_add_ignore_path(&builder, BYTES("\xff")));
    CALL(IGNORE_OK, ignore_builder_add_ignore_path(&builder, TEXT("/w/extra")));
    CALL(IGNORE_OK, ignore_builder_add_ignore_path(&builder, TEXT("/w/gone")));
    CALL(IGNORE_OK, ignore_guide_new(&builder, guide));
    ignore_builder_free(builder);
    ignore_builder in_guide = {guide->at};
    CALL(IGNORE_MISUSED, ignore_guide_new(&in_guide, &none));
    HOLDS(!none.at);
}

/* Before a root is begun there is no place. */
static void before(ignore_guide *guide) {
    ignore_place none = {0, 0}, place = {7, 7};
    ignore_found found = {true, true};
    ignore_problem problem;
    uint8_t room[16], number = 9, kind = 1;
    uint32_t wanted = 9;
    size_t whole = 9;
    CALL(IGNORE_NONE, ignore_guide_wanted(guide, &wanted, room, sizeof room, &whole));
    HOLDS(wanted == 0 && whole == 0);
    CALL(IGNORE_MISUSED, ignore_guide_give(guide, 0, TEXT(""), IGNORE_NO_FAULT, &place));
    HOLDS(place.index == 0 && place.serial == 0);
    CALL(IGNORE_MISUSED, ignore_guide_enter(guide, &none, TEXT("a"), TEXT(""), &place));
    CALL(IGNORE_MISUSED, ignore_guide_leave(guide, &none));
    CALL(IGNORE_MISUSED, ignore_guide_decide(guide, &none, TEXT("a"), false, 0, &found));
    HOLDS(!found.should_descend && !found.is_within_depth);
    CALL(IGNORE_MISUSED, ignore_guide_decide_all(guide, &none, BYTES("a\0"), &kind, 1,
                                                 IGNORE_NO_SIZES, &number, 1));
    HOLDS(number == 9);
    CALL(IGNORE_NONE, ignore_guide_problem(guide, 0, &problem, room, sizeof room));
    CALL(IGNORE_NOT_UTF8, ignore_guide_root(guide, BYTES("\xff"), &place));
}

/* While a call waits for a path, others but questions are refused, and so is what is none. The files
   of the builder are wanted before all else, in their order. */
static void waits(ignore_guide *guide, const char *wanted_path) {
    ignore_place place;
    uint8_t path[64];
    uint32_t wanted, again;
    size_t whole, length;
    CALL(IGNORE_OK, ignore_guide_wanted(guide, &wanted, path, sizeof path, &whole));
    HOLDS(whole > 0 && wanted > 0);
    CALL(IGNORE_MISUSED, ignore_guide_root(guide, TEXT("/u"), &place));
    CALL(IGNORE_MISUSED, ignore_guide_give(guide, 3, TEXT(""), IGNORE_NO_FAULT, &place));
    CALL(IGNORE_MISUSED, ignore_guide_give(guide, 5, TEXT(""), IGNORE_NO_FAULT, &place));
    CALL(IGNORE_MISUSED, ignore_guide_give(guide, 1, TEXT(""), IGNORE_FAULT_OTHER + 1, &place));
    CALL(IGNORE_OK, ignore_guide_wanted(guide, &again, path, 1, &length));
    HOLDS(again == wanted && length == whole);
    same(wanted_path, path, whole);
}

static void expect(ignore_guide *guide, size_t index, uint32_t kind, uint64_t line,
                   const char *texts) {
    ignore_problem problem;
    uint8_t room[256];
    CALL(IGNORE_OK, ignore_guide_problem(guide, index, &problem, room, sizeof room));
    HOLDS(problem.kind == kind && problem.line == line && problem.has_path);
    HOLDS(problem.has_glob == (kind == IGNORE_PROBLEM_GLOB));
    same(texts, room, problem.path + problem.glob + problem.text);
}

/* What is wrong with the files of a root: in the first with those that were added, then its own. */
static void problems(ignore_guide *guide) {
    ignore_problem problem;
    uint8_t room[8];
    expect(guide, 0, IGNORE_PROBLEM_GLOB, 2, "/w/extra[z-a]invalid range");
    expect(guide, 1, IGNORE_PROBLEM_FAULT, 0, "/w/gonenot found");
    expect(guide, 2, IGNORE_PROBLEM_GLOB, 4, "/t/.gitignore{aunclosed alternates");
    CALL(IGNORE_OK, ignore_guide_problem(guide, 1, &problem, room, sizeof room));
    HOLDS(problem.fault == IGNORE_FAULT_NOT_FOUND && !memcmp(room, "/w/gonen", sizeof room));
    CALL(IGNORE_NONE, ignore_guide_problem(guide, 3, &problem, room, sizeof room));
    HOLDS(!problem.has_path && problem.kind == 0);
}

static void decide(ignore_guide *guide, const ignore_place *place, const char *name, bool is_dir,
                   uint64_t size, uint32_t wanted) {
    ignore_found found;
    uint8_t number = 0, kind = is_dir ? 2 : 1;
    CALL(wanted & 3, ignore_guide_decide(guide, place, TEXT(name), is_dir, size, &found));
    HOLDS((wanted & 4) == (found.should_descend ? 4 : 0));
    HOLDS((wanted & 8) == (found.is_within_depth ? 8 : 0));
    CALL(IGNORE_OK, ignore_guide_decide_all(guide, place, (const uint8_t *)name, strlen(name) + 1,
                                            &kind, 1, &size, 1, &number, 1));
    HOLDS(number == wanted);
}

static void decide_in_root(ignore_guide *guide, const ignore_place *root) {
    const uint64_t any = IGNORE_NO_SIZE;
    decide(guide, root, "a.c", false, any, IGNORE_NONE + 8);
    decide(guide, root, "a.c", false, 101, IGNORE_IGNORE + 8);
    decide(guide, root, "a.c", false, 100, IGNORE_NONE + 8);
    decide(guide, root, "a.o", false, any, IGNORE_IGNORE + 8);
    decide(guide, root, "keep.o", false, any, IGNORE_WHITELIST + 8);
    decide(guide, root, "a.x", false, any, IGNORE_IGNORE + 8);
    decide(guide, root, "a.tmp", false, any, IGNORE_IGNORE + 8);
    decide(guide, root, "a.global", false, any, IGNORE_IGNORE + 8);
    decide(guide, root, "a.above", false, any, IGNORE_IGNORE + 8);
    decide(guide, root, "out", true, any, IGNORE_IGNORE + 8);
    decide(guide, root, "out", false, any, IGNORE_NONE + 8);
    decide(guide, root, "src", true, 1000, IGNORE_NONE + 4 + 8);
    decide(guide, root, ".git", true, any, IGNORE_IGNORE + 8);
}

static void refuse(ignore_guide *guide, const ignore_place *root) {
    ignore_found found = {true, true};
    ignore_place never = {root->index, root->serial + 1};
    uint8_t kinds[2] = {1, 2}, codes[2] = {77, 77};
    uint64_t sizes[2] = {1, 2};
    CALL(IGNORE_MISUSED, ignore_guide_decide(guide, &never, TEXT("a"), false, 0, &found));
    CALL(IGNORE_MISUSED, ignore_guide_decide(guide, root, TEXT("a/b"), false, 0, &found));
    CALL(IGNORE_MISUSED, ignore_guide_decide(guide, root, TEXT(".."), true, 0, &found));
    CALL(IGNORE_NOT_UTF8, ignore_guide_decide(guide, root, BYTES("\xff"), false, 0, &found));
    HOLDS(!found.should_descend && !found.is_within_depth);
    const struct {
        uint32_t code;
        const char *names;
        size_t length, kinds, sizes, room;
    } rows[] = {
        {IGNORE_MISUSED, "a\0b", 4, 1, 0, 1},     {IGNORE_MISUSED, "a\0b", 4, 2, 1, 2},
        {IGNORE_MISUSED, "a\0b", 4, 2, 0, 1},     {IGNORE_MISUSED, "a\0b", 3, 2, 0, 2},
        {IGNORE_NOT_UTF8, "a\0\xff", 4, 2, 0, 2},
    };
    for (size_t i = 0; i < sizeof rows / sizeof *rows; i++)
        CALL(rows[i].code,
             ignore_guide_decide_all(guide, root, (const uint8_t *)rows[i].names, rows[i].length,
                                     kinds, rows[i].kinds, sizes, rows[i].sizes, codes,
                                     rows[i].room));
    HOLDS(codes[0] == 77 && codes[1] == 77);
    CALL(IGNORE_OK, ignore_guide_decide_all(guide, root, BYTES("..\0a/b\0"), kinds, 2,
                                            IGNORE_NO_SIZES, codes, 2));
    HOLDS(codes[0] == IGNORE_NONE + 8 && codes[1] == IGNORE_NONE + 8);
    CALL(IGNORE_OK,
         ignore_guide_decide_all(guide, root, TEXT(""), kinds, 0, IGNORE_NO_SIZES, codes, 0));
}

/* The reason for an entry, with the answer that ignore_guide_decide gives. */
static ignore_why explain(ignore_guide *guide, const ignore_place *place, const char *name,
                          uint64_t size, uint8_t *room) {
    ignore_found found, alone;
    ignore_why why;
    uint32_t code, decided;
    do
        decided = ignore_guide_decide(guide, place, TEXT(name), false, size, &alone);
    while (decided == IGNORE_NO_MEMORY && failing);
    do
        code = ignore_guide_why(guide, place, TEXT(name), false, size, &found, &why, room, 256);
    while (code == IGNORE_NO_MEMORY && failing);
    HOLDS(code == decided && found.should_descend == alone.should_descend);
    HOLDS(found.is_within_depth == alone.is_within_depth && !why.is_inside);
    return why;
}

static void reason(ignore_guide *guide, const ignore_place *root) {
    const uint64_t any = IGNORE_NO_SIZE;
    ignore_found found = {true, true};
    uint8_t room[256];
    ignore_why why = explain(guide, root, "keep.o", any, room);
    HOLDS(why.kind == IGNORE_WHY_RULE && why.rank == IGNORE_RANK_GITIGNORE && why.line == 2);
    same("/t//t/.gitignore!keep.o", room, why.directory + why.source + why.pattern);
    HOLDS(explain(guide, root, "a.c", any, room).kind == IGNORE_WHY_NO_RULE);
    HOLDS(explain(guide, root, "a.c", 100, room).kind == IGNORE_WHY_NO_RULE);
    HOLDS(explain(guide, root, "a.o", 101, room).kind == IGNORE_WHY_RULE);
    why = explain(guide, root, "a.c", 101, room);
    HOLDS(why.kind == IGNORE_WHY_LARGER && why.size == 101 && why.limit == 100);
    CALL(IGNORE_MISUSED, ignore_guide_why(guide, root, TEXT(""), false, any, &found, &why, room,
                                          sizeof room));
    HOLDS(why.kind == 0 && !found.should_descend && !found.is_within_depth);
}

/* Below the greatest depth that depth is the reason, whatever the rules and the size are. */
static void too_deep(ignore_guide *guide, const ignore_place *place) {
    static const char names[] = "a.o";
    folder more = {place, "more", names, sizeof names};
    ignore_place deep;
    uint8_t room[256];
    CALL(IGNORE_OK, come(guide, &more, &deep));
    HOLDS(explain(guide, &deep, "a.o", 101, room).kind == IGNORE_WHY_TOO_DEEP);
    CALL(IGNORE_OK, ignore_guide_leave(guide, &deep));
}

static void below(ignore_guide *guide, const ignore_place *root) {
    static const char names[] = ".gitignore\0deep.c\0more";
    folder src = {root, "src", names, sizeof names};
    ignore_place place, other;
    unsigned before_it = others;
    CALL(IGNORE_MISUSED, ignore_guide_enter(guide, root, TEXT("a/b"), TEXT(""), &place));
    CALL(IGNORE_MISUSED, ignore_guide_enter(guide, root, TEXT("src"), TEXT("open"), &place));
    CALL(IGNORE_NOT_UTF8, ignore_guide_enter(guide, root, BYTES("\xff"), TEXT(""), &place));
    CALL(IGNORE_NOT_UTF8, ignore_guide_enter(guide, root, TEXT("src"), BYTES("\xff\0"), &place));
    CALL(IGNORE_WANTS, begin(guide, &src, &place));
    waits(guide, "/t/src/.gitignore");
    CALL(IGNORE_MISUSED, ignore_guide_enter(guide, root, TEXT("x"), TEXT(""), &other));
    CALL(IGNORE_MISUSED, ignore_guide_leave(guide, root));
    decide(guide, root, "a.o", false, IGNORE_NO_SIZE, IGNORE_IGNORE + 8);
    uint32_t came = answer(guide, &place);
    CALL(IGNORE_OK, came == IGNORE_NO_MEMORY && failing ? come(guide, &src, &place) : came);
    HOLDS(others == before_it);
    decide(guide, &place, "deep.c", false, IGNORE_NO_SIZE, IGNORE_IGNORE + 8);
    decide(guide, &place, "more", true, IGNORE_NO_SIZE, IGNORE_NONE + 8);
    too_deep(guide, &place);
    CALL(IGNORE_MISUSED, ignore_guide_leave(guide, root));
    CALL(IGNORE_OK, ignore_guide_leave(guide, &place));
    CALL(IGNORE_MISUSED, ignore_guide_leave(guide, &place));
    decide(guide, root, "a.o", false, IGNORE_NO_SIZE, IGNORE_IGNORE + 8);
}

static void lead(void) {
    folder top = {NULL, "/t", NULL, 0};
    ignore_guide guide;
    ignore_place root, second;
    memset(asked, 0, sizeof asked);
    make(&guide);
    before(&guide);
    CALL(IGNORE_WANTS, begin(&guide, &top, &root));
    waits(&guide, "/w/extra");
    uint32_t came = answer(&guide, &root);
    if (!failing)
        waits(&guide, "/w/gone");
    while (came == IGNORE_WANTS)
        came = answer(&guide, &root);
    CALL(IGNORE_OK, came == IGNORE_NO_MEMORY && failing ? come(&guide, &top, &root) : came);
    problems(&guide);
    decide_in_root(&guide, &root);
    refuse(&guide, &root);
    reason(&guide, &root);
    below(&guide, &root);
    for (size_t i = 0; i < THINGS && !failing; i++)
        HOLDS(asked[i] == 1);
    CALL(IGNORE_OK, come(&guide, &top, &second));
    decide(&guide, &second, "a.o", false, IGNORE_NO_SIZE, IGNORE_IGNORE + 8);
    CALL(IGNORE_OK, ignore_guide_leave(&guide, &root));
    CALL(IGNORE_OK, ignore_guide_leave(&guide, &second));
    CALL(IGNORE_WANTS, begin(&guide, &top, &root));
    ignore_guide_free(guide);
}

/* How many allocations there are as a folder with this file is entered. */
static unsigned long entered_with(ignore_guide *guide, const ignore_place *root, const char *rules) {
    ignore_place place;
    CALL(IGNORE_WANTS, ignore_guide_enter(guide, root, TEXT("a"), BYTES(".gitignore\0"), &place));
    unsigned long before_it = allocations;
    CALL(IGNORE_OK, ignore_guide_give(guide, 1, TEXT(rules), IGNORE_NO_FAULT, &place));
    unsigned long taken = allocations - before_it;
    CALL(IGNORE_OK, ignore_guide_leave(guide, &place));
    return taken;
}

/* Each file is parsed once: its rules take the allocations that they take by themselves. */
static void parse_once(void) {
    static char rules[400 * 4 + 1];
    folder top = {NULL, "/t", NULL, 0};
    ignore_rule_options options = {false, true, false};
    ignore_guide guide;
    ignore_place root;
    ignore_rules alone;
    for (size_t i = 0; i < 400; i++)
        memcpy(rules + 4 * i, "a*b\n", 5);
    make(&guide);
    CALL(IGNORE_OK, come(&guide, &top, &root));
    unsigned long once = entered_with(&guide, &root, ""), many = entered_with(&guide, &root, rules);
    unsigned long before_it = allocations;
    CALL(IGNORE_OK, ignore_rules_new(TEXT("/t/a"), &options, &alone));
    CALL(IGNORE_OK, ignore_rules_add_file(&alone, TEXT("/t/a/.gitignore"), TEXT(rules)));
    CALL(IGNORE_OK, ignore_rules_build(&alone));
    unsigned long parsed = allocations - before_it;
    HOLDS(many > once && many - once < parsed + parsed / 2);
    ignore_rules_free(alone);
    CALL(IGNORE_OK, ignore_guide_leave(&guide, &root));
    ignore_guide_free(guide);
}

int main(void) {
    unsigned long whole = each_fails(lead);
    parse_once();
    printf("%lu allocations failed in turn, %lu wrong answers\n", whole, wrong);
    return wrong != 0;
}
