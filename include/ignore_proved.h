/* Gitignore rules, proved: the library for C, and for what calls C.

   What each call does is proved of the library, for callers that keep these rules, which nothing
   checks:

   - A text is a pointer and a length in bytes. The pointer is valid for the length, and never null:
     an empty text may have any other address, as that of "". What is lent for reading isn't written
     meanwhile. Texts aren't ended by a zero, and may have zeros inside.
   - A room is the same, for writing. It overlaps nothing else that the call is given, and neither
     does what else the call writes: a handle that is made, a struct, a number. Pointers to these
     aren't null.
   - A handle is the struct, which holds one pointer. It is made by `.._new`, passed by its address,
     and freed once, by `.._free`, to which it is passed by value. After that it isn't used, nor is
     a copy of it. A handle that wasn't made isn't passed: after another answer than IGNORE_OK
     `.._new` has made none, and nothing is to be freed.
   - At most one call at a time has a handle. Between two calls it may go to another thread, as by a
     lock or a join: it leads to memory of `malloc` and to nothing of a thread.
   - `malloc`, `realloc` and `free` are of one allocator, which aligns as C asks.
   - No call is made from a signal handler, nor in the forked child of a process with threads.
   - Two handles that one call is given are two: a matcher and a tree, say, and not one twice.
   - Where a call answers IGNORE_NO_MEMORY, or IGNORE_NOT_UTF8, or IGNORE_MISUSED, it has changed
     nothing of its handles; a matcher may have read more directories, by which no answer changes, and
     of a guide the call that waited may have ended. */
#ifndef IGNORE_PROVED_H
#define IGNORE_PROVED_H

#include <stdbool.h>
#include <stddef.h>
#include <stdint.h>

#ifdef __cplusplus
extern "C" {
#endif

/* The version of this header, 1.1.0, as ignore_version has it: 10,000 times its first number,
   100 times its second, and its third. */
#define IGNORE_VERSION 10100

/* The version of the library. */
uint32_t ignore_version(void);

/* What a call answers. */
enum {
    IGNORE_OK = 0,        /* it did what it is for; two lists say the same */
    IGNORE_NONE = 1,      /* no rule decides; there is nothing to tell */
    IGNORE_DIFFERENT = 1, /* of ignore_rules_same alone: two lists differ */
    IGNORE_IGNORE = 2,    /* the path is ignored */
    IGNORE_WHITELIST = 3, /* the path is whitelisted */
    IGNORE_NOT_UTF8 = 4,  /* a text isn't UTF-8 */
    IGNORE_NO_MEMORY = 5, /* out of memory */
    IGNORE_LIMIT = 6,     /* a walk took more steps than it may */
    IGNORE_REFUSED = 7,   /* a line is invalid, or some lines of a file: the problem says why; or the
                             check of a search over all paths refuses what it left */
    IGNORE_MISUSED = 9,   /* a handle that keeps something else, or isn't so far */
    IGNORE_OUTSIDE = 10,  /* a path begins with a slash once the root of the rules is stripped */
    IGNORE_NOT_CLEAN = 11, /* a path of a tree isn't `/`, or `/` and names joined by single slashes */
    IGNORE_NO_PARENT = 12, /* what a path of a tree should be in isn't a directory there */
    IGNORE_EXISTS = 13,    /* something is at a path of a tree already */
    IGNORE_MISSING = 14,   /* nothing of the kind is at a path of a tree */
    IGNORE_ROOM = 15,      /* the room is too small for an item of a walk, which stays the next */
    IGNORE_WANTS = 16,     /* a guide has to know something first: ignore_guide_wanted */
    IGNORE_TOO_LARGE = 17  /* a search over all paths needs more states than it may find */
    /* 8 is for a handle that another one uses: no call answers it, since a walk is made at once. */
};

/* Rules of gitignore files. Lines and files are added, `ignore_rules_build` makes the matcher of
   them, and then paths are asked. */
typedef struct ignore_rules {
    uint8_t *at;
} ignore_rules;

/* How lines are read: whether both ASCII cases of a letter match, whether a `[` that nothing closes
   stands for itself, and whether white space at the end of lines is read by git's own rule. The
   original's are false, true, false. */
typedef struct ignore_rule_options {
    bool case_insensitive;
    bool allow_unclosed_class;
    bool git_trailing_spaces;
} ignore_rule_options;

/* The rule that decided. */
typedef struct ignore_reason {
    uint64_t line;     /* the number of its line in its file; 0 where it was added by itself */
    size_t source;     /* bytes of its source: the file of the rule, as it was given */
    size_t pattern;    /* bytes of its line, without white space at the end */
    size_t glob;       /* bytes of the glob that the line stands for */
    bool has_source;   /* whether a source was given */
    bool is_only_dir;  /* whether it applies to directories only */
} ignore_reason;

typedef struct ignore_counts {
    uint64_t ignores;
    uint64_t whitelists;
} ignore_counts;

/* Rules relative to a directory, to which no line was added: IGNORE_OK, IGNORE_NOT_UTF8 or
   IGNORE_NO_MEMORY. */
uint32_t ignore_rules_new(const uint8_t *root, size_t root_length,
                          const ignore_rule_options *options, ignore_rules *rules);

/* Sets how later lines are read: IGNORE_OK, or IGNORE_MISUSED after `ignore_rules_build`. */
uint32_t ignore_rules_set_options(ignore_rules *rules, const ignore_rule_options *options);

/* Adds a line, as in gitignore(5); a comment or a blank line adds nothing. `from`, where it isn't
   empty, is the source of its rule. IGNORE_REFUSED where its glob is invalid: nothing is added, and
   the problem is kept. Also IGNORE_NOT_UTF8, IGNORE_NO_MEMORY, IGNORE_MISUSED (after
   `ignore_rules_build`). */
uint32_t ignore_rules_add_line(ignore_rules *rules, const uint8_t *from, size_t from_length,
                               const uint8_t *line, size_t line_length);

/* Adds the lines of a text that stands for the file at a path, which is their source. Reading ends
   at the first line that isn't UTF-8. IGNORE_REFUSED where some line is invalid, or isn't UTF-8:
   the others are added, of which those after a line that isn't UTF-8 are none, and the problem is
   kept. Else as ignore_rules_add_line. */
uint32_t ignore_rules_add_file(ignore_rules *rules, const uint8_t *path, size_t path_length,
                               const uint8_t *text, size_t text_length);

/* What is wrong with the line or file that was added last: IGNORE_OK, its text's length in `whole`,
   and its first bytes, as many as there is room for; or IGNORE_NONE where nothing is. Also
   IGNORE_NO_MEMORY, and IGNORE_MISUSED after `ignore_rules_build`. With another answer than IGNORE_OK
   `whole` is 0. */
uint32_t ignore_rules_problem(ignore_rules *rules, uint8_t *room, size_t room_length,
                              size_t *whole);

/* Makes the matcher of the lines, without copying them. From now on paths are asked, and no line is
   added. IGNORE_OK, or IGNORE_MISUSED where it was made already. */
uint32_t ignore_rules_build(ignore_rules *rules);

/* What the rules say of a path: IGNORE_NONE, IGNORE_IGNORE or IGNORE_WHITELIST. The path is written
   as from where the root is: `root/src/a.o`, or `src/a.o`. Also IGNORE_NOT_UTF8, IGNORE_NO_MEMORY
   and IGNORE_MISUSED (before `ignore_rules_build`). */
uint32_t ignore_rules_matched(ignore_rules *rules, const uint8_t *path, size_t path_length,
                              bool is_dir);

/* The same of the path, or else of the nearest of its parents that has a match. IGNORE_OUTSIDE
   where the path, without the root, begins with a slash, and there is a rule; without any it is
   IGNORE_NONE. */
uint32_t ignore_rules_matched_path_or_any_parents(ignore_rules *rules, const uint8_t *path,
                                                  size_t path_length, bool is_dir);

/* The same as git asks: from the root down, the first folder that the path is in and that is ignored
   decides, and nothing below it is whitelisted; else the path itself does. The folders are what
   precedes each slash of the path without the root, but one at its start; the root isn't asked, and
   has no match. Answers as ignore_rules_matched. */
uint32_t ignore_rules_matched_as_git(ignore_rules *rules, const uint8_t *path, size_t path_length,
                                     bool is_dir);

/* The same three, with the rule that decided: `reason`, and in `room` the first bytes, as many as
   there is room for, of its source, its line and its glob, one after the other. With another answer
   than IGNORE_IGNORE and IGNORE_WHITELIST the reason is all zeros, and the room is as before. */
uint32_t ignore_rules_decided(ignore_rules *rules, const uint8_t *path, size_t path_length,
                              bool is_dir, ignore_reason *reason, uint8_t *room,
                              size_t room_length);
uint32_t ignore_rules_decided_path_or_any_parents(ignore_rules *rules, const uint8_t *path,
                                                  size_t path_length, bool is_dir,
                                                  ignore_reason *reason, uint8_t *room,
                                                  size_t room_length);
uint32_t ignore_rules_decided_as_git(ignore_rules *rules, const uint8_t *path, size_t path_length,
                                     bool is_dir, ignore_reason *reason, uint8_t *room,
                                     size_t room_length);

/* The rule at an index, counted from 0 in the order in which they were added: IGNORE_IGNORE, or
   IGNORE_WHITELIST where it has a `!`, with `reason` and `room` as above; IGNORE_NONE where there
   are no more rules than that. Also IGNORE_NO_MEMORY, and IGNORE_MISUSED before
   `ignore_rules_build`. */
uint32_t ignore_rules_rule(ignore_rules *rules, size_t index, ignore_reason *reason, uint8_t *room,
                           size_t room_length);

/* How many rules ignore, and how many whitelist: IGNORE_OK, or IGNORE_MISUSED before
   `ignore_rules_build`, and then both are 0. */
uint32_t ignore_rules_counts(ignore_rules *rules, ignore_counts *counts);

/* Frees rules, also before they were built. */
void ignore_rules_free(ignore_rules rules);

/* Rules over all paths. A question is a clean relative path, names joined by single slashes, and
   whether it is a directory's, asked of rules at their root; the root of the handle doesn't count. A
   list reaches a question where it ignores no folder on its way, as git asks: below an ignored folder
   nothing is whitelisted. What is said here holds of every question, and of these rules alone: a file
   of rules elsewhere may whitelist a folder that they ignore.

   `limit` is how many states a search may find. Each takes some bytes for each class of characters
   that the rules treat alike, and for each byte of the longest rule; a million serve lists of some
   thousand short rules. IGNORE_TOO_LARGE where more are needed: nothing is said then. IGNORE_REFUSED
   where a check refuses what a search left; nothing is guessed then, and no list is known of which it
   comes. */

/* What is found of the rules that decide on no question which their list reaches. It stays when the
   rules are freed. */
typedef struct ignore_findings {
    uint8_t *at;
} ignore_findings;

/* Why a rule decides on no question that is reached. */
enum {
    IGNORE_DEAD_OVERRULED = 1,   /* it decides on no question at all: where it applies, others do */
    IGNORE_DEAD_UNMATCHED = 2,   /* it applies to no question */
    IGNORE_DEAD_BY_FOLDERS = 3,  /* it decides only in folders that the rules ignore */
    IGNORE_DEAD_UNREACHED = 4    /* it decides on no question that is reached; whether on any would
                                    have needed more states */
};

/* A rule that decides on no question which is reached. What isn't said to be set is 0, or false. */
typedef struct ignore_finding {
    uint32_t kind;       /* IGNORE_DEAD_.. */
    size_t rule;         /* the index of the rule, as of ignore_rules_rule */
    size_t overruling;   /* of IGNORE_DEAD_OVERRULED: how many rules overrule it */
    size_t path;         /* of IGNORE_DEAD_BY_FOLDERS: bytes of the path of a shortest question on
                            which it decides */
    size_t folder;       /* and of the folder with which that begins, and that a rule ignores */
    size_t folder_rule;  /* the index of that rule */
    bool is_dir;         /* whether the question is a directory's */
} ignore_finding;

/* Finds the rules of a list that decide on no question which it reaches, in their order: IGNORE_OK,
   also where there are none. Also IGNORE_TOO_LARGE, IGNORE_REFUSED, IGNORE_NO_MEMORY, and
   IGNORE_MISUSED before `ignore_rules_build`. */
uint32_t ignore_rules_dead(ignore_rules *rules, size_t limit, ignore_findings *findings);

/* What is found of the rule at an index of these, counted from 0: IGNORE_OK, with `finding`, and in
   `room` the first bytes, as many as there is room for, of its path and its folder, one after the
   other; IGNORE_NONE where there are no more than that. Also IGNORE_NO_MEMORY and IGNORE_MISUSED.
   With another answer than IGNORE_OK `finding` is all zeros, and the room is as before. */
uint32_t ignore_findings_rule(ignore_findings *findings, size_t index, ignore_finding *finding,
                              uint8_t *room, size_t room_length);

/* Of the rules that overrule the one at an index of the findings, that with a number, counted from 0:
   IGNORE_OK, and in `rule` its index, as of ignore_rules_rule. At some question that rule decides and
   the overruled one applies; and where the overruled one applies, one of these decides. IGNORE_NONE
   where there are no more, or IGNORE_MISUSED, and then `rule` is 0. */
uint32_t ignore_findings_overruling(ignore_findings *findings, size_t index, size_t number,
                                    size_t *rule);

/* Frees findings. */
void ignore_findings_free(ignore_findings findings);

/* How two lists are compared: how many states are found at most; and whether a question that a list
   whitelists counts as one on which none of its rules decides, so that only what is ignored counts. */
typedef struct ignore_compare_options {
    size_t limit;
    bool only_ignored;
} ignore_compare_options;

/* A question at which two lists differ, and what each says. A list that ignores a folder on the way says
   so of the folder already, which is a shorter question. */
typedef struct ignore_difference {
    uint32_t before;     /* the verdict of the first list: IGNORE_NONE, IGNORE_IGNORE or
                            IGNORE_WHITELIST */
    uint32_t after;      /* that of the second */
    size_t path;         /* bytes of the path */
    size_t before_rule;  /* the index of the rule of the first list that decides; 0 where none does */
    size_t after_rule;   /* the same of the second */
    bool is_dir;         /* whether it is a directory's */
} ignore_difference;

/* Whether two lists say the same of every question, each at its own root: IGNORE_OK (0) where they
   do; IGNORE_DIFFERENT (1) where they don't, with a shortest question at which they differ, and in
   `room` the first bytes of its path, as many as there is room for. Also IGNORE_TOO_LARGE,
   IGNORE_REFUSED, IGNORE_NO_MEMORY, and IGNORE_MISUSED before `ignore_rules_build` of both. With
   another answer than IGNORE_DIFFERENT `difference` is all zeros, and the room is as before. */
uint32_t ignore_rules_same(ignore_rules *before, ignore_rules *after,
                           const ignore_compare_options *options, ignore_difference *difference,
                           uint8_t *room, size_t room_length);

/* A tree of files, as its host tells it: directories, files with their bytes, symbolic links.
   Matchers and walks see nothing else, and never the disk. Paths of a tree are absolute and clean:
   `/`, or `/` and names joined by single slashes; they pass through no links. */
typedef struct ignore_tree {
    uint8_t *at;
} ignore_tree;

/* The faults of a file system, for ignore_tree_fault_stat, _fault_list and _cut_contents. */
enum {
    IGNORE_FAULT_NOT_FOUND = 0,
    IGNORE_FAULT_PERMISSION_DENIED = 1,
    IGNORE_FAULT_NOT_A_DIRECTORY = 2,
    IGNORE_FAULT_IS_A_DIRECTORY = 3,
    IGNORE_FAULT_INVALID_DATA = 4,
    IGNORE_FAULT_BAD_NAME = 5,
    IGNORE_FAULT_LINK_LIMIT = 6,
    IGNORE_FAULT_NO_IDENTITY = 7,
    IGNORE_FAULT_NO_CURRENT_DIR = 8,
    IGNORE_FAULT_STEP_LIMIT = 9,
    IGNORE_FAULT_NO_METADATA = 10,
    IGNORE_FAULT_OTHER = 11
};

/* A tree with the directory `/` alone, and this working directory, which needn't exist. IGNORE_OK,
   IGNORE_NOT_CLEAN, IGNORE_NOT_UTF8 or IGNORE_NO_MEMORY. */
uint32_t ignore_tree_new(const uint8_t *cwd, size_t cwd_length, ignore_tree *tree);

/* Adds an empty directory, a file with these bytes, or a link whose target needn't exist.
   IGNORE_NOT_CLEAN, IGNORE_NO_PARENT or IGNORE_EXISTS say why nothing was added; also
   IGNORE_NOT_UTF8, IGNORE_NO_MEMORY, IGNORE_MISUSED. After another answer than IGNORE_OK the tree is
   as before. So it is of each call on a tree. */
uint32_t ignore_tree_add_dir(ignore_tree *tree, const uint8_t *path, size_t path_length);
uint32_t ignore_tree_add_file(ignore_tree *tree, const uint8_t *path, size_t path_length,
                              const uint8_t *bytes, size_t bytes_length);
uint32_t ignore_tree_add_link(ignore_tree *tree, const uint8_t *path, size_t path_length,
                              const uint8_t *target, size_t target_length);

/* Adds something whose name isn't UTF-8 to a directory: its listing has a fault there.
   IGNORE_MISSING where no directory is at the path. */
uint32_t ignore_tree_add_nameless(ignore_tree *tree, const uint8_t *path, size_t path_length);

/* The size that is reported for a file, which at first is that of its bytes. IGNORE_MISSING where no
   file is at the path. */
uint32_t ignore_tree_set_size(ignore_tree *tree, const uint8_t *path, size_t path_length,
                              uint64_t size);

/* The identity that is reported for what is at a path, by which loops of links are found, or that it
   is unknown. At first each path has one of its own. IGNORE_MISSING where nothing is there. */
uint32_t ignore_tree_set_identity(ignore_tree *tree, const uint8_t *path, size_t path_length,
                                  uint64_t device, uint64_t inode);
uint32_t ignore_tree_clear_identity(ignore_tree *tree, const uint8_t *path, size_t path_length);

/* Writes a file anew: it has these bytes, and their number as its size. IGNORE_MISSING where no file
   is at the path. A matcher that has read the file goes on with what it read, until
   ignore_matcher_forget is told its directory. */
uint32_t ignore_tree_rewrite_file(ignore_tree *tree, const uint8_t *path, size_t path_length,
                                  const uint8_t *bytes, size_t bytes_length);

/* Removes what is at a path, with all that is below it. IGNORE_MISSING where nothing is there, and
   for `/`. What was removed takes memory until the tree is freed: a file that changes is written
   anew instead. */
uint32_t ignore_tree_remove(ignore_tree *tree, const uint8_t *path, size_t path_length);

/* Has a question fail: what is at a path; what a directory lists; what a file holds, after its first
   bytes. IGNORE_MISSING where nothing, no directory, no file is there; IGNORE_MISUSED where the fault
   has no such number. */
uint32_t ignore_tree_fault_stat(ignore_tree *tree, const uint8_t *path, size_t path_length,
                                uint32_t fault);
uint32_t ignore_tree_fault_list(ignore_tree *tree, const uint8_t *path, size_t path_length,
                                uint32_t fault);
uint32_t ignore_tree_cut_contents(ignore_tree *tree, const uint8_t *path, size_t path_length,
                                  size_t length, uint32_t fault);

/* Frees a tree. */
void ignore_tree_free(ignore_tree tree);

/* Which files of rules are read, and what else matchers and walks go by. At first the six standard
   filters (hidden, parents, ignore, git_ignore, git_global, git_exclude) and require_git are on, and
   all else is off or unset. */
typedef struct ignore_builder {
    uint8_t *at;
} ignore_builder;

/* A builder with one root: IGNORE_OK, IGNORE_NOT_UTF8 or IGNORE_NO_MEMORY. */
uint32_t ignore_builder_new(const uint8_t *root, size_t root_length, ignore_builder *builder);

/* One root more; a name of custom files of rules; the directory that the global file is relative to;
   what is known of the environment: the working directory, HOME, XDG_CONFIG_HOME, GIT_CONFIG_GLOBAL,
   GIT_CONFIG_SYSTEM. At first nothing is. IGNORE_OK, IGNORE_NOT_UTF8, IGNORE_NO_MEMORY or
   IGNORE_MISUSED. */
uint32_t ignore_builder_add(ignore_builder *builder, const uint8_t *text, size_t text_length);
uint32_t ignore_builder_add_custom_ignore_filename(ignore_builder *builder, const uint8_t *text,
                                                   size_t text_length);
uint32_t ignore_builder_current_dir(ignore_builder *builder, const uint8_t *text,
                                    size_t text_length);
uint32_t ignore_builder_env_current_dir(ignore_builder *builder, const uint8_t *text,
                                        size_t text_length);
uint32_t ignore_builder_env_home(ignore_builder *builder, const uint8_t *text, size_t text_length);
uint32_t ignore_builder_env_xdg_config_home(ignore_builder *builder, const uint8_t *text,
                                            size_t text_length);
uint32_t ignore_builder_env_git_config_global(ignore_builder *builder, const uint8_t *text,
                                              size_t text_length);
uint32_t ignore_builder_env_git_config_system(ignore_builder *builder, const uint8_t *text,
                                              size_t text_length);

/* The settings of the original's builder, under its names: IGNORE_OK or IGNORE_MISUSED. */
uint32_t ignore_builder_standard_filters(ignore_builder *builder, bool on);
uint32_t ignore_builder_hidden(ignore_builder *builder, bool on);
uint32_t ignore_builder_parents(ignore_builder *builder, bool on);
uint32_t ignore_builder_ignore(ignore_builder *builder, bool on);
uint32_t ignore_builder_git_ignore(ignore_builder *builder, bool on);
uint32_t ignore_builder_git_global(ignore_builder *builder, bool on);
uint32_t ignore_builder_git_exclude(ignore_builder *builder, bool on);
uint32_t ignore_builder_require_git(ignore_builder *builder, bool on);
uint32_t ignore_builder_ignore_case_insensitive(ignore_builder *builder, bool on);
uint32_t ignore_builder_git_trailing_spaces(ignore_builder *builder, bool on);
uint32_t ignore_builder_follow_links(ignore_builder *builder, bool on);
uint32_t ignore_builder_same_file_system(ignore_builder *builder, bool on);

/* The limits; none where `is_set` is false. `limit` is of the steps of a walk, and at first it is one
   that no walk reaches. A walk that follows links lists a directory once for each way there, so a
   tree that isn't trusted wants a limit: forty folders with two links each may have more items than
   fit in memory. */
uint32_t ignore_builder_max_depth(ignore_builder *builder, bool is_set, size_t most);
uint32_t ignore_builder_min_depth(ignore_builder *builder, bool is_set, size_t most);
uint32_t ignore_builder_max_filesize(ignore_builder *builder, bool is_set, uint64_t most);
uint32_t ignore_builder_limit(ignore_builder *builder, uint64_t steps);

/* The globs of a command line, which decide before all other rules: a glob whitelists what it
   matches, one with a leading `!` ignores it. They begin anew, relative to a directory; each is
   added; then they count. IGNORE_REFUSED where a glob is invalid: nothing is added, and the problem
   is kept. IGNORE_MISUSED, too, where they weren't begun. */
uint32_t ignore_builder_overrides(ignore_builder *builder, const uint8_t *root, size_t root_length,
                                  bool case_insensitive);
uint32_t ignore_builder_add_override(ignore_builder *builder, const uint8_t *glob,
                                     size_t glob_length);
uint32_t ignore_builder_set_overrides(ignore_builder *builder);

/* File types: a glob more of one, a definition (`html:*.html`, `web:include:html,css`), the types
   that are there by default, all 219 of the original's table, none of a name; which are chosen, and
   which are to be ignored (`all` stands for those that are there). IGNORE_REFUSED where the name of a
   type or a definition is invalid: nothing is added, and the problem is kept. The choice counts from
   ignore_builder_set_types on, which answers IGNORE_REFUSED where no type has a chosen name, or a
   glob of one is invalid, and then changes nothing but the problem. */
uint32_t ignore_builder_type_add(ignore_builder *builder, const uint8_t *name, size_t name_length,
                                 const uint8_t *glob, size_t glob_length);
uint32_t ignore_builder_type_add_def(ignore_builder *builder, const uint8_t *definition,
                                     size_t definition_length);
uint32_t ignore_builder_type_add_defaults(ignore_builder *builder);
uint32_t ignore_builder_type_add_all_defaults(ignore_builder *builder);
uint32_t ignore_builder_type_clear(ignore_builder *builder, const uint8_t *name,
                                   size_t name_length);
uint32_t ignore_builder_type_select(ignore_builder *builder, const uint8_t *name,
                                    size_t name_length);
uint32_t ignore_builder_type_negate(ignore_builder *builder, const uint8_t *name,
                                    size_t name_length);
uint32_t ignore_builder_set_types(ignore_builder *builder);

/* Reads a file of rules of a tree now, and adds it after the others that were added so. It is
   relative to the directory of ignore_builder_current_dir, or else to that of
   ignore_builder_env_current_dir. IGNORE_REFUSED where something is wrong with the file: its other
   lines are added, as by ignore_rules_add_file; and where no such directory was told: nothing is
   added. The problem is kept. */
uint32_t ignore_builder_add_ignore(ignore_builder *builder, ignore_tree *tree, const uint8_t *path,
                                   size_t path_length);

/* Adds a file of rules by its path alone, after the others that were added so. It is for guides, which
   want it with their first root, and add it after those of ignore_builder_add_ignore; it is relative
   to the same directory. Matchers and walks, which have a tree, don't read it. IGNORE_OK,
   IGNORE_NOT_UTF8, IGNORE_NO_MEMORY or IGNORE_MISUSED. */
uint32_t ignore_builder_add_ignore_path(ignore_builder *builder, const uint8_t *path,
                                        size_t path_length);

/* What is wrong with what the builder was told last of globs, types and files: as
   ignore_rules_problem. */
uint32_t ignore_builder_problem(ignore_builder *builder, uint8_t *room, size_t room_length,
                                size_t *whole);

/* Frees a builder. */
void ignore_builder_free(ignore_builder builder);

/* A matcher of single paths below a root: whether a walk from the root would yield them. It keeps
   what it loads of the tree: the directories above the root, and those on the way to a path that was
   asked about. The tree is handed in at each question, and may be added to between two:

   Before a path is asked about, the tree has, of each directory on the way to it from `/`, all that
   decides there: the files of rules (`.gitignore`, `.ignore`, custom names), `.git` with its
   `info/exclude` (or the file `.git` and where it leads), `.jj`, and links on the way. A directory
   that is told by halves is read by halves, and what was read is kept: after the rest is told,
   ignore_matcher_forget is called for it. Where the tree has changed since, and all that is kept is
   still the same in it, each answer is the one that the tree gives as it is then. So it is where each
   directory is told whole before something below it is asked about. */
typedef struct ignore_matcher {
    uint8_t *at;
} ignore_matcher;

/* What becomes of a path besides: whether a walk would enter the directory, and whether the path is
   as deep as `min_depth` and `max_depth` ask. */
typedef struct ignore_found {
    bool should_descend;
    bool is_within_depth;
} ignore_found;

/* The matcher of a builder with one root. The global file is read now, from the tree. The builder
   and the tree stay as they are, and may be freed before the matcher. IGNORE_OK, IGNORE_NO_MEMORY,
   or IGNORE_MISUSED, also where the builder has more roots than one. */
uint32_t ignore_matcher_new(ignore_builder *builder, ignore_tree *tree, ignore_matcher *matcher);

/* What becomes of a path, which is relative to the root and clean (`src/a.o`): IGNORE_NONE,
   IGNORE_IGNORE or IGNORE_WHITELIST, and the rest in `found`. A path that isn't clean, as `./a`, `a/`
   or `/root/a`, has no match: ignore_matcher_normalize makes it clean. Also IGNORE_NOT_UTF8,
   IGNORE_NO_MEMORY (what was kept stays kept) and IGNORE_MISUSED, and then `found` is all false. */
uint32_t ignore_matcher_matched(ignore_matcher *matcher, ignore_tree *tree, const uint8_t *path,
                                size_t path_length, bool is_dir, ignore_found *found);

/* Why a matcher answers as it does. */
enum {
    IGNORE_WHY_NOT_ASKED = 1,   /* nothing was asked: the path isn't clean, or the root is `-` */
    IGNORE_WHY_UNRULED = 2,     /* no rule is asked: the path is the root, or that is no directory */
    IGNORE_WHY_TOO_SHALLOW = 3, /* a file above the least depth */
    IGNORE_WHY_TOO_DEEP = 4,    /* below the greatest depth */
    IGNORE_WHY_NO_RULE = 5,     /* nothing decides */
    IGNORE_WHY_RULE = 6,        /* a rule */
    IGNORE_WHY_OVERRIDE = 7,    /* a glob of a command line */
    IGNORE_WHY_NO_OVERRIDE = 8, /* none of these matches, and some glob whitelists */
    IGNORE_WHY_TYPE = 9,        /* a chosen file type */
    IGNORE_WHY_NO_TYPE = 10,    /* none of these matches, and a type is selected */
    IGNORE_WHY_HIDDEN = 11,     /* a leading dot of the name */
    IGNORE_WHY_LARGER = 12      /* the size, which is above its limit */
};

/* In which list a rule stands. They are asked in this order, and the first that has a match decides:
   custom names, `.ignore`, `.gitignore`, `info/exclude` of a repository, git's global file, files of
   ignore_builder_add_ignore and of ignore_builder_add_ignore_path. */
enum {
    IGNORE_RANK_CUSTOM = 1,
    IGNORE_RANK_IGNORE = 2,
    IGNORE_RANK_GITIGNORE = 3,
    IGNORE_RANK_EXCLUDE = 4,
    IGNORE_RANK_GLOBAL = 5,
    IGNORE_RANK_EXPLICIT = 6
};

/* A reason. What isn't said to be set is 0, or false. */
typedef struct ignore_why {
    uint32_t kind;     /* IGNORE_WHY_.. */
    uint32_t rank;     /* of a rule: IGNORE_RANK_.. */
    uint64_t line;     /* of a rule: the number of its line, from 1; 0 where that isn't known */
    uint64_t size;     /* of IGNORE_WHY_LARGER: the size in bytes */
    uint64_t limit;    /* and the greatest that isn't left out */
    size_t directory;  /* bytes of the directory whose list the rule is in, up to and with its last
                          slash. The root stands as `/` where its canonical path isn't known, or
                          isn't asked: none of `parents` and git's three settings is on. None for
                          the global file, and for one that was added by name */
    size_t source;     /* bytes of the path of the file that the rule was read from */
    size_t pattern;    /* bytes of the line of a rule, without white space at the end; of a glob of a
                          command line, as it was written; of the name of a file type */
    size_t glob;       /* bytes of the last glob of the file type that matches */
    size_t ancestor;   /* bytes of the ignored directory, where the path is in one */
    bool has_source;   /* whether the path of the file is known */
    bool is_inside;    /* whether the path is in an ignored directory: the first one on the way from
                          the root, by its path below the root; all else is the reason of that */
} ignore_why;

/* The same as ignore_matcher_matched, with the reason: `why`, and in `room` the first bytes, as many
   as there is room for, of its texts, one after the other: the directory, the source, the pattern,
   the glob, the ancestor. The answer, `found` and what the matcher keeps are those of
   ignore_matcher_matched. With another answer than IGNORE_NONE, IGNORE_IGNORE and IGNORE_WHITELIST
   `why` is all zeros, and the room is as before. */
uint32_t ignore_matcher_explained(ignore_matcher *matcher, ignore_tree *tree, const uint8_t *path,
                                  size_t path_length, bool is_dir, ignore_found *found,
                                  ignore_why *why, uint8_t *room, size_t room_length);

/* Forgets what is kept of the directory at a path below the root, and of those below it, so that
   they are read anew, and counts them: IGNORE_OK, IGNORE_NOT_UTF8 or IGNORE_MISUSED. The empty path is
   the root; of a path that isn't clean nothing is kept. With another answer than IGNORE_OK `count` is
   0. */
uint32_t ignore_matcher_forget(ignore_matcher *matcher, const uint8_t *dir, size_t dir_length,
                               size_t *count);

/* The text by which the matcher knows a path, relative to its root: IGNORE_OK, its length in
   `whole`, and its first bytes; or IGNORE_NONE where the path is empty or isn't at or below the root.
   The path, and the root, are from the working directory where they are relative: where the builder
   wasn't told it, and one of the two is, it is IGNORE_NONE, too; and always where the root is empty
   or `-`. Also IGNORE_NOT_UTF8, IGNORE_NO_MEMORY and IGNORE_MISUSED. With another answer than
   IGNORE_OK `whole` is 0. */
uint32_t ignore_matcher_normalize(ignore_matcher *matcher, const uint8_t *path,
                                  size_t path_length, uint8_t *room, size_t room_length,
                                  size_t *whole);

/* Frees a matcher. */
void ignore_matcher_free(ignore_matcher matcher);

/* The items of a walk of a builder over a tree. They are made at once, so the tree and the builder
   may change, or be freed, while they are handed out. */
typedef struct ignore_walk {
    uint8_t *at;
} ignore_walk;

/* An item: an entry with its path, and the text of what is wrong with its files of rules, if
   anything; or, where `is_entry` is false, the text of an error in an entry's place. */
typedef struct ignore_walk_entry {
    size_t path;      /* bytes of the path: the root as it was given, joined with the names below */
    size_t error;     /* bytes of the text of the error */
    size_t depth;     /* how many names an entry is below its root; else 0 */
    uint32_t kind;    /* 1 a file, 2 a directory, 3 a symbolic link, 4 something else, 0 none */
    bool is_entry;
    bool is_followed; /* whether the path is a link that was followed */
} ignore_walk_entry;

/* IGNORE_OK, IGNORE_NO_MEMORY, IGNORE_LIMIT where the walk takes more steps than the builder's limit,
   or IGNORE_MISUSED. */
uint32_t ignore_walk_new(ignore_builder *builder, ignore_tree *tree, ignore_walk *walk);

/* The next item: IGNORE_OK, and in `room` its path and the text of its error, one after the other;
   IGNORE_NONE after the last; IGNORE_ROOM where the room is too small: the item stays the next, the
   entry is its own, so that its lengths are known, and the room has its first bytes. Also
   IGNORE_NO_MEMORY, and then the item stays the next, and IGNORE_MISUSED. With another answer than
   IGNORE_OK and IGNORE_ROOM the entry is all zeros. */
uint32_t ignore_walk_next(ignore_walk *walk, ignore_walk_entry *entry, uint8_t *room,
                          size_t room_length);

/* Frees a walk. */
void ignore_walk_free(ignore_walk walk);

/* A guide, for a host that lists directories itself: which entries of a directory count. The host
   enters a directory below one that it entered before, asks about the entries that it lists, and
   leaves it. There is no tree: where the guide has to know something, the call answers IGNORE_WANTS,
   `ignore_guide_wanted` says of which path, the host answers by `ignore_guide_give`, and so on until
   the directory has its place. What is read of a directory, in which order, where a `.git` file and
   git's configuration lead, is the guide's to know: the host reads paths.

       code = ignore_guide_enter(&guide, &parent, name, length, names, names_length, &place);
       while (code == IGNORE_WANTS) {
           ignore_guide_wanted(&guide, &wanted, path, sizeof path, &whole);
           .. reads the path ..
           code = ignore_guide_give(&guide, kind, bytes, n, fault, &place);
       }

   The host chooses which directories it enters and in which order, which links it follows, and how
   far it goes: an ignored directory isn't entered. */
typedef struct ignore_guide {
    uint8_t *at;
} ignore_guide;

/* A directory that was entered and not left. A place that was left never stands for another. */
typedef struct ignore_place {
    size_t index;
    uint64_t serial;
} ignore_place;

/* What a guide wants to know of a path; links are followed, in the path and at its end. */
enum {
    IGNORE_WANTED_KIND = 1,     /* what is there */
    IGNORE_WANTED_FILE = 2,     /* what is there, and where that isn't a directory its bytes */
    IGNORE_WANTED_CANONICAL = 3 /* its canonical path */
};

/* No fault; the faults are those of trees. */
#define IGNORE_NO_FAULT UINT32_C(255)

/* No size is known. */
#define IGNORE_NO_SIZE UINT64_MAX

/* No sizes: a pointer, which isn't null, and a length. */
#define IGNORE_NO_SIZES (const uint64_t *)sizeof(uint64_t), (size_t)0

/* A guide with the settings, globs, types, names, explicit files, directory and environment of a
   builder, whose roots don't count, and which may be freed before it. Nothing is read so far.
   IGNORE_OK, IGNORE_NO_MEMORY or IGNORE_MISUSED. */
uint32_t ignore_guide_new(ignore_builder *builder, ignore_guide *guide);

/* Begins a root, by its path; a guide may have several. The files of ignore_builder_add_ignore_path
   are wanted with the first one, before all else and in their order; then what leads to git's global
   file, and that. Where no directory was told that they are relative to, none of these is wanted, and
   each of the former is a problem. What counts above a root and in it is wanted with each root.
   IGNORE_OK, and the place of the root; IGNORE_WANTS where something is to be known first. Also
   IGNORE_NOT_UTF8, IGNORE_NO_MEMORY, and IGNORE_MISUSED while a call waits. With another answer than
   IGNORE_OK the place is all zeros. */
uint32_t ignore_guide_root(ignore_guide *guide, const uint8_t *root, size_t root_length,
                           ignore_place *place);

/* Enters the directory of a name in the one at a place. `names` are those that it lists, each ended
   by a zero, and then nothing is wanted that isn't there; where they are empty it isn't known what it
   lists. (They are copied as far as they matter.) As ignore_guide_root; IGNORE_MISUSED, too, where the
   place is none, where the name is empty, `.` or `..` or has a slash, and where the names don't end
   with a zero. */
uint32_t ignore_guide_enter(ignore_guide *guide, const ignore_place *parent, const uint8_t *name,
                            size_t name_length, const uint8_t *names, size_t names_length,
                            ignore_place *place);

/* What the call that waits wants to know: IGNORE_OK, IGNORE_WANTED_.. in `wanted`, the length of the
   path in `whole`, and its first bytes, as many as there is room for. It says the same until it is
   given. IGNORE_NONE where no call waits, IGNORE_NO_MEMORY or IGNORE_MISUSED, and then `wanted` and
   `whole` are 0. A path is absolute where the root was, or as it is from where the root is. */
uint32_t ignore_guide_wanted(ignore_guide *guide, uint32_t *wanted, uint8_t *room,
                             size_t room_length, size_t *whole);

/* Answers that, and goes on with the call that waits: what comes is what this one would have
   answered. `kind` is 1 for a file, 2 for a directory, 4 for something else, 0 where nothing is
   there (nor does a link lead anywhere), or that can't be known; it doesn't count for a canonical
   path. `bytes` are those of the file, or the canonical path. `fault` is IGNORE_NO_FAULT, or why it
   couldn't be read: bytes *and* a fault are half a file. IGNORE_NOT_UTF8 where the canonical path
   isn't, and IGNORE_MISUSED where no call waits, or a number is none of these; then nothing changes.
   After IGNORE_NO_MEMORY the call that waited has ended without a place, and is made again. */
uint32_t ignore_guide_give(ignore_guide *guide, uint32_t kind, const uint8_t *bytes, size_t n,
                           uint32_t fault, ignore_place *place);

/* What becomes of an entry of the directory at a place: IGNORE_NONE, IGNORE_IGNORE or
   IGNORE_WHITELIST, and the rest in `found`. `is_dir` is of what a link leads to where the host
   follows it. `size` matters where the builder has a greatest size: of IGNORE_NO_SIZE the limit
   leaves nothing out. It changes nothing, and may be asked while a call waits. Also IGNORE_NOT_UTF8,
   IGNORE_NO_MEMORY and IGNORE_MISUSED (the place is none, or the name), and then `found` is all
   false. */
uint32_t ignore_guide_decide(ignore_guide *guide, const ignore_place *place, const uint8_t *name,
                             size_t name_length, bool is_dir, uint64_t size, ignore_found *found);

/* The same of a whole listing: `names`, each ended by a zero; of each its kind, 2 for a directory;
   its size, or IGNORE_NO_SIZES. `codes` has a number for each: what ignore_guide_decide answers, and
   4 where a walk descends, and 8 where it is within depth. A name that is empty, `.` or `..` or has a
   slash gets IGNORE_NONE + 8. IGNORE_OK; or IGNORE_NOT_UTF8, IGNORE_NO_MEMORY, or IGNORE_MISUSED (the
   place is none, or there aren't as many of each), and then `codes` are as before. */
uint32_t ignore_guide_decide_all(ignore_guide *guide, const ignore_place *place,
                                 const uint8_t *names, size_t names_length, const uint8_t *kinds,
                                 size_t n, const uint64_t *sizes, size_t sizes_length,
                                 uint8_t *codes, size_t codes_length);

/* The same as ignore_guide_decide, with the reason: `why` and `room` as for ignore_matcher_explained.
   What is beyond the limits on depth, and what is larger than the limit, has that as its reason.
   `is_inside` is false: that the directory is ignored, or one around it, isn't asked. Also as
   ignore_guide_decide, and then `why` is all zeros, and the room is as before. */
uint32_t ignore_guide_why(ignore_guide *guide, const ignore_place *place, const uint8_t *name,
                          size_t name_length, bool is_dir, uint64_t size, ignore_found *found,
                          ignore_why *why, uint8_t *room, size_t room_length);

/* Leaves the directory at a place, which is none from then on. Each is left once, those below it
   first. IGNORE_OK; or IGNORE_MISUSED where the place is none, where a directory below it wasn't left,
   and while a call waits. */
uint32_t ignore_guide_leave(ignore_guide *guide, const ignore_place *place);

/* What kind of problem it is. */
enum {
    IGNORE_PROBLEM_FAULT = 1, /* a file couldn't be read, or not to its end */
    IGNORE_PROBLEM_GLOB = 2,  /* the glob of a line is invalid */
    IGNORE_PROBLEM_OTHER = 3  /* something else */
};

/* A part of what is wrong with the files of rules of a directory. What isn't said to be set is 0, or
   false. */
typedef struct ignore_problem {
    uint32_t kind;   /* IGNORE_PROBLEM_.. */
    uint32_t fault;  /* of IGNORE_PROBLEM_FAULT: IGNORE_FAULT_.. */
    uint64_t line;   /* the number of the line, from 1; 0 where it is of no line */
    size_t path;     /* bytes of the path of the file */
    size_t glob;     /* of IGNORE_PROBLEM_GLOB: bytes of the glob, as it was written */
    size_t text;     /* bytes of what is wrong, in words */
    bool has_path;   /* whether the path is known */
    bool has_glob;   /* whether the glob is known */
} ignore_problem;

/* The part at an index, from 0, of what is wrong with the files of rules of the directory that was
   entered last, or of the root that was begun, with those above it and, with the first root, those of
   ignore_builder_add_ignore_path: IGNORE_OK, the part, and in `room` the first bytes, as many as there
   is room for, of its path, its glob and its text, one after the other. IGNORE_NONE where there are no
   more parts than that. Also IGNORE_NO_MEMORY and IGNORE_MISUSED. With another answer than IGNORE_OK
   the part is all zeros, and the room is as before. */
uint32_t ignore_guide_problem(ignore_guide *guide, size_t index, ignore_problem *problem,
                              uint8_t *room, size_t room_length);

/* Frees a guide, also while a call waits. */
void ignore_guide_free(ignore_guide guide);

#ifdef __cplusplus
}
#endif

#endif
