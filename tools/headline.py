"""The page `docs/HEADLINE.md`: what a finished walk has yielded, in words; the clauses that say so;
and the definitions that these rest on, top down, in layers.

`tools/statements` writes it.
"""
import functools
import re
import sys
import textwrap

from clauses import on_few_lines, parted, plain
from definitions import IMPORT, WHOLE, Library, paths_of
from equations import in_one
from repo import read
from rules import in_short
from sources import calls_of, module_file

# The call whose clauses are the headline, its crate, and the names of these clauses.
CALL = "ignore", "collect::collect_walk"
CLAUSES = "headline", "outside", "only", "ended"

HEAD = """# The headline

What a finished walk has yielded: in words, with an example; then as the clauses that the prover has
checked; then by all the definitions that these rest on, top down. `tools/statements` writes this
page, and the gate compares it with the sources. The words and the example take ten minutes. Who
reads as far as [the walk](#1-the-walk) knows what is promised of a walk, given what each directory
holds and which paths its rules ignore; the layers after it say these.

`collect_walk` is the call of the crate `ignore` that returns the whole list of a walk, or an error,
by a builder of roots and settings (`WalkBuilder`), the files, and the environment. It always
returns. A walk that a program asks item by item, [to its end or not](#in-words), and the lists of
`igwalk list`, `ig ls` and C's `ignore_walk_new` go by the same definition of the list. The walks of
Python, of Rust and of `disk.c` ask a guide instead; that they list the same is tested, and not
proved.

## In words

Let the files be *consistent with a tree* (`IsHonest`): each answer that they may give, other than
out of memory, is the tree's. A tree (`Tree`) is five functions of a path: what is there, what a
directory lists, the contents of a file, the canonical path, and the numbers of device and inode, if
known; the first and the last also of whether a last link is followed. Each may have a *fault* in
place of a value, as that nothing is there. Of a real disk all this holds where the machine answers
truly from one disk (`IsTruthful`, by `DiskFiles::is_honest`), which is assumed, and not proved. (A
name in parentheses is that of a definition, most of them below.)

Let `collect_walk` return `Ok` of some *items* (`Item`). Each is an entry (`Entry`), maybe with a
*problem*, or a problem alone: a fault, a loop, or what is wrong with a rule, with its place. An
entry has a path, a depth, a kind, and whether it is a link that was followed. The kind is as
listed, without `stat`; but where links are followed, a link has the kind of what it leads to, so it
may be a directory (`found`). A root has the kind of what it leads to, except that a link stays one
where links aren't followed and it doesn't lead to a file (`stays_link`); even so it counts as a
directory where it leads to one (`leads_in`). The *load* of a directory (`Loaded`) is what it holds
for the rules, and the problem of its files of rules and of the way to its exclude file
(`info/exclude` of its repository), if any (`Loads`). A file of rules is read up to its first fault
or line that isn't UTF-8, and all lines after that are lost (`AddsLines`, the rule `stopped`); where
such a fault is its only problem, or it can't be opened, it isn't reported (`AddsPresent`).

Then these items are exactly the following list (`Headline`), and no other list is as follows
(`IsOnlyList`). Comments call it the list of the definition; this definition is `Whole`.

1. The roots come in their order, each with all that is below it before the next one
   (`WalkedRoots`). The root `-` is standard input and always gives one item: the entry with the
   path `<stdin>`, the depth 0, and no kind (`stdin_entry`). Where any other root leads to a
   directory, the problems of the loads of the directories above it, but for those above an earlier
   such root, come before it as one item, if there are any (`reported_before`). Those above it are
   the ones on its canonical path; none where that faults or isn't clean (names after single
   slashes), or the settings ask for none (`paths_above`).
2. An entry below a root is *skipped*, with all below it, where the rules ignore it, or it is no
   directory and `stat` gives it a size above the limit (a fault gives none, `is_larger`), or the
   filter rejects it; a root never is (`is_skipped`). An entry that isn't skipped is an item, unless
   its depth is less than the least depth (`yielded`). The item of a directory has the problem of
   its load, if any (`loaded`), but not at the greatest depth (the rule `leaf`); where the directory
   is no item, that problem is left out.
3. A directory is *entered* where it isn't skipped, its depth is less than the greatest depth, and
   it isn't on another device than its root, if the walk stays on that one (`fate`). After its own
   item, if it is one, comes the fault of its listing, where this fails (`unlisted`), and else what
   is listed, each thing with all below it before the next one (`WalkedEach`). The order is that of
   the listing; or, where one is chosen, by names or by paths (`chosen_order`), faults come first,
   then entries in the chosen order, that of texts or of a comparison, and things that tie stay as
   they were listed (`IsArranged`).
4. A problem stands in the place of an entry where `stat` has a fault, for a root or what it leads
   to (`root_entry`), or for what a followed link leads to (`found`); where a followed link leads
   back to a directory that it is in, a loop (`without_loop`); where an identity isn't known that
   has to be: that of a directory, if the walk stays on one device (`with_device`), or, to look for
   a loop, that of a directory that a followed link leads to, or is in, the nearest first, up to the
   one that it leads back to (`same_among`); where a listed name is empty, `.` or `..`, or has a
   slash (`named`); and where the listing has a fault at that place (`child`). Neither the rules,
   nor the filter, nor a limit of depth or size is asked about a problem in such a place (the rule
   `failed`): a followed link that leads nowhere is reported even where the rules would ignore it.
5. The rules ignore a path by [the verdict](#2-the-verdict) (`ignores`). Overrides, which are globs
   as of a command line, decide first (`verdict`). Where they don't, what the ranks ignore is
   ignored; else the file types decide; where they don't, what the ranks whitelist is kept; and else
   a hidden name is ignored, if that is set (`without_override`). The six ranks are (1) files with
   custom names, which the builder sets, (2) `.ignore`, (3) `.gitignore`, (4) the exclude file, (5)
   git's global file, and (6) files added by name: the first that has a match decides
   (`ranks_answer`). In each of 1 to 4 the nearest directory on the way whose list has a match
   decides (`nearest`). A directory has the *mark* of a repository where it has `.git` or `.jj`; but
   none has one unless `require_git` is on, and `git_ignore` or `git_exclude` (`is_marked`,
   `needs_marks`). No `.gitignore` or exclude file counts above the nearest directory with a mark
   (`cut`); 3 to 5 count only where some directory on the way has a mark, or none is required
   (`has_git`). Of directories above the root the lists count only with `parents`, and the marks
   only with `git_ignore` (`kept_above`). In a list the last rule that matches decides
   (`list_answer`). Overrides, types, global file and files added by name are the *rules from
   outside* (`IsOutside`); each tree that the files are consistent with has them (`ReadsOutside`).

The list takes at most as many *steps* as the builder's `limit` (`HasYielded`): one for each root,
for each thing that is listed, and for each directory that is entered. If `collect_walk` returns an
`Err`, then memory ran out; or the limit was reached, and each list that there is takes more steps
(`IsAboveLimit`).

**A walk that is stopped early.** Where a program asks a walk item by item, and not to its end, the
items are a beginning of the list, if there is one; but the last of them may be out of memory or the
limit, which ended the walk (the law `a_run_begins_the_list`). Where it asks to the end, and no item
ended the walk, they are the list, as here (`a_finished_walk_is_the_headline`). The laws that this
page names are in [STATEMENTS](STATEMENTS.md).

**Where it says nothing.** All this holds in each tree that the files are consistent with, and there
in each *scene* (`IsSceneOf`), which has a function by which the filter answers, and a strict weak
order by which the comparison does. So nothing is said of the list where there is no such tree, as
of a disk that changes during the walk ([OPEN](OPEN.md)), or no such function or order, but that
each entry is at a root or below one (a further clause, `below`). Where there are these, there is a
scene (the laws `a_scene_without_closures` and `a_scene_with_closures`); with it the law
`the_one_list` has all that is said of an `Ok` as one record (`IsTheList`, of
`crates/ignore/specs/Headline.antt`). Of a builder without closures all of it may be said by its
options alone, as `igwalk list` and `ig ls` do (the law `a_builder_without_closures`). In an endless
tree, where entered directories go down forever, there is no list. So there, if there is a scene,
`collect_walk` returns no `Ok`; and `IsAboveLimit` says nothing of an `Err`, but where that is the
limit, the walk took as many steps (the clause `limited`). Nor is it said that memory suffices, what
was found before an `Err`, or when and how often the filter is asked.

## An example

`/t` lists the directory `a`, which lists the directory `b`, which lists the link `c` to `/t/a`.
Links are followed; there is no order, no filter, and no limit of depth or size, and the walk
doesn't stay on one device; `stat` and the identities are known, and each directory has its own; and
the rules ignore nothing. Then `WalkedOne` has four items of the root `/t`, in six steps (three
things are listed, and three directories entered), as `loop_reported` in
`crates/ignore_walk/proofs/Worked.antt` proves. `WalkedRoots` adds a seventh step, for the root, and
what is reported before it, if anything.

| item | by the rules |
|---|---|
| the entry `/t` at depth 0, with the problem of its load, if any | `dir` |
| the entries `/t/a` at depth 1 and `/t/a/b` at depth 2, in the same way | `more`, `dir` |
| the problem, at depth 3, that `/t/a/b/c` leads back to `/t/a` | `more`, `failed` |

In another tree `/t` lists the directory `.h`, which lists the file `x`; there are no rules, no
filter, and the settings are as at first. Then no list has `/t/.h/x`, since `.h` is skipped with all
below it (`hidden_unyielded` in `WorkedAgreement.antt` there). Where hidden names aren't ignored,
and the least depth is 2, each list has it (`deep_yielded`), and none has `.h`.
"""

NOTATION = """## How to read a definition

Lines that begin with two dashes are a comment. Below it stand a name, its arguments with their
types, its own type, and what it is: `f (x : A) : B = e`. Or else the name and its type stand there,
and then several equations, of which the first that fits counts.

| written | read |
|---|---|
| `(x : A) → B`, `A → B` | for each `x` of `A`, `B` holds; if `A` then `B`; also the functions from `A` to `B` |
| `(x : A) × B`, `A × B` | there is an `x` of `A` for which `B` holds; `A` and `B`; also the pairs of both |
| `A ⊎ B`; `¬ A`, `⊥`; `Unit {0}` | `A` or `B`; not `A`, false; true |
| `Type` | what may hold or not, or a type: `A → Type` is a property of an `A` |
| `a ≡ b`, `a ≢ b` | they are equal, or not; `==`, `&&`, `not` and names with small letters are tests, whose value is a `Bool` |
| `λ x. e` | the function that takes `x` to `e` |
| `{x : A}` | an argument that the others determine: it isn't written, or in braces, as in `Unit {0}` |
| `p.0`, `p.1`; `r.field` | the first and the second of a pair; a field of a record |
| `record { field = e; .. }`, `record r { field = e }` | a record of these fields; `r` with another value in one field |
| `data T .. where`, and its lines `name : .. → T ..` | the least relation, or type, with these rules; `for each` names their variables |
| `record R .. where`, and its lines | a type of records; or a property, which holds where all fields do; `a b : A` are two fields |
| `[]`, `x ∷ xs`, `xs ++ ys`; `ℕ`, `suc n` | the empty list, a list by its first and the others, one list after another; the numbers from 0, `n + 1` |
| `None`, `Some a`; `Ok a`, `Err e` | no value or a value, of type `Option A`; a value or an error, of type `Result A E` |
| `thing.Fault f`, `std.None`, `below.scene` | names of another type or file, before the dot, where one of the same name is in use, as `None` is a verdict too; `Refused f`: a `Refusal`'s `Fault f`; `Nothing`, `Only a`: `None`, `Some a` |
| `codes "a"`, and numbers as 47 | the bytes or characters of a text; 47 is `/`, 46 is `.`, 42 is `*`, 92 is a backslash |
| `x.now`, `x.entry` | what a reference `x` points to; the reference, as it was given to the call |
| `IfOk result (λ all. P)`, `IfErr` | if the result is `Ok all`, then `P`; the same of an `Err` |
| `F.Files`, `⟦<Owner<'static> as Callbacks>⟧` | the relations by which contracts see the calls of a type that has a trait; of the types `Files F` (`Ghosts F` is the same) and `Callbacks S`, as [declared](#6-types-of-the-code) |
| `and_then f r`, `or_failed path depth f r` | the error of `r`, or else `f` of its value: `r` comes first |
| `_`; `mutual` | whatever it is; the definitions below name each other |

The words `abbrev`, `unfoldable` and `pub`, the `0` of `Type 0` and the type of a record, which don't
bear on the meaning, are left out; in the sources each rule names its own variables. Words that no
definition here defines are of the standard library, of lists, numbers and texts.
`IsPermutation xs ys`: the same things in some order. `IsSortedBy lt ys`: nothing stands before what
`lt` puts before it. `IsStableBy lt xs ys`: things that tie keep their order.
`IsStrictWeakOrder lt`: irreflexive and transitive, and ties are transitive. A value of the code
counts as plain data: a text or a `Name` as its bytes, a `Vec` as a list, `Names` as a list of
texts, a number as one of ℕ, `Limited` as its `Settings`, a `Gitignore` or an `Override` as a
`Ruleset`, `Matchers` as a list of these, `Types` as a record with the list `choices` of `Chosen`;
`Compare` and `Filter` are closures.

Like words: a `Fault` is what a call of the files finds wrong, a `Refusal` that or out of memory; a
`Problem` is the plain form of the code's `Error`. `Listed` is what a directory lists, and the
`Order` of one that isn't sorted; `Entry` is a record, and a variant of the former. A `Loaded` is a
load, `Loads` says which a directory has, `loads` are those of all, `loaded` gives a directory's
item, and `load` is a fate. `enter` is the fate of a directory that is *entered*; `entered` are
those from a place up to its root.
"""


# The definitions of the walk, part by part: what a part says first, and its definitions in their
# order, those that name each other under the first of them.
PARTS = [
    (
        "What there is: a tree that files are consistent with; entries and items; and a scene.",
        "Tree IsHonest Answers Entry entry_of Item item_of problem_in Branch path_of Scene",
    ),
    (
        "The headline, and which scenes are of a walk.",
        "Headline IsListIn HasYielded IsSceneOf IsOrderBy order_by chosen_order order_of",
    ),
    (
        "What the roots give.",
        "Whole WalkedRoots stdin_entry reported_before unseen above_root root_entry root_of root_by stays_link",
    ),
    (
        "What an entry gives, and all below it.",
        "WalkedOne yielded loaded unlisted listing_of named IsArranged comes_before",
    ),
    (
        "What becomes of an entry.",
        "Fate fate is_at_least is_deepest leads_in is_dir_kind is_dir_there is_foreign are_apart"
        " is_skipped ignores queries is_too_large is_larger",
    ),
    (
        "What a listed thing is: an entry, or a problem in its place.",
        "child branch_below found followed_link without_loop entered same_among is_same unlooped"
        " with_device identity_at known or_failed failed_at and_then",
    ),
    (
        "That no other list is so, that rules from outside exist, and what an `Err` says of the limit.",
        "IsOnlyList IsOnlyListIn ForItsList ReadsOutside IsAboveLimit",
    ),
]


class Layer:
    """A part of the page: its title, what it says first, and the files of definitions that are in
    it."""

    def __init__(self, title, says, *files):
        self.title, self.says, self.files = title, says, files

    def has(self, place):
        return f"{place[0]}/{name_of(place)}" in self.files or place[0] in self.files


WALK = "1. The walk"
# A file is in the first of these that has it.
LAYERS = [
    Layer(
        "5. Small words",
        "Paths, problems, kinds of files, and limits, file by file.",
        *("ignore_base", "ignore_files/Kinds"),
    ),
    Layer(
        "4. The rules from outside",
        "Overrides, file types and files that were added by name are those of the builder; the global file is"
        " the one that git's configuration names.",
        *("ignore/Asked", "ignore_rules/Matchers", "ignore_excludes", "ignore_files/Variables"),
    ),
    Layer(
        WALK,
        "What a walk yields, given what each directory holds, the verdict on each path, and the rules from"
        " outside.",
        *("ignore", "ignore_walk", "ignore_files", "ignore_dir/Limits", "ignore_dir/Query"),
    ),
    Layer(
        "2. The verdict",
        "Whether the rules ignore a path, given the lists of rules of the directories on the way to it, and"
        " what one list answers.",
        *("ignore_dir/Scene", "ignore_dir/Verdict", "ignore_dir/Ranks", "ignore_dir/Lists", "ignore_dir/Above"),
    ),
    Layer(
        "3. Directories, files of rules, lines, globs",
        "What one directory holds: which files of rules count, which of their lines are rules, and what a rule"
        " matches.",
        *("ignore_dir", "ignore_rules", "ignore_types", "ignore_glob"),
    ),
]
ARGUMENTS = (
    "The arguments of `Headline`, `IsOnlyList` and `IsAboveLimit` are: the relations by which contracts see the calls of the files, and"
    " those of the owner of the filter and the comparison, `CALLS`; the files; this owner, `OWNER`, the one with this builder; the"
    " environment; the builder's options; and `ORDER`, the order that its comparison is asked for, if it has one (else that of the options counts, `chosen_order`). By `CALLS` ([STATEMENTS](STATEMENTS.md))"
    " an `Owner` answers as the closures of its builder do; without a filter all pass, without a comparison texts compare as such, byte by byte. The `Item` of the"
    " head is a `Result<DirEntry, Error>`, of which `item_of` makes the plain one."
)
# Words of the pages' own, in the place of arguments that are long, and written often.
SHORT = {
    "CALLS": "⟦<Owner<'static> as Callbacks>⟧",
    "OWNER": "(record { builder = Some builder.entry })",
    "ORDER": "(order_of (λ s. s.order) builder.now.sorter)",
}
# Types that the clauses name, and no definition.
NAMED = {"ignore": [("builder", "WalkBuilder"), ("closures", "Sorter"), ("walk", "Owner")]}
LATER = (
    "Of the layers 2 to 4 it uses these; small words and types ([5](#5-small-words), [6](#6-types-of-the-code)), as `Path`, `Problem` and"
    " `join_of`, aren't listed:"
)
MORE = (
    "Three more clauses are in [STATEMENTS](STATEMENTS.md): `no_end`, that no item of an `Ok` is the limit, or has out of memory in it;"
    " `below`, that each entry of an `Ok` is at a root or below one; and `limited`, that where the limit is the error, the walk took so many steps."
)
TYPES = "Their fields or variants; of a trait, the relations by which a contract sees what its calls may answer."


# Definitions


def by_file(library, found, first):
    """Definitions file by file, users before what they use; in a file, the last first."""
    places, begun = [], set()

    def visit(ones):
        for one in reversed(ones):
            if one.place not in begun:
                begun.add(one.place)
                own = [it for it in library.file(one.place).definitions if it in found]
                visit([it for user in own for it in library.used_by(user)])
                places.append(one.place)

    visit(first)
    files = (library.file(it).definitions for it in reversed(places))
    return [it for own in files for it in reversed(own) if it in found]


def in_parts(library, here):
    """The definitions of the walk, in the order of `PARTS`."""
    by_name, lines = {it.heads()[0]: it for it in here}, []
    named = [it for _, names in PARTS for it in names.split()]
    wrong = sorted({*by_name} ^ {*named} | {it for it in named if named.count(it) > 1})
    if wrong or len(by_name) < len(here):
        sys.exit(f"FAILED tools/headline.py: PARTS has not just once each definition of the walk: {', '.join(wrong)}")
    for says, names in PARTS:
        ones = [by_name[it] for it in names.split()]
        places = ", ".join(dict.fromkeys(f"`{it.place[0]}/{name_of(it.place)}`" for it in ones))
        lines += [*wrapped(f"{says} ({places})"), "", "```agda", *(line for it in ones for line in shown(library, it))]
        lines[-1:] = ["```", ""]
    return lines


def blocks(library, found):
    """Definitions with the comments above them: those of one file in one block, below the first
    sentence of the file, or, where most of the file isn't here, below its name alone."""
    lines, place = [], None
    for one in found:
        if one.place != place:
            place, file = one.place, library.file(one.place)
            is_most = 2 * sum(it in found for it in file.definitions) > len(file.definitions)
            name = f"`{place[0]}/{name_of(place)}`"
            lines[-1:] = ["```", ""] if lines else []
            lines += [*wrapped(f"{first_sentence(file.head)}. ({name})" if is_most else f"Of {name}:"), "", "```agda"]
        lines += shown(library, one)
    return [*lines[:-1], "```", ""]


def name_of(place):
    """The name of a file of definitions in its crate."""
    return place[1].removeprefix("specs/").removesuffix(".antt")


def shown(library, one):
    """A definition with the comment above it."""
    text = re.sub(r"^(\s*)(?:abbrev |unfoldable )?(?:pub )?", r"\1", plain(one.text), flags=re.M)
    return [*(f"-- {it}" for it in textwrap.wrap(said_of(library, one), 97)), *in_short(in_one(text)).split("\n"), ""]


def said_of(library, one):
    """The comment above a definition. In its file it may speak of the definition before it as `the
    same`, which is named here. (Of definitions that name each other the comments stand inside.)"""
    if one.text.split("\n")[0].endswith("mutual"):
        return ""
    ones = library.file(one.place).definitions
    before = ones[ones.index(one) - 1].heads()[0]
    return re.sub(r"(^|: )the same\b,?", rf"\1as `{before}`,", one.comment)


def uses(library, here, later):
    """What a layer uses of later ones, as a list."""
    used = dict.fromkeys(it for one in here for it in library.used_by(one) if it in later)
    return [it for one in used for it in wrapped(f"- `{one.heads()[0]}`: {first_sentence(one.comment)}", "  ")]


def first_sentence(text):
    """The first sentence, without its full stop."""
    return text.partition(". ")[0].removesuffix(".")


def wrapped(text, indent=""):
    return textwrap.wrap(text, 100, break_on_hyphens=False, subsequent_indent=indent)


# Types of the code


def types_of(library, found):
    """The types of the code that these definitions name, by crate: the path and the name of each."""
    types = {}
    for one in found:
        words, text = set(paths_of(one.text)), "\n".join(library.file(one.place).lines)
        named = [(crate, path, it.split(" as ")[-1].strip()) for crate, path, its in IMPORT.findall(text) for it in its.split(",")]
        for crate, path, name in [*named, *WHOLE.findall(text)]:
            parts = path.split(".")
            if crate in library.crates and parts[0] == "declared" and name in words:
                kind = next(it for it, part in enumerate(parts) if part[:1].isupper())
                types.setdefault(crate, set()).add(tuple(parts[1 : kind + 1]))
    return {it: sorted(types[it]) for it in library.crates if it in types}


def declared(crate, modules, name):
    """A type or a trait of the code as it is declared, without what is said of it and of its parts:
    its fields or variants; of a trait, the relations of its calls."""
    lines = read(f"{crate.folder}/{module_file(crate, tuple(modules))}").split("\n")
    at = next(it for it, line in enumerate(lines) if re.match(rf"pub (?:struct|enum|trait) {name}\b", line))
    end = next(it for it in range(at, len(lines)) if lines[it].endswith(("}", ";")) and lines[it][:1] not in ("", " "))
    body = [it for it in lines[at : end + 1] if not it.strip().startswith(("//", "#["))]
    if body[0].startswith("pub trait"):
        ghosts = [plain(it) for it in body if re.match(r"    ghost \w+:", it)]
        return [body[0].removeprefix("pub "), *ghosts, "}"]
    body = [it for it in body if not it.strip().startswith("ghost ")]
    return wrapped(re.sub(r"\bpub(?:\(crate\))? |,(?= })", "", " ".join(it.strip() for it in body)), "    ")


# The page


def shortened(line, words):
    """A line with some words of the page's own."""
    return functools.reduce(lambda text, name: text.replace(words[name], name), words, line)


def kept(call):
    """The clauses of the headline, each with the lines that go on with it."""
    found, is_kept = [], False
    for line in call.clauses:
        head = re.match(r"\s+(?:requires|ensures) (\w*)", line)
        is_kept = head[1] in CLAUSES if head else is_kept
        found += [line] if is_kept else []
    return found


def headline(crates):
    """The lines of the page."""
    library, (crate, path) = Library(crates), CALL
    call = next(it for it in calls_of(crates[crate])[0] if it.path == path)
    clauses = kept(call)
    first = library.named_by(" ".join(clauses), read(f"{crates[crate].folder}/{call.file}"))
    found = library.closure(first)
    order = by_file(library, set(found), first)
    of = {it: next(layer for layer in LAYERS if layer.has(it.place)) for it in found}
    length = {it: it.text.count("\n") + 1 for it in found}
    walk = sum(length[it] for it in found if of[it].title == WALK)
    rests = (
        f"They rest on {len(found)} definitions, {sum(length.values())} lines in {len({it.place for it in found})} files;"
        f" {walk} of these lines are of the walk itself. {ARGUMENTS}"
    )
    words = [f"// {name}: {text}" for name, text in SHORT.items()]
    short = [on_few_lines(shortened(it, SHORT)) for it in parted(clauses)]
    lines = [HEAD, "## The clauses", "", "```rust", *words, call.head, *short, "```", "", *wrapped(rests), "", *wrapped(MORE), "", NOTATION]
    for layer in sorted(LAYERS, key=lambda it: it.title):
        here = [it for it in order if of[it] is layer]
        used = uses(library, here, {it for it in found if layer.title < of[it].title < "5"}) if layer.title == WALK else []
        lines += [f"## {layer.title}", "", *wrapped(layer.says), ""]
        lines += [*wrapped(LATER), "", *used, ""] if used else []
        lines += (in_parts if layer.title == WALK else blocks)(library, here)
    lines += ["## 6. Types of the code", "", *wrapped(TYPES), ""]
    for name, types in types_of(library, found).items():
        types = sorted([*types, *NAMED.get(name, [])])
        text = [line for *modules, it in types for line in declared(crates[name], modules, it)]
        lines += [f"`{name}`", "", "```rust", *text, "```", ""]
    return lines
