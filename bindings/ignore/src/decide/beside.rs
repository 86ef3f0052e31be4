//! Random trees on disk, walked by this crate and by the library's own walk, which is told the
//! whole tree: the same entries, by one thread and by several.

use super::Settings;
use crate::library::{walked, Builder, Item, Label, Switch, Tree};
use crate::names::told;
use crate::overrides::OverrideBuilder;
use crate::types::TypesBuilder;
use crate::{DirEntry, Error, WalkBuilder, WalkState};
use std::collections::BTreeSet;
use std::env;
use std::ffi::{OsStr, OsString};
use std::fs;
use std::os::unix::ffi::OsStrExt;
use std::os::unix::fs::symlink;
use std::path::{Path, PathBuf};
use std::sync::Mutex;

/// Numbers that look random (xorshift).
struct Random(u64);

impl Random {
    fn below(&mut self, count: usize) -> usize {
        self.0 ^= self.0 << 13;
        self.0 ^= self.0 >> 7;
        self.0 ^= self.0 << 17;
        (self.0.wrapping_mul(0x2545_f491_4f6c_dd1d) >> 33) as usize % count
    }

    fn one_in(&mut self, count: usize) -> bool {
        self.below(count) == 0
    }

    fn of<'a, T>(&mut self, all: &'a [T]) -> &'a T {
        &all[self.below(all.len())]
    }
}

const NAMES: [&[u8]; 14] = [
    b"a",
    b"b",
    b"c.o",
    b"d.rs",
    b"build",
    b".h",
    b"A",
    b"x y",
    b"\xc3\xa9.c",
    b"f\xff.o",
    b"ab",
    b"e.",
    b"C.O",
    b"[z",
];
const RULES: [&str; 28] = [
    "a",
    "/a",
    "b/",
    "*.o",
    "!c.o",
    "build/",
    "a/**",
    "**/d.rs",
    "?",
    "[ab]",
    "!a/b",
    "*",
    "!*/",
    "# x",
    "x\\ y",
    ".h",
    "!.h",
    "{c.o,d.rs}",
    "{",
    "[z",
    "a/b",
    "/build/a",
    "e.",
    "**/a/**/b",
    "!ab ",
    "\\!a",
    "*/",
    "f*.o",
];
const FILES: [&str; 4] = [".gitignore", ".ignore", ".mine", ".yours"];

/// A tree on disk, and the same as the library is told it.
struct Grown {
    top: PathBuf,
    tree: Tree,
    size: usize,
    /// How many links there may be yet: each may double what is walked.
    links: usize,
}

impl Drop for Grown {
    fn drop(&mut self) {
        let room = self.top.ancestors().nth(2).expect("the folder of the test");
        let _ = fs::remove_dir_all(room);
    }
}

impl Grown {
    fn at(seed: u64) -> Grown {
        let temp = fs::canonicalize(env::temp_dir()).expect("a folder");
        let room = temp.join(format!("ignore_beside_{}_{seed}", std::process::id()));
        // Links lead at most two folders up.
        let top = room.join("up/top");
        fs::create_dir_all(room.join("up")).expect("a folder");
        let cwd = env::current_dir().expect("a folder");
        let mut tree = Tree::new(&told(&cwd));
        let mut above: Vec<&Path> = top.ancestors().skip(1).collect();
        above.extend(cwd.ancestors());
        for dir in above.iter().rev() {
            tree.add_dir(&told(dir));
        }
        for dir in cwd.ancestors().collect::<Vec<_>>().iter().rev() {
            tree.add_dir(&told(dir));
        }
        let mut grown = Grown {
            top,
            tree,
            size: 60,
            links: 3,
        };
        let top = grown.top.clone();
        grown.dir(&top);
        grown
    }

    fn dir(&mut self, path: &Path) {
        fs::create_dir(path).expect("a folder");
        assert!(self.tree.add_dir(&told(path)));
    }

    fn file(&mut self, path: &Path, text: &[u8]) {
        fs::write(path, text).expect("a file");
        assert!(self.tree.add_file(&told(path), text));
    }

    fn link(&mut self, path: &Path, target: &Path) {
        symlink(target, path).expect("a link");
        assert!(self.tree.add_link(&told(path), &told(target)));
    }

    fn rules(random: &mut Random) -> Vec<u8> {
        let mut text = Vec::new();
        for _ in 0..random.below(5) {
            text.extend_from_slice(random.of(&RULES).as_bytes());
            text.push(b'\n');
        }
        if random.one_in(12) {
            text.extend_from_slice(b"\xff\na\n");
        }
        text
    }

    fn git(&mut self, random: &mut Random, path: &Path) {
        let git = path.join(".git");
        match random.below(4) {
            0 => self.dir(&git),
            1 => self.file(&git, b"no repository"),
            2 => {
                self.dir(&git);
                self.dir(&git.join("info"));
                self.file(&git.join("info/exclude"), &Grown::rules(random));
            }
            _ => {
                let real = path.join("tree");
                self.dir(&real);
                self.file(&git, format!("gitdir: {}\n", real.display()).as_bytes());
                let common: &[u8] = if random.one_in(2) { b"./..\n" } else { b"." };
                self.file(&real.join("commondir"), common);
                self.dir(&real.join("info"));
                self.file(&real.join("info/exclude"), &Grown::rules(random));
            }
        }
    }

    /// Fills a directory, and those below it.
    fn fill(&mut self, random: &mut Random, path: &Path, depth: usize) {
        if random.one_in(4) {
            self.git(random, path);
        }
        if random.one_in(12) {
            self.dir(&path.join(".jj"));
        }
        for name in FILES {
            if !random.one_in(3) {
                continue;
            }
            let text = Grown::rules(random);
            if random.one_in(8) {
                self.file(&path.join("elsewhere"), &text);
                self.link(&path.join(name), Path::new("./elsewhere"));
                break;
            }
            self.file(&path.join(name), &text);
        }
        let mut names: Vec<&[u8]> = NAMES.to_vec();
        for _ in 0..1 + random.below(6) {
            let name = names.swap_remove(random.below(names.len()));
            let here = path.join(OsStr::from_bytes(name));
            self.size = self.size.saturating_sub(1);
            match random.below(8) {
                0..=2 if depth < 4 && self.size > 0 => {
                    self.dir(&here);
                    self.fill(random, &here, depth + 1);
                }
                3 if self.links > 0 => {
                    self.links -= 1;
                    let target: &&str =
                        random.of(&["a", "..", "build", "../b", ".", "nowhere", "../.."]);
                    self.link(&here, Path::new(*target));
                }
                _ => self.file(&here, &vec![b'x'; random.below(30)]),
            }
        }
    }
}

/// The same settings, for a walk of this crate and for one of the library.
struct Chosen {
    ours: WalkBuilder,
    theirs: Settings,
    globs: Option<(PathBuf, bool, Vec<&'static str>)>,
    /// The types that are selected or negated.
    chosen: Vec<(&'static str, bool)>,
    follow_links: bool,
    max_filesize: Option<u64>,
}

fn choose(random: &mut Random, root: &Path) -> Chosen {
    let mut ours = WalkBuilder::new(root);
    let mut theirs = Settings::at_first();
    let on = |random: &mut Random| !random.one_in(4);
    ours.git_global(false);
    theirs.git_global = false;
    theirs.hidden = on(random);
    theirs.parents = on(random);
    theirs.ignore = on(random);
    theirs.git_ignore = on(random);
    theirs.git_exclude = on(random);
    theirs.require_git = on(random);
    theirs.case_insensitive = random.one_in(4);
    ours.hidden(theirs.hidden)
        .parents(theirs.parents)
        .ignore(theirs.ignore);
    ours.git_ignore(theirs.git_ignore)
        .git_exclude(theirs.git_exclude);
    ours.require_git(theirs.require_git)
        .ignore_case_insensitive(theirs.case_insensitive);
    for name in [".mine", ".yours"] {
        if random.one_in(2) {
            ours.add_custom_ignore_filename(name);
            theirs.custom.push(OsString::from(name));
        }
    }
    let mut globs = None;
    if random.one_in(5) {
        let both_cases = random.one_in(2);
        let mut builder = OverrideBuilder::new(root);
        let _ = builder.case_insensitive(both_cases);
        let mut taken = Vec::new();
        for _ in 0..1 + random.below(3) {
            let glob = *random.of::<&str>(&RULES);
            if builder.add(glob).is_ok() {
                taken.push(glob);
            }
        }
        ours.overrides(builder.build().expect("globs"));
        globs = Some((root.to_path_buf(), both_cases, taken));
    }
    let mut types = Vec::new();
    if random.one_in(5) {
        types.push((*random.of::<&str>(&["rust", "c"]), false));
        if random.one_in(2) {
            types.push(("rust", true));
        }
        let mut builder = TypesBuilder::new();
        builder.add_defaults();
        for (name, is_negated) in &types {
            match is_negated {
                true => builder.negate(name),
                false => builder.select(name),
            };
        }
        ours.types(builder.build().expect("types"));
    }
    if random.one_in(4) {
        theirs.max_depth = Some(random.below(4));
        ours.max_depth(theirs.max_depth);
    }
    if random.one_in(6) {
        theirs.min_depth = Some(random.below(3)).min(theirs.max_depth.or(Some(9)));
        ours.min_depth(theirs.min_depth);
    }
    let max_filesize = random.one_in(4).then(|| random.below(30) as u64);
    let follow_links = random.one_in(2);
    ours.max_filesize(max_filesize).follow_links(follow_links);
    ours.sort_by_file_name(|one, other| one.cmp(other));
    Chosen {
        ours,
        theirs,
        globs,
        chosen: types,
        follow_links,
        max_filesize,
    }
}

/// The library's builder, which is told the settings here and not by the code that is tested.
fn told_builder(chosen: &Chosen, root: &Path) -> Builder {
    let theirs = &chosen.theirs;
    let mut builder = Builder::new(&told(root));
    builder.switch(Switch::Hidden, theirs.hidden);
    builder.switch(Switch::Parents, theirs.parents);
    builder.switch(Switch::Ignore, theirs.ignore);
    builder.switch(Switch::GitIgnore, theirs.git_ignore);
    builder.switch(Switch::GitGlobal, theirs.git_global);
    builder.switch(Switch::GitExclude, theirs.git_exclude);
    builder.switch(Switch::RequireGit, theirs.require_git);
    builder.switch(Switch::CaseInsensitive, theirs.case_insensitive);
    let cwd = env::current_dir().expect("a folder");
    builder.label(Label::CurrentDir, &told(&cwd));
    for name in &theirs.custom {
        builder.label(Label::Custom, &told(Path::new(name)));
    }
    builder.depth(false, theirs.min_depth);
    builder.depth(true, theirs.max_depth);
    if let Some((root, both_cases, globs)) = &chosen.globs {
        assert!(builder.overrides(&told(root), *both_cases, globs.iter().copied()));
    }
    for (name, globs) in [
        ("rust", &["*.rs"][..]),
        ("c", &["*.[chH]", "*.[chH].in", "*.cats"]),
    ] {
        for glob in globs {
            assert!(builder.type_add(name, glob));
        }
    }
    for (name, is_negated) in &chosen.chosen {
        builder.type_choose(name, *is_negated);
    }
    assert!(builder.set_types());
    builder.follow_links(chosen.follow_links);
    builder.max_filesize(chosen.max_filesize);
    builder
}

/// An entry: its text, how deep it is, what it is, whether it was followed, whether its files of
/// rules have problems.
type Seen = (Vec<u8>, usize, u32, bool, bool);

fn of_ours(entry: &DirEntry) -> Seen {
    let kind = match entry.file_type() {
        Some(kind) if kind.is_file() => 1,
        Some(kind) if kind.is_dir() => 2,
        Some(kind) if kind.is_symlink() => 3,
        Some(_) => 4,
        None => 0,
    };
    let followed = entry.path_is_symlink() && kind != 3;
    let text = told(entry.path()).into_owned();
    (text, entry.depth(), kind, followed, entry.error().is_some())
}

fn of_theirs(item: &Item) -> Seen {
    (
        item.path.clone(),
        item.depth,
        item.kind,
        item.is_followed,
        !item.error.is_empty(),
    )
}

fn in_parallel(builder: &mut WalkBuilder, threads: usize) -> Vec<Result<DirEntry, Error>> {
    let all = Mutex::new(Vec::new());
    builder.threads(threads).build_parallel().run(|| {
        Box::new(|item| {
            all.lock().expect("no panic").push(item);
            WalkState::Continue
        })
    });
    all.into_inner().expect("no panic")
}

fn try_one(seed: u64) {
    let mut random = Random(seed.wrapping_mul(0x9e37_79b9_7f4a_7c15) | 1);
    let mut grown = Grown::at(seed);
    let top = grown.top.clone();
    grown.fill(&mut random, &top, 0);
    let root = match random.below(3) {
        0 if top.join("a").is_dir() => top.join("a"),
        1 if top.join("build").is_dir() => top.join("build"),
        _ => top,
    };
    let mut chosen = choose(&mut random, &root);
    let mut builder = told_builder(&chosen, &root);
    let items = walked(&mut builder, &mut grown.tree);
    let theirs: BTreeSet<Seen> = items
        .iter()
        .filter(|it| it.is_entry)
        .map(of_theirs)
        .collect();
    let their_errors = items.iter().filter(|it| !it.is_entry).count();
    let walks = [0, 1, 4].map(|threads| match threads {
        0 => chosen.ours.build().collect(),
        _ => in_parallel(&mut chosen.ours, threads),
    });
    for (number, walk) in walks.into_iter().enumerate() {
        let entries: Vec<Seen> = walk.iter().flatten().map(of_ours).collect();
        let ours: BTreeSet<Seen> = entries.iter().map(|it| rooted(it, number)).collect();
        let theirs: BTreeSet<Seen> = theirs.iter().map(|it| rooted(it, number)).collect();
        let errors: Vec<String> = walk
            .iter()
            .filter_map(|it| Some(it.as_ref().err()?.to_string()))
            .collect();
        let said = format!("seed {seed}, walk {number}, {:?}", chosen.theirs);
        let missing: Vec<_> = theirs.difference(&ours).map(shown).collect();
        let more: Vec<_> = ours.difference(&theirs).map(shown).collect();
        assert!(
            missing.is_empty() && more.is_empty(),
            "{said}\nmissing {missing:#?}\nmore {more:#?}"
        );
        assert_eq!(entries.len(), ours.len(), "{said}");
        assert_eq!(
            errors.len(),
            their_errors,
            "{said}\n{errors:#?}\n{items:#?}"
        );
    }
}

/// The entry, but for what a root is in a walk by threads: that shows where a link there leads.
fn rooted(seen: &Seen, walk: usize) -> Seen {
    match seen {
        (text, 0, _, _, has_error) if walk > 0 => (text.clone(), 0, 0, false, *has_error),
        other => other.clone(),
    }
}

fn shown(seen: &Seen) -> String {
    format!(
        "{} {:?}",
        String::from_utf8_lossy(&seen.0),
        (seen.1, seen.2, seen.3, seen.4)
    )
}

#[test]
fn walks_are_those_of_the_library() {
    let number = |name: &str| {
        env::var(name)
            .ok()
            .and_then(|text| text.parse::<u64>().ok())
    };
    let first = number("IGNORE_FIRST").unwrap_or(1);
    for seed in first..first + number("IGNORE_TREES").unwrap_or(300) {
        try_one(seed);
    }
}
