//! The library's calls, each as a safe function: a slice is lent for the call, and a handle is
//! owned by one value, which frees it.
//!
//! A handle may go to another thread while no call has it: nothing of a thread is in it, since it
//! keeps what `malloc` gave and nothing else. So the values here are `Send`; they aren't `Sync`,
//! and each call wants the handle for itself.
#![allow(unsafe_code)]

use std::alloc::{handle_alloc_error, Layout};
use std::ptr::null_mut;

macro_rules! owner {
    ($(#[$text:meta])* $name:ident, $free:ident) => {
        $(#[$text])*
        pub struct $name(Handle);

        // Nothing of a thread is in a handle, which has one owner.
        unsafe impl Send for $name {}

        impl Drop for $name {
            fn drop(&mut self) {
                unsafe { $free(Handle { at: self.0.at }) }
            }
        }

        impl std::fmt::Debug for $name {
            fn fmt(&self, f: &mut std::fmt::Formatter<'_>) -> std::fmt::Result {
                f.write_str(stringify!($name))
            }
        }
    };
}

mod guide;

pub use guide::{Fault, Given, Guide, Kind, Problem, Spot, Wanted, What, MOST_PROBLEMS};

const OK: u32 = 0;
const NONE: u32 = 1;
const IGNORE: u32 = 2;
const WHITELIST: u32 = 3;
const NO_MEMORY: u32 = 5;
const REFUSED: u32 = 7;
const OUTSIDE: u32 = 10;

#[repr(C)]
struct Handle {
    at: *mut u8,
}

/// How lines are read.
#[repr(C)]
#[derive(Clone, Copy, Debug, PartialEq, Eq)]
pub struct RuleOptions {
    pub case_insensitive: bool,
    pub allow_unclosed_class: bool,
    pub git_trailing_spaces: bool,
}

/// The rule that decided, by the lengths of its texts.
#[repr(C)]
#[derive(Clone, Copy, Default)]
pub struct Reason {
    pub line: u64,
    pub source: usize,
    pub pattern: usize,
    pub glob: usize,
    pub has_source: bool,
    pub is_only_dir: bool,
}

/// How many rules there are.
#[repr(C)]
#[derive(Clone, Copy, Debug, Default)]
pub struct Counts {
    pub ignores: u64,
    pub whitelists: u64,
}

/// What becomes of a path besides the verdict.
#[repr(C)]
#[derive(Clone, Copy, Default)]
pub struct Found {
    pub should_descend: bool,
    pub is_within_depth: bool,
}

/// An answer for a path.
#[derive(Clone, Copy, Debug, PartialEq, Eq)]
pub enum Verdict {
    None,
    Ignore,
    Whitelist,
}

type At = *mut Handle;
type Text = *const u8;
type TextCall = unsafe extern "C" fn(At, Text, usize) -> u32;
type SwitchCall = unsafe extern "C" fn(At, bool) -> u32;
type LimitCall = unsafe extern "C" fn(At, bool, usize) -> u32;
type DecidedCall = unsafe extern "C" fn(At, Text, usize, bool, *mut Reason, *mut u8, usize) -> u32;

extern "C" {
    fn ignore_tree_new(cwd: Text, length: usize, tree: At) -> u32;
    fn ignore_tree_add_file(tree: At, path: Text, length: usize, bytes: Text, n: usize) -> u32;
    fn ignore_tree_free(tree: Handle);
    fn ignore_builder_new(root: Text, length: usize, builder: At) -> u32;
    fn ignore_builder_add_custom_ignore_filename(builder: At, text: Text, length: usize) -> u32;
    fn ignore_builder_current_dir(builder: At, text: Text, length: usize) -> u32;
    fn ignore_builder_env_current_dir(builder: At, text: Text, length: usize) -> u32;
    fn ignore_builder_env_home(builder: At, text: Text, length: usize) -> u32;
    fn ignore_builder_env_xdg_config_home(builder: At, text: Text, length: usize) -> u32;
    fn ignore_builder_env_git_config_global(builder: At, text: Text, length: usize) -> u32;
    fn ignore_builder_env_git_config_system(builder: At, text: Text, length: usize) -> u32;
    fn ignore_builder_standard_filters(builder: At, on: bool) -> u32;
    fn ignore_builder_hidden(builder: At, on: bool) -> u32;
    fn ignore_builder_parents(builder: At, on: bool) -> u32;
    fn ignore_builder_ignore(builder: At, on: bool) -> u32;
    fn ignore_builder_git_ignore(builder: At, on: bool) -> u32;
    fn ignore_builder_git_global(builder: At, on: bool) -> u32;
    fn ignore_builder_git_exclude(builder: At, on: bool) -> u32;
    fn ignore_builder_require_git(builder: At, on: bool) -> u32;
    fn ignore_builder_ignore_case_insensitive(builder: At, on: bool) -> u32;
    fn ignore_builder_max_depth(builder: At, is_set: bool, most: usize) -> u32;
    fn ignore_builder_min_depth(builder: At, is_set: bool, most: usize) -> u32;
    fn ignore_builder_overrides(builder: At, root: Text, length: usize, both: bool) -> u32;
    fn ignore_builder_add_override(builder: At, glob: Text, length: usize) -> u32;
    fn ignore_builder_set_overrides(builder: At) -> u32;
    fn ignore_builder_type_add(builder: At, name: Text, length: usize, glob: Text, n: usize)
        -> u32;
    fn ignore_builder_type_select(builder: At, name: Text, length: usize) -> u32;
    fn ignore_builder_type_negate(builder: At, name: Text, length: usize) -> u32;
    fn ignore_builder_set_types(builder: At) -> u32;
    fn ignore_builder_add_ignore(builder: At, tree: At, path: Text, length: usize) -> u32;
    fn ignore_builder_problem(builder: At, room: *mut u8, length: usize, whole: *mut usize) -> u32;
    fn ignore_builder_free(builder: Handle);
    fn ignore_builder_max_filesize(builder: At, is_set: bool, most: u64) -> u32;
    fn ignore_rules_new(root: Text, length: usize, options: *const RuleOptions, rules: At) -> u32;
    fn ignore_rules_set_options(rules: At, options: *const RuleOptions) -> u32;
    fn ignore_rules_add_line(rules: At, from: Text, length: usize, line: Text, n: usize) -> u32;
    fn ignore_rules_add_file(rules: At, path: Text, length: usize, text: Text, n: usize) -> u32;
    fn ignore_rules_problem(rules: At, room: *mut u8, length: usize, whole: *mut usize) -> u32;
    fn ignore_rules_build(rules: At) -> u32;
    fn ignore_rules_decided(
        rules: At,
        path: Text,
        length: usize,
        is_dir: bool,
        reason: *mut Reason,
        room: *mut u8,
        room_length: usize,
    ) -> u32;
    fn ignore_rules_decided_path_or_any_parents(
        rules: At,
        path: Text,
        length: usize,
        is_dir: bool,
        reason: *mut Reason,
        room: *mut u8,
        room_length: usize,
    ) -> u32;
    fn ignore_rules_counts(rules: At, counts: *mut Counts) -> u32;
    fn ignore_rules_free(rules: Handle);
}

/// Ends the process where the library is out of memory, as std does; any other code is one that the
/// header rules out here.
fn wrong(code: u32) -> ! {
    if code == NO_MEMORY {
        handle_alloc_error(Layout::new::<[u8; 64]>());
    }
    panic!("the library answers {code}, which its header rules out here")
}

fn done(code: u32) {
    if code != OK {
        wrong(code)
    }
}

/// Whether it did what it is for, or refused.
fn taken(code: u32) -> bool {
    match code {
        OK => true,
        REFUSED => false,
        code => wrong(code),
    }
}

fn verdict(code: u32) -> Verdict {
    match code {
        NONE => Verdict::None,
        IGNORE => Verdict::Ignore,
        WHITELIST => Verdict::Whitelist,
        code => wrong(code),
    }
}

/// A handle that is made by a call.
fn made(call: impl FnOnce(At) -> u32) -> Handle {
    let mut handle = Handle { at: null_mut() };
    done(call(&mut handle));
    handle
}

/// A text that a call puts into a room, which grows until it holds all; empty where there is none.
fn whole_text(mut call: impl FnMut(*mut u8, usize, *mut usize) -> u32) -> String {
    let mut room = vec![0; 512];
    loop {
        let mut whole = 0;
        match call(room.as_mut_ptr(), room.len(), &mut whole) {
            NONE => return String::new(),
            code => done(code),
        }
        if whole <= room.len() {
            room.truncate(whole);
            return String::from_utf8_lossy(&room).into_owned();
        }
        room.resize(whole, 0);
    }
}

owner!(
    /// Rules of gitignore lines.
    Rules,
    ignore_rules_free
);
owner!(
    /// A tree of files, as it is told.
    Tree,
    ignore_tree_free
);
owner!(
    /// What a matcher goes by.
    Builder,
    ignore_builder_free
);
impl Rules {
    /// Rules of a root, without lines.
    pub fn new(root: &[u8], options: &RuleOptions) -> Rules {
        Rules(made(|at| unsafe {
            ignore_rules_new(root.as_ptr(), root.len(), options, at)
        }))
    }

    pub fn set_options(&mut self, options: &RuleOptions) {
        done(unsafe { ignore_rules_set_options(&mut self.0, options) })
    }

    /// Adds a line with a label. Where it is refused nothing is added.
    pub fn add_line(&mut self, label: &[u8], line: &[u8]) -> bool {
        let (from, line) = ((label.as_ptr(), label.len()), (line.as_ptr(), line.len()));
        taken(unsafe { ignore_rules_add_line(&mut self.0, from.0, from.1, line.0, line.1) })
    }

    /// Adds a file's lines with a label. Where some are refused the others are added.
    pub fn add_file(&mut self, label: &[u8], text: &[u8]) -> bool {
        let (path, text) = ((label.as_ptr(), label.len()), (text.as_ptr(), text.len()));
        taken(unsafe { ignore_rules_add_file(&mut self.0, path.0, path.1, text.0, text.1) })
    }

    /// What is wrong with what was added last.
    pub fn problem(&mut self) -> String {
        whole_text(|room, n, whole| unsafe { ignore_rules_problem(&mut self.0, room, n, whole) })
    }

    /// Makes the matcher, to which nothing is added any more, and counts its rules.
    pub fn build(&mut self) -> Counts {
        let mut counts = Counts::default();
        done(unsafe { ignore_rules_build(&mut self.0) });
        done(unsafe { ignore_rules_counts(&mut self.0, &mut counts) });
        counts
    }

    /// The answer for the path, alone or with its parents; the rule that decided in `reason` and
    /// `room`. `None`: the path isn't below the root.
    pub fn decided(
        &mut self,
        path: &[u8],
        is_dir: bool,
        with_parents: bool,
        reason: &mut Reason,
        room: &mut [u8],
    ) -> Option<Verdict> {
        let ask: DecidedCall = if with_parents {
            ignore_rules_decided_path_or_any_parents
        } else {
            ignore_rules_decided
        };
        let (to, most) = (room.as_mut_ptr(), room.len());
        match unsafe {
            ask(
                &mut self.0,
                path.as_ptr(),
                path.len(),
                is_dir,
                reason,
                to,
                most,
            )
        } {
            OUTSIDE => None,
            code => Some(verdict(code)),
        }
    }
}

impl Tree {
    /// A tree with this working directory, if the library takes it as one.
    pub fn new(cwd: &[u8]) -> Tree {
        Tree(made(|at| unsafe {
            ignore_tree_new(cwd.as_ptr(), cwd.len(), at)
        }))
    }

    /// Adds a file. Whether it was told; what doesn't fit into the tree is left out of it.
    pub fn add_file(&mut self, path: &[u8], bytes: &[u8]) -> bool {
        let (at, n) = (bytes.as_ptr(), bytes.len());
        was_told(unsafe { ignore_tree_add_file(&mut self.0, path.as_ptr(), path.len(), at, n) })
    }
}

#[cfg(test)]
impl Tree {
    pub fn add_dir(&mut self, path: &[u8]) -> bool {
        was_told(unsafe { ignore_tree_add_dir(&mut self.0, path.as_ptr(), path.len()) })
    }

    pub fn add_link(&mut self, path: &[u8], target: &[u8]) -> bool {
        let (at, n) = (target.as_ptr(), target.len());
        was_told(unsafe { ignore_tree_add_link(&mut self.0, path.as_ptr(), path.len(), at, n) })
    }
}

/// Whether something was told to a tree.
fn was_told(code: u32) -> bool {
    if code == NO_MEMORY {
        wrong(code)
    }
    code == OK
}

/// A setting that is on or off.
#[derive(Clone, Copy)]
pub enum Switch {
    StandardFilters,
    Hidden,
    Parents,
    Ignore,
    GitIgnore,
    GitGlobal,
    GitExclude,
    RequireGit,
    CaseInsensitive,
}

/// A text that is told of a builder.
#[derive(Clone, Copy)]
pub enum Label {
    Custom,
    RulesDir,
    CurrentDir,
    Home,
    ConfigHome,
    GitGlobal,
    GitSystem,
}

impl Builder {
    /// A builder with one root.
    pub fn new(root: &[u8]) -> Builder {
        Builder(made(|at| unsafe {
            ignore_builder_new(root.as_ptr(), root.len(), at)
        }))
    }

    pub fn switch(&mut self, which: Switch, on: bool) {
        let call: SwitchCall = match which {
            Switch::StandardFilters => ignore_builder_standard_filters,
            Switch::Hidden => ignore_builder_hidden,
            Switch::Parents => ignore_builder_parents,
            Switch::Ignore => ignore_builder_ignore,
            Switch::GitIgnore => ignore_builder_git_ignore,
            Switch::GitGlobal => ignore_builder_git_global,
            Switch::GitExclude => ignore_builder_git_exclude,
            Switch::RequireGit => ignore_builder_require_git,
            Switch::CaseInsensitive => ignore_builder_ignore_case_insensitive,
        };
        done(unsafe { call(&mut self.0, on) })
    }

    fn text(&mut self, call: TextCall, text: &[u8]) -> u32 {
        unsafe { call(&mut self.0, text.as_ptr(), text.len()) }
    }

    pub fn label(&mut self, which: Label, text: &[u8]) {
        let call: TextCall = match which {
            Label::Custom => ignore_builder_add_custom_ignore_filename,
            Label::RulesDir => ignore_builder_current_dir,
            Label::CurrentDir => ignore_builder_env_current_dir,
            Label::Home => ignore_builder_env_home,
            Label::ConfigHome => ignore_builder_env_xdg_config_home,
            Label::GitGlobal => ignore_builder_env_git_config_global,
            Label::GitSystem => ignore_builder_env_git_config_system,
        };
        done(self.text(call, text))
    }

    pub fn depth(&mut self, is_greatest: bool, depth: Option<usize>) {
        let call: LimitCall = match is_greatest {
            true => ignore_builder_max_depth,
            false => ignore_builder_min_depth,
        };
        done(unsafe { call(&mut self.0, depth.is_some(), depth.unwrap_or(0)) })
    }

    /// The size above which a file is ignored.
    pub fn max_filesize(&mut self, most: Option<u64>) {
        let (is_set, most) = (most.is_some(), most.unwrap_or(0));
        done(unsafe { ignore_builder_max_filesize(&mut self.0, is_set, most) })
    }

    /// Takes the globs of a command line. Whether each is one.
    pub fn overrides<'g>(
        &mut self,
        root: &[u8],
        both_cases: bool,
        globs: impl Iterator<Item = &'g str>,
    ) -> bool {
        let (at, n) = (root.as_ptr(), root.len());
        done(unsafe { ignore_builder_overrides(&mut self.0, at, n, both_cases) });
        for glob in globs {
            if !taken(self.text(ignore_builder_add_override, glob.as_bytes())) {
                return false;
            }
        }
        done(unsafe { ignore_builder_set_overrides(&mut self.0) });
        true
    }

    /// Adds a glob to a file type.
    pub fn type_add(&mut self, name: &str, glob: &str) -> bool {
        let (glob, n) = (glob.as_ptr(), glob.len());
        taken(unsafe { ignore_builder_type_add(&mut self.0, name.as_ptr(), name.len(), glob, n) })
    }

    /// Chooses a file type, to be kept or to be ignored.
    pub fn type_choose(&mut self, name: &str, is_negated: bool) {
        let call: TextCall = match is_negated {
            true => ignore_builder_type_negate,
            false => ignore_builder_type_select,
        };
        done(self.text(call, name.as_bytes()))
    }

    /// Has the choice of types count. Whether each has a definition, and its globs are globs.
    pub fn set_types(&mut self) -> bool {
        taken(unsafe { ignore_builder_set_types(&mut self.0) })
    }

    /// Adds a file of rules of a tree. Invalid lines are left out.
    pub fn add_ignore(&mut self, tree: &mut Tree, path: &[u8]) {
        let (at, n) = (path.as_ptr(), path.len());
        taken(unsafe { ignore_builder_add_ignore(&mut self.0, &mut tree.0, at, n) });
    }

    /// What was wrong with what was told last.
    pub fn problem(&mut self) -> String {
        whole_text(|room, n, whole| unsafe { ignore_builder_problem(&mut self.0, room, n, whole) })
    }
}

/// An item of the library's own walk, with which tests compare.
#[cfg(test)]
#[derive(Debug)]
pub struct Item {
    pub path: Vec<u8>,
    pub error: String,
    pub depth: usize,
    pub kind: u32,
    pub is_entry: bool,
    pub is_followed: bool,
}

#[cfg(test)]
#[repr(C)]
#[derive(Default)]
struct WalkEntry {
    path: usize,
    error: usize,
    depth: usize,
    kind: u32,
    is_entry: bool,
    is_followed: bool,
}

#[cfg(test)]
extern "C" {
    fn ignore_tree_add_dir(tree: At, path: Text, length: usize) -> u32;
    fn ignore_tree_add_link(tree: At, path: Text, length: usize, target: Text, n: usize) -> u32;
    fn ignore_builder_follow_links(builder: At, on: bool) -> u32;
    fn ignore_walk_new(builder: At, tree: At, walk: At) -> u32;
    fn ignore_walk_next(walk: At, entry: *mut WalkEntry, room: *mut u8, length: usize) -> u32;
    fn ignore_walk_free(walk: Handle);
}

#[cfg(test)]
impl Builder {
    /// Whether a walk follows links.
    pub fn follow_links(&mut self, yes: bool) {
        done(unsafe { ignore_builder_follow_links(&mut self.0, yes) });
    }
}

/// The items of the library's own walk over a tree.
#[cfg(test)]
pub fn walked(builder: &mut Builder, tree: &mut Tree) -> Vec<Item> {
    let mut walk = made(|at| unsafe { ignore_walk_new(&mut builder.0, &mut tree.0, at) });
    let (mut room, mut items) = (vec![0; 1 << 16], Vec::new());
    loop {
        let mut entry = WalkEntry::default();
        let (to, most) = (room.as_mut_ptr(), room.len());
        match unsafe { ignore_walk_next(&mut walk, &mut entry, to, most) } {
            NONE => break,
            code => done(code),
        }
        let (path, rest) = room.split_at(entry.path);
        items.push(Item {
            path: path.to_vec(),
            error: String::from_utf8_lossy(&rest[..entry.error]).into_owned(),
            depth: entry.depth,
            kind: entry.kind,
            is_entry: entry.is_entry,
            is_followed: entry.is_followed,
        });
    }
    unsafe { ignore_walk_free(walk) };
    items
}
