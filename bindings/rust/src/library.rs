//! The library's calls, each as a safe function: a slice is lent for the call, and a handle is
//! owned by one value, which frees it.
//!
//! Between two calls a handle may go to another thread, as the header says: it leads to memory that
//! `malloc` gave, and to nothing else. So the values here are `Send`; they aren't `Sync`, since each
//! call wants the handle for itself.
#![allow(unsafe_code)]

mod every;

pub use every::{Comparing, DifferenceParts, FindingParts, Findings};

use std::ptr::null_mut;

pub const OK: u32 = 0;
pub const NONE: u32 = 1;
pub const IGNORE: u32 = 2;
pub const WHITELIST: u32 = 3;
pub const NOT_UTF8: u32 = 4;
pub const NO_MEMORY: u32 = 5;
pub const REFUSED: u32 = 7;
pub const OUTSIDE: u32 = 10;
pub const TOO_LARGE: u32 = 17;
/// Of `same` alone.
pub const DIFFERENT: u32 = 1;
const WANTS: u32 = 16;
const NO_FAULT: u32 = 255;
/// No size is known.
pub const NO_SIZE: u64 = u64::MAX;

#[repr(C)]
#[derive(Clone, Copy)]
struct Handle {
    at: *mut u8,
}

/// How lines are read.
#[repr(C)]
#[derive(Clone, Copy)]
pub struct RuleOptions {
    pub case_insensitive: bool,
    pub allow_unclosed_class: bool,
    pub git_trailing_spaces: bool,
}

/// The rule that decided, by the lengths of its texts.
#[repr(C)]
#[derive(Clone, Copy, Default)]
pub struct Reason {
    pub line: u64,
    pub source: usize,
    pub pattern: usize,
    pub glob: usize,
    pub has_source: bool,
    pub is_only_dir: bool,
}

/// How many rules there are.
#[repr(C)]
#[derive(Clone, Copy, Default)]
pub struct Counts {
    pub ignores: u64,
    pub whitelists: u64,
}

/// What becomes of a path besides the verdict.
#[repr(C)]
#[derive(Clone, Copy, Default)]
pub struct Found {
    pub should_descend: bool,
    pub is_within_depth: bool,
}

/// Why a matcher answers as it does, by the lengths of the texts.
#[repr(C)]
#[derive(Clone, Copy, Default)]
pub struct Why {
    pub kind: u32,
    pub rank: u32,
    pub line: u64,
    pub size: u64,
    pub limit: u64,
    pub directory: usize,
    pub source: usize,
    pub pattern: usize,
    pub glob: usize,
    pub ancestor: usize,
    pub has_source: bool,
    pub is_inside: bool,
}

/// A directory that was entered and not left.
#[repr(C)]
#[derive(Clone, Copy, Debug, Default, PartialEq, Eq)]
pub struct Spot {
    index: usize,
    serial: u64,
}

/// What a guide wants to know of a path.
#[derive(Clone, Copy, Debug, PartialEq, Eq)]
pub enum Wanted {
    Kind,
    File,
    Canonical,
}

/// What a guide is told of a path: what is there (0 nothing, 1 a file, 2 a directory, 4 something
/// else), and what was read, or the number of the fault by which it wasn't.
pub struct Given {
    pub kind: u32,
    pub bytes: Vec<u8>,
    pub fault: Option<u32>,
}

type TextCall = unsafe extern "C" fn(*mut Handle, *const u8, usize) -> u32;
type SwitchCall = unsafe extern "C" fn(*mut Handle, bool) -> u32;
type LimitCall = unsafe extern "C" fn(*mut Handle, bool, usize) -> u32;
type DecidedCall =
    unsafe extern "C" fn(*mut Handle, *const u8, usize, bool, *mut Reason, *mut u8, usize) -> u32;

/// How rules are asked about a path: by itself, or else its nearest parent that has a match, or from
/// the root down.
#[derive(Clone, Copy)]
pub enum Manner {
    Alone,
    WithParents,
    AsGit,
}

extern "C" {
    fn ignore_tree_new(cwd: *const u8, length: usize, tree: *mut Handle) -> u32;
    fn ignore_tree_free(tree: Handle);
    fn ignore_builder_new(root: *const u8, length: usize, builder: *mut Handle) -> u32;
    fn ignore_builder_add_custom_ignore_filename(
        builder: *mut Handle,
        text: *const u8,
        length: usize,
    ) -> u32;
    fn ignore_builder_env_current_dir(builder: *mut Handle, text: *const u8, length: usize) -> u32;
    fn ignore_builder_env_home(builder: *mut Handle, text: *const u8, length: usize) -> u32;
    fn ignore_builder_env_xdg_config_home(
        builder: *mut Handle,
        text: *const u8,
        length: usize,
    ) -> u32;
    fn ignore_builder_env_git_config_global(
        builder: *mut Handle,
        text: *const u8,
        length: usize,
    ) -> u32;
    fn ignore_builder_env_git_config_system(
        builder: *mut Handle,
        text: *const u8,
        length: usize,
    ) -> u32;
    fn ignore_builder_standard_filters(builder: *mut Handle, on: bool) -> u32;
    fn ignore_builder_hidden(builder: *mut Handle, on: bool) -> u32;
    fn ignore_builder_parents(builder: *mut Handle, on: bool) -> u32;
    fn ignore_builder_ignore(builder: *mut Handle, on: bool) -> u32;
    fn ignore_builder_git_ignore(builder: *mut Handle, on: bool) -> u32;
    fn ignore_builder_git_global(builder: *mut Handle, on: bool) -> u32;
    fn ignore_builder_git_exclude(builder: *mut Handle, on: bool) -> u32;
    fn ignore_builder_require_git(builder: *mut Handle, on: bool) -> u32;
    fn ignore_builder_ignore_case_insensitive(builder: *mut Handle, on: bool) -> u32;
    fn ignore_builder_git_trailing_spaces(builder: *mut Handle, on: bool) -> u32;
    fn ignore_builder_max_depth(builder: *mut Handle, is_set: bool, most: usize) -> u32;
    fn ignore_builder_min_depth(builder: *mut Handle, is_set: bool, most: usize) -> u32;
    fn ignore_builder_max_filesize(builder: *mut Handle, is_set: bool, most: u64) -> u32;
    fn ignore_builder_free(builder: Handle);
    fn ignore_matcher_new(builder: *mut Handle, tree: *mut Handle, matcher: *mut Handle) -> u32;
    fn ignore_matcher_normalize(
        matcher: *mut Handle,
        path: *const u8,
        length: usize,
        room: *mut u8,
        room_length: usize,
        whole: *mut usize,
    ) -> u32;
    fn ignore_matcher_free(matcher: Handle);
    fn ignore_guide_new(builder: *mut Handle, guide: *mut Handle) -> u32;
    fn ignore_guide_root(
        guide: *mut Handle,
        root: *const u8,
        length: usize,
        place: *mut Spot,
    ) -> u32;
    fn ignore_guide_enter(
        guide: *mut Handle,
        parent: *const Spot,
        name: *const u8,
        length: usize,
        names: *const u8,
        names_length: usize,
        place: *mut Spot,
    ) -> u32;
    fn ignore_guide_wanted(
        guide: *mut Handle,
        wanted: *mut u32,
        room: *mut u8,
        length: usize,
        whole: *mut usize,
    ) -> u32;
    fn ignore_guide_give(
        guide: *mut Handle,
        kind: u32,
        bytes: *const u8,
        length: usize,
        fault: u32,
        place: *mut Spot,
    ) -> u32;
    fn ignore_guide_decide(
        guide: *mut Handle,
        place: *const Spot,
        name: *const u8,
        length: usize,
        is_dir: bool,
        size: u64,
        found: *mut Found,
    ) -> u32;
    fn ignore_guide_decide_all(
        guide: *mut Handle,
        place: *const Spot,
        names: *const u8,
        names_length: usize,
        kinds: *const u8,
        count: usize,
        sizes: *const u64,
        sizes_length: usize,
        codes: *mut u8,
        codes_length: usize,
    ) -> u32;
    fn ignore_guide_why(
        guide: *mut Handle,
        place: *const Spot,
        name: *const u8,
        length: usize,
        is_dir: bool,
        size: u64,
        found: *mut Found,
        why: *mut Why,
        room: *mut u8,
        room_length: usize,
    ) -> u32;
    fn ignore_guide_leave(guide: *mut Handle, place: *const Spot) -> u32;
    fn ignore_guide_free(guide: Handle);
    fn ignore_rules_new(
        root: *const u8,
        length: usize,
        options: *const RuleOptions,
        rules: *mut Handle,
    ) -> u32;
    fn ignore_rules_set_options(rules: *mut Handle, options: *const RuleOptions) -> u32;
    fn ignore_rules_add_line(
        rules: *mut Handle,
        from: *const u8,
        from_length: usize,
        line: *const u8,
        length: usize,
    ) -> u32;
    fn ignore_rules_add_file(
        rules: *mut Handle,
        path: *const u8,
        path_length: usize,
        text: *const u8,
        length: usize,
    ) -> u32;
    fn ignore_rules_problem(
        rules: *mut Handle,
        room: *mut u8,
        length: usize,
        whole: *mut usize,
    ) -> u32;
    fn ignore_rules_build(rules: *mut Handle) -> u32;
    fn ignore_rules_decided(
        rules: *mut Handle,
        path: *const u8,
        length: usize,
        is_dir: bool,
        reason: *mut Reason,
        room: *mut u8,
        room_length: usize,
    ) -> u32;
    fn ignore_rules_decided_path_or_any_parents(
        rules: *mut Handle,
        path: *const u8,
        length: usize,
        is_dir: bool,
        reason: *mut Reason,
        room: *mut u8,
        room_length: usize,
    ) -> u32;
    fn ignore_rules_decided_as_git(
        rules: *mut Handle,
        path: *const u8,
        length: usize,
        is_dir: bool,
        reason: *mut Reason,
        room: *mut u8,
        room_length: usize,
    ) -> u32;
    fn ignore_rules_matched(
        rules: *mut Handle,
        path: *const u8,
        length: usize,
        is_dir: bool,
    ) -> u32;
    fn ignore_rules_rule(
        rules: *mut Handle,
        index: usize,
        reason: *mut Reason,
        room: *mut u8,
        room_length: usize,
    ) -> u32;
    fn ignore_rules_counts(rules: *mut Handle, counts: *mut Counts) -> u32;
    fn ignore_rules_free(rules: Handle);
}

// Nothing of a thread is in a handle, which has one owner.
unsafe impl Send for Handle {}

/// A handle of rules, which it owns.
pub struct Rules(Handle);

impl Rules {
    /// Rules of a root, or the code of why there are none.
    pub fn new(root: &[u8], options: &RuleOptions) -> Result<Rules, u32> {
        let mut handle = Handle { at: null_mut() };
        match unsafe { ignore_rules_new(root.as_ptr(), root.len(), options, &mut handle) } {
            OK => Ok(Rules(handle)),
            code => Err(code),
        }
    }

    pub fn set_options(&mut self, options: &RuleOptions) -> u32 {
        unsafe { ignore_rules_set_options(&mut self.0, options) }
    }

    pub fn add_line(&mut self, from: &[u8], line: &[u8]) -> u32 {
        unsafe {
            ignore_rules_add_line(
                &mut self.0,
                from.as_ptr(),
                from.len(),
                line.as_ptr(),
                line.len(),
            )
        }
    }

    pub fn add_file(&mut self, path: &[u8], text: &[u8]) -> u32 {
        unsafe {
            ignore_rules_add_file(
                &mut self.0,
                path.as_ptr(),
                path.len(),
                text.as_ptr(),
                text.len(),
            )
        }
    }

    pub fn problem(&mut self, room: &mut [u8], whole: &mut usize) -> u32 {
        unsafe { ignore_rules_problem(&mut self.0, room.as_mut_ptr(), room.len(), whole) }
    }

    pub fn build(&mut self) -> u32 {
        unsafe { ignore_rules_build(&mut self.0) }
    }

    pub fn matched(&mut self, path: &[u8], is_dir: bool) -> u32 {
        unsafe { ignore_rules_matched(&mut self.0, path.as_ptr(), path.len(), is_dir) }
    }

    /// The answer for the path in a manner; the rule that decided in `reason` and `room`.
    pub fn decided(
        &mut self,
        path: &[u8],
        is_dir: bool,
        manner: Manner,
        reason: &mut Reason,
        room: &mut [u8],
    ) -> u32 {
        let ask: DecidedCall = match manner {
            Manner::Alone => ignore_rules_decided,
            Manner::WithParents => ignore_rules_decided_path_or_any_parents,
            Manner::AsGit => ignore_rules_decided_as_git,
        };
        unsafe {
            ask(
                &mut self.0,
                path.as_ptr(),
                path.len(),
                is_dir,
                reason,
                room.as_mut_ptr(),
                room.len(),
            )
        }
    }

    /// The rule at an index, in `reason` and `room`.
    pub fn rule(&mut self, index: usize, reason: &mut Reason, room: &mut [u8]) -> u32 {
        unsafe { ignore_rules_rule(&mut self.0, index, reason, room.as_mut_ptr(), room.len()) }
    }

    pub fn counts(&mut self, counts: &mut Counts) -> u32 {
        unsafe { ignore_rules_counts(&mut self.0, counts) }
    }
}

impl Drop for Rules {
    fn drop(&mut self) {
        unsafe { ignore_rules_free(self.0) }
    }
}

/// A handle that is made by a call, or the code of why there is none.
fn made(call: impl FnOnce(*mut Handle) -> u32) -> Result<Handle, u32> {
    let mut handle = Handle { at: null_mut() };
    match call(&mut handle) {
        OK => Ok(handle),
        code => Err(code),
    }
}

/// A tree of files, which it owns.
pub struct Tree(Handle);

impl Tree {
    /// A tree with this working directory.
    pub fn new(cwd: &[u8]) -> Result<Tree, u32> {
        made(|at| unsafe { ignore_tree_new(cwd.as_ptr(), cwd.len(), at) }).map(Tree)
    }
}

impl Drop for Tree {
    fn drop(&mut self) {
        unsafe { ignore_tree_free(self.0) }
    }
}

/// A setting that is on or off.
#[derive(Clone, Copy)]
pub enum Switch {
    StandardFilters,
    Hidden,
    Parents,
    Ignore,
    GitIgnore,
    GitGlobal,
    GitExclude,
    RequireGit,
    CaseInsensitive,
    TrailingSpaces,
}

/// A text that is told of a builder.
#[derive(Clone, Copy)]
pub enum Label {
    Custom,
    CurrentDir,
    Home,
    ConfigHome,
    GitGlobal,
    GitSystem,
}

/// A builder, which it owns.
pub struct Builder(Handle);

impl Builder {
    /// A builder with one root.
    pub fn new(root: &[u8]) -> Result<Builder, u32> {
        made(|at| unsafe { ignore_builder_new(root.as_ptr(), root.len(), at) }).map(Builder)
    }

    pub fn switch(&mut self, which: Switch, on: bool) -> u32 {
        let call: SwitchCall = match which {
            Switch::StandardFilters => ignore_builder_standard_filters,
            Switch::Hidden => ignore_builder_hidden,
            Switch::Parents => ignore_builder_parents,
            Switch::Ignore => ignore_builder_ignore,
            Switch::GitIgnore => ignore_builder_git_ignore,
            Switch::GitGlobal => ignore_builder_git_global,
            Switch::GitExclude => ignore_builder_git_exclude,
            Switch::RequireGit => ignore_builder_require_git,
            Switch::CaseInsensitive => ignore_builder_ignore_case_insensitive,
            Switch::TrailingSpaces => ignore_builder_git_trailing_spaces,
        };
        unsafe { call(&mut self.0, on) }
    }

    pub fn label(&mut self, which: Label, text: &[u8]) -> u32 {
        let call: TextCall = match which {
            Label::Custom => ignore_builder_add_custom_ignore_filename,
            Label::CurrentDir => ignore_builder_env_current_dir,
            Label::Home => ignore_builder_env_home,
            Label::ConfigHome => ignore_builder_env_xdg_config_home,
            Label::GitGlobal => ignore_builder_env_git_config_global,
            Label::GitSystem => ignore_builder_env_git_config_system,
        };
        unsafe { call(&mut self.0, text.as_ptr(), text.len()) }
    }

    pub fn depth(&mut self, is_greatest: bool, depth: Option<usize>) -> u32 {
        let call: LimitCall = match is_greatest {
            true => ignore_builder_max_depth,
            false => ignore_builder_min_depth,
        };
        unsafe { call(&mut self.0, depth.is_some(), depth.unwrap_or(0)) }
    }

    pub fn max_filesize(&mut self, size: Option<u64>) -> u32 {
        unsafe { ignore_builder_max_filesize(&mut self.0, size.is_some(), size.unwrap_or(0)) }
    }
}

impl Drop for Builder {
    fn drop(&mut self) {
        unsafe { ignore_builder_free(self.0) }
    }
}

/// A matcher of single paths, which it owns.
pub struct Matcher(Handle);

impl Matcher {
    /// The matcher of a builder with one root.
    pub fn new(builder: &mut Builder, tree: &mut Tree) -> Result<Matcher, u32> {
        made(|at| unsafe { ignore_matcher_new(&mut builder.0, &mut tree.0, at) }).map(Matcher)
    }

    pub fn normalize(&mut self, path: &[u8], room: &mut [u8], whole: &mut usize) -> u32 {
        let (at, length) = (path.as_ptr(), path.len());
        let (to, most) = (room.as_mut_ptr(), room.len());
        unsafe { ignore_matcher_normalize(&mut self.0, at, length, to, most, whole) }
    }
}

impl Drop for Matcher {
    fn drop(&mut self) {
        unsafe { ignore_matcher_free(self.0) }
    }
}

/// What decides in the directories that were entered and not left, which it owns.
pub struct Guide(Handle);

/// Answers a guide: what it wants to know of the path that it knows by a text.
pub type Answer<'a> = &'a mut dyn FnMut(Wanted, &[u8]) -> Given;

impl Guide {
    /// The guide of a builder.
    pub fn new(builder: &mut Builder) -> Result<Guide, u32> {
        made(|at| unsafe { ignore_guide_new(&mut builder.0, at) }).map(Guide)
    }

    /// Begins a root, and returns its place, or the code of why it has none.
    pub fn root(&mut self, root: &[u8], answer: Answer<'_>) -> Result<Spot, u32> {
        let mut place = Spot::default();
        let (at, length) = (root.as_ptr(), root.len());
        let code = unsafe { ignore_guide_root(&mut self.0, at, length, &mut place) };
        self.answered(code, place, answer)
    }

    /// Enters the directory of a name in another. What it lists is told where there are names, each
    /// ended by a zero.
    pub fn enter(
        &mut self,
        parent: Spot,
        name: &[u8],
        names: &[u8],
        answer: Answer<'_>,
    ) -> Result<Spot, u32> {
        let mut place = Spot::default();
        let (at, length) = (name.as_ptr(), name.len());
        let (names, most) = (names.as_ptr(), names.len());
        let (handle, to) = (&mut self.0, &mut place);
        let code = unsafe { ignore_guide_enter(handle, &parent, at, length, names, most, to) };
        self.answered(code, place, answer)
    }

    /// Gives what a call wants to know, until it has a place.
    fn answered(&mut self, code: u32, place: Spot, answer: Answer<'_>) -> Result<Spot, u32> {
        let (mut code, mut place, mut room) = (code, place, Vec::new());
        while code == WANTS {
            let (wanted, path) = self.wanted(&mut room)?;
            let given = answer(wanted, path);
            let (at, length) = (given.bytes.as_ptr(), given.bytes.len());
            let (kind, fault) = (given.kind, given.fault.unwrap_or(NO_FAULT));
            code = unsafe { ignore_guide_give(&mut self.0, kind, at, length, fault, &mut place) };
        }
        match code {
            OK => Ok(place),
            code => Err(code),
        }
    }

    fn wanted<'r>(&mut self, room: &'r mut Vec<u8>) -> Result<(Wanted, &'r [u8]), u32> {
        let (mut wanted, mut whole) = (0, 256);
        loop {
            room.resize(room.len().max(whole), 0);
            let (to, most) = (room.as_mut_ptr(), room.len());
            let asked =
                unsafe { ignore_guide_wanted(&mut self.0, &mut wanted, to, most, &mut whole) };
            match asked {
                OK if whole <= room.len() => break,
                OK => {}
                code => return Err(code),
            }
        }
        let wanted = match wanted {
            1 => Wanted::Kind,
            2 => Wanted::File,
            _ => Wanted::Canonical,
        };
        Ok((wanted, &room[..whole]))
    }

    /// What becomes of an entry of a directory that was entered.
    pub fn decide(
        &mut self,
        place: Spot,
        name: &[u8],
        is_dir: bool,
        size: u64,
        found: &mut Found,
    ) -> u32 {
        let (at, length) = (name.as_ptr(), name.len());
        unsafe { ignore_guide_decide(&mut self.0, &place, at, length, is_dir, size, found) }
    }

    /// What becomes of each name of a listing, each ended by a zero, with its kind: a number for
    /// each, of the answer, and 4 where a walk descends, and 8 where it is within depth.
    pub fn decide_all(
        &mut self,
        place: Spot,
        names: &[u8],
        kinds: &[u8],
        codes: &mut Vec<u8>,
    ) -> u32 {
        codes.clear();
        codes.resize(kinds.len(), 0);
        let no_sizes: &[u64] = &[];
        unsafe {
            ignore_guide_decide_all(
                &mut self.0,
                &place,
                names.as_ptr(),
                names.len(),
                kinds.as_ptr(),
                kinds.len(),
                no_sizes.as_ptr(),
                0,
                codes.as_mut_ptr(),
                codes.len(),
            )
        }
    }

    /// The same, and why.
    pub fn why(
        &mut self,
        place: Spot,
        asked: (&[u8], bool, u64),
        found: &mut Found,
        why: &mut Why,
        room: &mut [u8],
    ) -> u32 {
        let (name, is_dir, size) = asked;
        let (at, length) = (name.as_ptr(), name.len());
        let (to, most) = (room.as_mut_ptr(), room.len());
        let handle = &mut self.0;
        unsafe { ignore_guide_why(handle, &place, at, length, is_dir, size, found, why, to, most) }
    }

    /// Leaves a directory.
    pub fn leave(&mut self, place: Spot) -> u32 {
        unsafe { ignore_guide_leave(&mut self.0, &place) }
    }
}

impl Drop for Guide {
    fn drop(&mut self) {
        unsafe { ignore_guide_free(self.0) }
    }
}
