//! Guides: what decides in the directories that a host entered and didn't leave.

use super::{done, made, verdict, At, Builder, Found, Handle, Text, Verdict, NONE};
use std::sync::Arc;

const WANTS: u32 = 16;
const NO_FAULT: u32 = 255;
const NO_SIZE: u64 = u64::MAX;

/// A directory that was entered and not left.
#[repr(C)]
#[derive(Clone, Copy, Debug, Default, PartialEq, Eq)]
pub struct Spot {
    index: usize,
    serial: u64,
}

/// A part of what is wrong with files of rules, by the lengths of its texts.
#[repr(C)]
#[derive(Clone, Copy, Default)]
struct Parts {
    kind: u32,
    fault: u32,
    line: u64,
    path: usize,
    glob: usize,
    text: usize,
    has_path: bool,
    has_glob: bool,
}

/// What a guide wants to know of a path.
#[derive(Clone, Copy, Debug, PartialEq, Eq)]
pub enum Wanted {
    Kind,
    File,
    Canonical,
}

/// Why something can't be read.
#[derive(Clone, Copy, Debug, PartialEq, Eq)]
#[repr(u32)]
pub enum Fault {
    NotFound = 0,
    PermissionDenied = 1,
    NotADirectory = 2,
    IsADirectory = 3,
    InvalidData = 4,
    LinkLimit = 6,
    Other = 11,
}

impl Fault {
    fn of(number: u32) -> Fault {
        match number {
            0 => Fault::NotFound,
            1 => Fault::PermissionDenied,
            2 => Fault::NotADirectory,
            3 => Fault::IsADirectory,
            4 => Fault::InvalidData,
            6 => Fault::LinkLimit,
            _ => Fault::Other,
        }
    }
}

/// What is at a path.
#[derive(Clone, Copy, Debug, PartialEq, Eq)]
#[repr(u32)]
pub enum Kind {
    Nothing = 0,
    File = 1,
    Dir = 2,
    Other = 4,
}

/// What a guide is told of a path: what is there, and what was read, or why it wasn't.
#[derive(Clone, Debug)]
pub struct Given {
    pub kind: Kind,
    pub bytes: Arc<Vec<u8>>,
    pub fault: Option<Fault>,
}

/// What is wrong with a file of rules.
#[derive(Clone, Debug, PartialEq, Eq)]
pub enum What {
    /// The file couldn't be read, or not to its end.
    Fault(Fault),
    /// A glob is invalid.
    Glob(Option<String>),
    /// Something else.
    Other,
}

/// The most problems of a directory that are told: each is looked for from the first one on.
pub const MOST_PROBLEMS: usize = 100;

/// A part of what is wrong with files of rules.
#[derive(Clone, Debug, PartialEq, Eq)]
pub struct Problem {
    pub what: What,
    pub path: Option<Vec<u8>>,
    pub line: u64,
    /// What is wrong, in words.
    pub text: String,
}

extern "C" {
    fn ignore_guide_new(builder: At, guide: At) -> u32;
    fn ignore_guide_root(guide: At, root: Text, length: usize, place: *mut Spot) -> u32;
    fn ignore_guide_enter(
        guide: At,
        parent: *const Spot,
        name: Text,
        length: usize,
        names: Text,
        n: usize,
        place: *mut Spot,
    ) -> u32;
    fn ignore_guide_wanted(
        guide: At,
        wanted: *mut u32,
        room: *mut u8,
        length: usize,
        whole: *mut usize,
    ) -> u32;
    fn ignore_guide_give(
        guide: At,
        kind: u32,
        bytes: Text,
        n: usize,
        fault: u32,
        place: *mut Spot,
    ) -> u32;
    fn ignore_guide_decide(
        guide: At,
        place: *const Spot,
        name: Text,
        length: usize,
        is_dir: bool,
        size: u64,
        found: *mut Found,
    ) -> u32;
    fn ignore_guide_leave(guide: At, place: *const Spot) -> u32;
    fn ignore_guide_problem(
        guide: At,
        index: usize,
        problem: *mut Parts,
        room: *mut u8,
        length: usize,
    ) -> u32;
    fn ignore_guide_free(guide: Handle);
}

owner!(
    /// What decides in the directories that were entered and not left.
    Guide,
    ignore_guide_free
);

/// Answers a guide: what it wants to know of the path that it knows by a text.
pub type Answer<'a> = &'a mut dyn FnMut(Wanted, &[u8]) -> Given;

impl Guide {
    /// The guide of a builder.
    pub fn new(builder: &mut Builder) -> Guide {
        Guide(made(|at| unsafe { ignore_guide_new(&mut builder.0, at) }))
    }

    /// Begins a root.
    pub fn root(&mut self, root: &[u8], answer: Answer<'_>) -> Spot {
        let mut place = Spot::default();
        let (at, n) = (root.as_ptr(), root.len());
        let code = unsafe { ignore_guide_root(&mut self.0, at, n, &mut place) };
        self.answered(code, place, answer)
    }

    /// Enters the directory of a name in another. Its names, each ended by a zero, are told where
    /// there are any.
    pub fn enter(&mut self, parent: Spot, name: &[u8], names: &[u8], answer: Answer<'_>) -> Spot {
        let mut place = Spot::default();
        let (at, n) = (name.as_ptr(), name.len());
        let (names, length) = (names.as_ptr(), names.len());
        let (handle, to) = (&mut self.0, &mut place);
        let code = unsafe { ignore_guide_enter(handle, &parent, at, n, names, length, to) };
        self.answered(code, place, answer)
    }

    /// Gives what a call wants to know, until it has a place.
    fn answered(&mut self, code: u32, place: Spot, answer: Answer<'_>) -> Spot {
        let (mut code, mut place, mut room) = (code, place, Vec::new());
        while code == WANTS {
            let (wanted, path) = self.wanted(&mut room);
            let given = answer(wanted, path);
            let (at, n) = (given.bytes.as_ptr(), given.bytes.len());
            let fault = given.fault.map_or(NO_FAULT, |fault| fault as u32);
            let (kind, to) = (given.kind as u32, &mut place);
            code = unsafe { ignore_guide_give(&mut self.0, kind, at, n, fault, to) };
        }
        done(code);
        place
    }

    fn wanted<'r>(&mut self, room: &'r mut Vec<u8>) -> (Wanted, &'r [u8]) {
        let (mut wanted, mut whole) = (0, 256);
        loop {
            room.resize(room.len().max(whole), 0);
            let (to, most) = (room.as_mut_ptr(), room.len());
            done(unsafe { ignore_guide_wanted(&mut self.0, &mut wanted, to, most, &mut whole) });
            if whole <= room.len() {
                break;
            }
        }
        let wanted = match wanted {
            1 => Wanted::Kind,
            2 => Wanted::File,
            _ => Wanted::Canonical,
        };
        (wanted, &room[..whole])
    }

    /// What becomes of an entry of a directory that was entered.
    pub fn decide(
        &mut self,
        place: Spot,
        name: &[u8],
        is_dir: bool,
        size: Option<u64>,
    ) -> (Verdict, Found) {
        let mut found = Found::default();
        let (at, n, size) = (name.as_ptr(), name.len(), size.unwrap_or(NO_SIZE));
        let (handle, to) = (&mut self.0, &mut found);
        let code = unsafe { ignore_guide_decide(handle, &place, at, n, is_dir, size, to) };
        (verdict(code), found)
    }

    /// Leaves a directory.
    pub fn leave(&mut self, place: Spot) {
        done(unsafe { ignore_guide_leave(&mut self.0, &place) })
    }

    /// What is wrong with the files of rules of the directory that was entered last: of more than
    /// `MOST_PROBLEMS` the first, and one that says that there are more.
    pub fn problems(&mut self) -> Vec<Problem> {
        let (mut all, mut room) = (Vec::new(), Vec::new());
        loop {
            let mut parts = Parts::default();
            let (index, to, most) = (all.len(), room.as_mut_ptr(), room.len());
            match unsafe { ignore_guide_problem(&mut self.0, index, &mut parts, to, most) } {
                NONE => return all,
                code => done(code),
            }
            let whole = parts.path + parts.glob + parts.text;
            if whole > room.len() {
                room.resize(whole, 0);
                continue;
            }
            let problem = problem_of(&parts, &room);
            if all.len() == MOST_PROBLEMS {
                all.push(Problem {
                    what: What::Other,
                    line: 0,
                    text: "more is wrong, and isn't told".to_string(),
                    ..problem
                });
                return all;
            }
            all.push(problem);
        }
    }
}

fn problem_of(parts: &Parts, room: &[u8]) -> Problem {
    let (path, rest) = room.split_at(parts.path);
    let (glob, rest) = rest.split_at(parts.glob);
    let text_of = |bytes: &[u8]| String::from_utf8_lossy(bytes).into_owned();
    Problem {
        what: match parts.kind {
            1 => What::Fault(Fault::of(parts.fault)),
            2 => What::Glob(parts.has_glob.then(|| text_of(glob))),
            _ => What::Other,
        },
        path: parts.has_path.then(|| path.to_vec()),
        line: parts.line,
        text: text_of(&rest[..parts.text]),
    }
}
