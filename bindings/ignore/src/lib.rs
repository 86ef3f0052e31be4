//! The names of the crate `ignore` 0.4.34, over the proved library of gitignore rules.
//!
//! What a program asks of that crate it asks of this one, by the same names, signatures and traits:
//! in `Cargo.toml` one line says which it is. What a rule says of a path is the library's answer,
//! which is proved; to walk the disk, and to tell the library what is there, is the part of this
//! crate, which is tested. Where it answers otherwise than the original the item says so, and the
//! README has the list.
//!
//! ```no_run
//! for entry in ignore::Walk::new("src") {
//!     match entry {
//!         Ok(entry) => println!("{}", entry.path().display()),
//!         Err(error) => eprintln!("{error}"),
//!     }
//! }
//! ```
#![deny(missing_docs)]
#![deny(unsafe_code)]

mod decide;
mod default_types;
mod entry;
mod error;
mod excludes;
pub mod gitignore;
mod incremental;
#[allow(missing_docs)]
mod library;
mod listing;
mod matched;
mod names;
pub mod overrides;
mod parallel;
mod paths;
mod pool;
mod reader;
pub mod types;
mod walk;

pub use crate::entry::DirEntry;
pub use crate::error::Error;
pub use crate::incremental::{IncrementalIgnore, IncrementalMatch};
pub use crate::matched::Match;
pub use crate::parallel::{ParallelVisitor, ParallelVisitorBuilder, WalkParallel, WalkState};
pub use crate::walk::{Walk, WalkBuilder};
