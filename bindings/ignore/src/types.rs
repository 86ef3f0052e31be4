//! File types: names for globs of file names.
//!
//! ```
//! use ignore::types::TypesBuilder;
//!
//! let mut builder = TypesBuilder::new();
//! builder.add_defaults();
//! builder.add("note", "*.note")?;
//! builder.add_def("text:include:note,md")?;
//! let types = builder.select("text").build()?;
//! assert!(types.matched("a.note", false).is_whitelist());
//! assert!(types.matched("a.md", false).is_whitelist());
//! assert!(types.matched("a.rs", false).is_ignore());
//! # Ok::<(), ignore::Error>(())
//! ```

use crate::default_types::ROWS;
use crate::library::{Builder, Guide, Spot, Switch, Verdict};
use crate::names::told;
use crate::paths::last_name;
use crate::pool::Pool;
use crate::reader::nothing;
use crate::{Error, Match};
use std::collections::BTreeMap;
use std::ffi::OsStr;
use std::fmt;
use std::path::Path;
use std::sync::Arc;

/// The definition that decided, or that none did: where a type is selected, a file of none is
/// ignored.
#[derive(Clone)]
pub struct Glob<'a>(Option<(&'a Types, Box<OsStr>)>);

impl<'a> Glob<'a> {
    /// The definition that decided, if one did. It is looked for anew by each call, which takes as
    /// many questions as types are chosen.
    pub fn file_type_def(&self) -> Option<&FileTypeDef> {
        let (types, name) = self.0.as_ref()?;
        types.deciding(name)
    }
}

impl fmt::Debug for Glob<'_> {
    fn fmt(&self, f: &mut fmt::Formatter<'_>) -> fmt::Result {
        f.debug_tuple("Glob").field(&self.file_type_def()).finish()
    }
}

/// A file type: its name and its globs.
#[derive(Clone, Debug, Eq, PartialEq)]
pub struct FileTypeDef {
    name: String,
    globs: Vec<String>,
}

impl FileTypeDef {
    /// Its name.
    pub fn name(&self) -> &str {
        &self.name
    }

    /// Its globs.
    pub fn globs(&self) -> &[String] {
        &self.globs
    }
}

/// A file type that was chosen.
#[derive(Clone, Debug)]
pub(crate) struct Choice {
    pub def: FileTypeDef,
    pub is_negated: bool,
}

/// File types, of which some are chosen.
#[derive(Clone, Debug)]
pub struct Types(Arc<Whole>);

#[derive(Debug)]
struct Whole {
    defs: Vec<FileTypeDef>,
    choices: Vec<Choice>,
    ready: Pool<Asker>,
}

/// A guide of file types alone, which reads nothing.
#[derive(Debug)]
struct Asker {
    guide: Guide,
    place: Spot,
}

impl Asker {
    fn of(choices: &[Choice]) -> Result<Asker, Error> {
        let mut builder = Builder::new(b"/");
        builder.switch(Switch::StandardFilters, false);
        choose(&mut builder, choices)?;
        let mut guide = Guide::new(&mut builder);
        let place = guide.root(b"/", &mut |_, _| nothing());
        Ok(Asker { guide, place })
    }

    fn ask(&mut self, name: &OsStr) -> Verdict {
        let name = told(Path::new(name));
        self.guide.decide(self.place, &name, false, None).0
    }
}

/// Tells a builder which types are chosen.
pub(crate) fn choose(builder: &mut Builder, choices: &[Choice]) -> Result<(), Error> {
    for (at, choice) in choices.iter().enumerate() {
        let is_told = choices[..at]
            .iter()
            .any(|it| it.def.name == choice.def.name);
        for glob in choice.def.globs.iter().filter(|_| !is_told) {
            if !builder.type_add(&choice.def.name, glob) {
                return Err(Error::of_text(&builder.problem()));
            }
        }
        builder.type_choose(&choice.def.name, choice.is_negated);
    }
    match builder.set_types() {
        true => Ok(()),
        false => Err(Error::of_text(&builder.problem())),
    }
}

impl Types {
    /// No types, which match nothing.
    pub fn empty() -> Types {
        Types(Arc::new(Whole {
            defs: Vec::new(),
            choices: Vec::new(),
            ready: Pool::of(Vec::new()),
        }))
    }

    /// Whether no type is chosen.
    pub fn is_empty(&self) -> bool {
        self.0.choices.is_empty()
    }

    /// How many types were chosen.
    pub fn len(&self) -> usize {
        self.0.choices.len()
    }

    /// The definitions by their names, with their globs in order.
    pub fn definitions(&self) -> &[FileTypeDef] {
        &self.0.defs
    }

    /// What the types say of a path. They say nothing of a directory.
    ///
    /// The last glob that matches the file's name decides: by a selected type the path is
    /// whitelisted, by a negated one ignored. Where a type is selected, a file that no glob matches
    /// is ignored.
    pub fn matched<'a, P: AsRef<Path>>(&'a self, path: P, is_dir: bool) -> Match<Glob<'a>> {
        if is_dir || self.is_empty() {
            return Match::None;
        }
        let unmatched = match self.0.choices.iter().any(|choice| !choice.is_negated) {
            true => Match::Ignore(Glob(None)),
            false => Match::None,
        };
        let Some(name) = last_name(path.as_ref()).filter(|name| !name.is_empty()) else {
            return unmatched;
        };
        let glob = || Glob(Some((self, name.into())));
        match self.ask(name) {
            Verdict::None => Match::None,
            Verdict::Whitelist => Match::Whitelist(glob()),
            Verdict::Ignore => Match::Ignore(glob()),
        }
    }

    fn ask(&self, name: &OsStr) -> Verdict {
        let make = || Asker::of(&self.0.choices).expect("globs that were taken before");
        self.0.ready.with(make, |asker| asker.ask(name))
    }

    /// The definition of the last choice that matches a name.
    fn deciding(&self, name: &OsStr) -> Option<&FileTypeDef> {
        let matches = |choice: &&Choice| {
            let asker = Asker::of(std::slice::from_ref(*choice)).map(|mut it| it.ask(name));
            matches!(
                (asker, choice.is_negated),
                (Ok(Verdict::Whitelist), false) | (Ok(Verdict::Ignore), true)
            )
        };
        self.0
            .choices
            .iter()
            .rev()
            .find(matches)
            .map(|choice| &choice.def)
    }

    pub(crate) fn choices(&self) -> &[Choice] {
        &self.0.choices
    }
}

/// Builds a list of file types, and a choice of them.
pub struct TypesBuilder {
    types: BTreeMap<String, FileTypeDef>,
    chosen: Vec<(String, bool)>,
}

impl TypesBuilder {
    /// A builder without types.
    #[allow(clippy::new_without_default)]
    pub fn new() -> TypesBuilder {
        TypesBuilder {
            types: BTreeMap::new(),
            chosen: Vec::new(),
        }
    }

    /// The types and the choice. `UnrecognizedFileType` where a name was chosen that no type has,
    /// `Glob` where a glob of a chosen type is invalid.
    pub fn build(&self) -> Result<Types, Error> {
        let mut choices = Vec::new();
        for (name, is_negated) in &self.chosen {
            let Some(def) = self.types.get(name) else {
                return Err(Error::UnrecognizedFileType(name.clone()));
            };
            choices.push(Choice {
                def: def.clone(),
                is_negated: *is_negated,
            });
        }
        let ready = match choices.is_empty() {
            true => Vec::new(),
            false => vec![Asker::of(&choices)?],
        };
        Ok(Types(Arc::new(Whole {
            defs: self.definitions(),
            choices,
            ready: Pool::of(ready),
        })))
    }

    /// The definitions by their names, with their globs in order.
    pub fn definitions(&self) -> Vec<FileTypeDef> {
        let mut all: Vec<FileTypeDef> = self.types.values().cloned().collect();
        for def in &mut all {
            def.globs.sort();
        }
        all
    }

    fn choose(&mut self, name: &str, is_negated: bool) -> &mut TypesBuilder {
        if name == "all" {
            let names = self.types.keys().map(|name| (name.clone(), is_negated));
            self.chosen.extend(names);
        } else {
            self.chosen.push((name.to_string(), is_negated));
        }
        self
    }

    /// Selects a type. `all` stands for those that are there, in the order of their names.
    pub fn select(&mut self, name: &str) -> &mut TypesBuilder {
        self.choose(name, false)
    }

    /// Has the files of a type ignored. `all` stands for those that are there, in the order of
    /// their names.
    pub fn negate(&mut self, name: &str) -> &mut TypesBuilder {
        self.choose(name, true)
    }

    /// Removes the definition of a type.
    pub fn clear(&mut self, name: &str) -> &mut TypesBuilder {
        self.types.remove(name);
        self
    }

    /// Adds a glob to a type. `InvalidDefinition` where the name is `all`, or has anything but
    /// letters and numbers.
    pub fn add(&mut self, name: &str, glob: &str) -> Result<(), Error> {
        if name == "all" || !name.chars().all(char::is_alphanumeric) {
            return Err(Error::InvalidDefinition);
        }
        let def = self.types.entry(name.to_string());
        let def = def.or_insert_with(|| FileTypeDef {
            name: name.to_string(),
            globs: Vec::new(),
        });
        def.globs.push(glob.to_string());
        Ok(())
    }

    /// Adds by a text: `NAME:GLOB` adds a glob to a type, `NAME:include:NAME,NAME` the globs of
    /// these types. `InvalidDefinition` for any other text, for a name as in [`TypesBuilder::add`],
    /// and for types that aren't there.
    pub fn add_def(&mut self, def: &str) -> Result<(), Error> {
        let parts: Vec<&str> = def.split(':').collect();
        let (name, others) = match parts[..] {
            [name, glob] if !name.is_empty() && !glob.is_empty() => return self.add(name, glob),
            [name, "include", others] if !name.is_empty() && !others.is_empty() => (name, others),
            _ => return Err(Error::InvalidDefinition),
        };
        let others: Vec<&str> = others.split(',').collect();
        if others.iter().any(|other| !self.types.contains_key(*other)) {
            return Err(Error::InvalidDefinition);
        }
        for other in others {
            let globs = self.types.get(other).map(|def| def.globs.clone());
            for glob in globs.unwrap_or_default() {
                self.add(name, &glob)?;
            }
        }
        Ok(())
    }

    /// Adds the 219 rows of the table of types.
    pub fn add_defaults(&mut self) -> &mut TypesBuilder {
        for (names, globs) in ROWS {
            for name in *names {
                let def = self.types.entry(name.to_string());
                let def = def.or_insert_with(|| FileTypeDef {
                    name: name.to_string(),
                    globs: Vec::new(),
                });
                def.globs.extend(globs.iter().map(|glob| glob.to_string()));
            }
        }
        self
    }
}
