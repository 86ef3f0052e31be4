//! Walks over files that answer as no tree does, and over a tree of which one call is refused.
use crate::trees::tree_of;
use crate::walks::{ground_of, items_of, options};
use answers::Refusing;
use ignore_base::Fault;
use ignore_dir::Settings;
use ignore_files::{
    Contents, FileType, Files, Identity, Listed, Listing, MemoryTree, Metadata, Name, Refusal,
};
use ignore_walk::{Options, Order, Walk};
use std::alloc::{AllocError, Global};
use std::cell::Cell;

/// Files of which each path is a directory that lists these names, all of one kind and each with
/// the same identity.
#[derive(Drop)]
pub(crate) struct Endless<'n> {
    names: &'n [&'n str],
    kind: FileType,
    identity: Option<Identity>,
}

impl Endless<'_> {
    fn entry(&self, alloc: Global, name: &str) -> Result<Listed, AllocError> {
        Ok(Listed::Entry {
            name: Name::new(String::from_str(alloc, name)?),
            file_type: self.kind,
        })
    }
}

impl Files for Endless<'_> {
    fn stat(&self, _alloc: Global, _path: &str, _follow: bool) -> Result<Metadata, Refusal> {
        Ok(Metadata {
            file_type: FileType::Dir,
            len: 0,
        })
    }

    fn list(&self, alloc: Global, _path: &str) -> Result<Listing, Refusal> {
        let mut items = Vec::new(alloc);
        for name in self.names {
            items.push(self.entry(alloc, *name)?)?;
        }
        Ok(Listing::new(items))
    }

    fn contents(&self, _alloc: Global, _path: &str) -> Result<Contents, Refusal> {
        Err(Refusal::Fault(Fault::IsADirectory))
    }

    fn canonical(&self, alloc: Global, path: &str) -> Result<Name, Refusal> {
        Ok(Name::new(String::from_str(alloc, path)?))
    }

    fn identity(
        &self,
        _alloc: Global,
        _path: &str,
        _follow: bool,
    ) -> Result<Option<Identity>, Refusal> {
        Ok(self.identity)
    }
}

/// Three names that none may have, around one that it may.
const BAD: &[&str] = &["..", "d", "a/b", ""];

/// One identity.
const ONE: Option<Identity> = Some(Identity {
    device: 1,
    inode: 2,
});

/// A good name, and two.
const GOOD: &[&str] = &["d"];

const TWO: &[&str] = &["d", "e"];

/// Directories without an end, each listed with these names, and none with an identity.
pub(crate) fn with_names<'n>(names: &'n [&'n str]) -> Endless<'n> {
    Endless {
        names,
        kind: FileType::Dir,
        identity: None,
    }
}

/// The same, each listed with its bad names.
fn with_bad_names() -> Endless<'static> {
    with_names(BAD)
}

/// The same, each listed with a good name alone.
fn only_d() -> Endless<'static> {
    with_names(GOOD)
}

/// The same as the first where what is listed are links, all of which lead to the same directory.
fn linked() -> Endless<'static> {
    Endless {
        names: BAD,
        kind: FileType::Symlink,
        identity: ONE,
    }
}

/// With this many steps.
fn limited(limit: u64) -> Options {
    let mut options = options();
    options.limit = limit;
    options
}

fn following(alloc: Global) -> Settings {
    let mut settings = Settings::standard(alloc);
    settings.follow_links = true;
    settings
}

/// The walk of one root.
fn walked<F: Files>(
    alloc: Global,
    files: &F,
    settings: Settings,
    options: Options,
) -> anyhow::Result<String> {
    let mut names = Vec::new(alloc);
    names.push(Name::new(String::from_str(alloc, "/r")?))?;
    let mut ground = ground_of(alloc, files, options);
    ground.settings = settings;
    items_of(alloc, Walk::new(ground, names))
}

#[test]
fn bad_names_of_an_endless_tree(rt: HostRuntime) -> anyhow::Result<()> {
    let alloc = rt.alloc();
    let text = walked(
        alloc,
        &with_bad_names(),
        Settings::standard(alloc),
        limited(6),
    )?;
    assert_eq!(rt;
        text.as_str(),
        "/r (file name is not UTF-8) /r/d (file name is not UTF-8) /r/d/d \
         (file name is not UTF-8) (step limit reached) ."
    );
    Ok(())
}

#[test]
fn bad_names_first_by_name(rt: HostRuntime) -> anyhow::Result<()> {
    let alloc = rt.alloc();
    let mut options = limited(6);
    options.order = Order::ByName;
    let text = walked(alloc, &with_bad_names(), Settings::standard(alloc), options)?;
    assert_eq!(rt;
        text.as_str(),
        "/r (file name is not UTF-8) (file name is not UTF-8) (file name is not UTF-8) /r/d \
         (file name is not UTF-8) (step limit reached) ."
    );
    Ok(())
}

/// The next entry of a chain of directories named `d`, and the path of the one in it.
fn push_link(text: &mut String, path: &mut String) -> anyhow::Result<()> {
    text.push_str(path.as_str())?;
    text.push(' ')?;
    path.push_str("/d")?;
    Ok(())
}

/// The first entries of such a chain.
fn chain(alloc: Global, entries: u16) -> anyhow::Result<String> {
    let mut path = String::from_str(alloc, "/r")?;
    let mut text = String::new(alloc);
    for _ in 0..entries {
        push_link(&mut text, &mut path)?;
    }
    Ok(text)
}

#[test]
fn a_thousand_levels_of_an_endless_tree(rt: HostRuntime) -> anyhow::Result<()> {
    let alloc = rt.alloc();
    let text = walked(alloc, &only_d(), Settings::standard(alloc), limited(1000))?;
    let wanted = chain(alloc, 1000)?;
    assert!(rt; text.strip_suffix("(step limit reached) .") == Some(wanted.as_str()));
    Ok(())
}

/// A walk at a depth that is never reached.
fn too_deep(alloc: Global, files: &Endless<'_>, limit: u64) -> anyhow::Result<String> {
    let mut settings = Settings::standard(alloc);
    settings.min_depth = Some(usize::MAX);
    walked(alloc, files, settings, limited(limit))
}

#[test]
fn a_depth_that_is_never_reached(rt: HostRuntime) -> anyhow::Result<()> {
    let text = too_deep(rt.alloc(), &only_d(), 1000)?;
    assert_eq!(rt; text.as_str(), "(step limit reached) .");
    Ok(())
}

#[test]
fn bad_names_above_the_least_depth(rt: HostRuntime) -> anyhow::Result<()> {
    let text = too_deep(rt.alloc(), &with_bad_names(), 4)?;
    assert_eq!(rt;
        text.as_str(),
        "(file name is not UTF-8) (file name is not UTF-8) (step limit reached) ."
    );
    Ok(())
}

#[test]
fn links_to_the_same_directory(rt: HostRuntime) -> anyhow::Result<()> {
    let alloc = rt.alloc();
    let text = walked(alloc, &linked(), following(alloc), options())?;
    assert_eq!(rt;
        text.as_str(),
        "/r (file name is not UTF-8) (File system loop found: /r/d points to an ancestor /r) \
         (file name is not UTF-8) (file name is not UTF-8) ."
    );
    Ok(())
}

#[test]
fn links_without_an_identity(rt: HostRuntime) -> anyhow::Result<()> {
    let alloc = rt.alloc();
    let mut files = linked();
    files.identity = None;
    let text = walked(alloc, &files, following(alloc), options())?;
    assert_eq!(rt;
        text.as_str(),
        "/r (file name is not UTF-8) (/r/d: identity unknown) \
         (file name is not UTF-8) (file name is not UTF-8) ."
    );
    Ok(())
}

#[test]
fn directories_of_one_identity_are_no_loop(rt: HostRuntime) -> anyhow::Result<()> {
    let alloc = rt.alloc();
    let files = Endless {
        names: GOOD,
        kind: FileType::Dir,
        identity: ONE,
    };
    let text = walked(alloc, &files, following(alloc), limited(3))?;
    assert_eq!(rt; text.as_str(), "/r /r/d /r/d/d (step limit reached) .");
    Ok(())
}

#[test]
fn links_that_are_not_followed(rt: HostRuntime) -> anyhow::Result<()> {
    let alloc = rt.alloc();
    let files = Endless {
        names: TWO,
        kind: FileType::Symlink,
        identity: ONE,
    };
    let text = walked(alloc, &files, Settings::standard(alloc), options())?;
    assert_eq!(rt; text.as_str(), "/r /r/d /r/e .");
    Ok(())
}

#[test]
fn one_file_system_without_an_identity(rt: HostRuntime) -> anyhow::Result<()> {
    let alloc = rt.alloc();
    let mut options = options();
    options.same_file_system = true;
    let text = walked(alloc, &with_bad_names(), Settings::standard(alloc), options)?;
    assert_eq!(rt; text.as_str(), "(/r: identity unknown) .");
    Ok(())
}

/// The items of a walk that makes calls of each kind, whose call of this number is refused, and
/// whether that call was made.
fn refused(alloc: Global, refusal: Refusal, turn: u64) -> anyhow::Result<(String, bool)> {
    let tree = tree_of(alloc, TREE)?;
    let files = Refusing {
        tree: &tree,
        refusal,
        turn: Cell::new(turn),
    };
    let text = walked(alloc, &files, following(alloc), options())?;
    Ok((text, files.turn.get() == 0))
}

const TREE: &[&str] = &[
    "/d",
    "/d/x=",
    "/r",
    "/r/.ignore=y\n",
    "/r/a",
    "/r/a/b=",
    "/r/l>/d",
    "/r/y=",
];

/// All items of that walk where no call is refused.
const ITEMS: &str = "/r /r/a /r/a/b /r/l /r/l/x ";

/// Whether a walk that was out of memory yielded a beginning of all items and then that.
fn is_beginning(text: &str) -> bool {
    match text.strip_suffix("(out of memory) .") {
        Some(items) => ITEMS.starts_with(items),
        None => false,
    }
}

/// How many calls that walk makes: the one with the next number isn't made, and nothing is refused.
fn calls_of(alloc: Global, refusal: Refusal) -> anyhow::Result<u64> {
    for turn in 1..200u64 {
        let (text, made) = refused(alloc, refusal, turn)?;
        if !made && text.strip_suffix('.') == Some(ITEMS) {
            return Ok(turn - 1);
        }
    }
    Ok(0)
}

#[test]
fn each_call_out_of_memory(rt: HostRuntime) -> anyhow::Result<()> {
    let calls = calls_of(rt.alloc(), Refusal::Memory)?;
    assert!(rt; calls > 10, "{calls}");
    for turn in 1..=calls {
        let (text, made) = refused(rt.alloc(), Refusal::Memory, turn)?;
        assert!(rt; made && is_beginning(text.as_str()), "{turn}: {text}");
    }
    Ok(())
}

#[test]
fn each_call_with_a_fault(rt: HostRuntime) -> anyhow::Result<()> {
    let refusal = Refusal::Fault(Fault::PermissionDenied);
    let calls = calls_of(rt.alloc(), refusal)?;
    assert!(rt; calls > 10, "{calls}");
    for turn in 1..=calls {
        let (text, made) = refused(rt.alloc(), refusal, turn)?;
        assert!(rt; made && text.ends_with('.'), "{turn}: {text}");
    }
    Ok(())
}
