//! A guide without `Files`: its host is asked for one path at a time.

use ignore::files::{Env, MemoryTree};
use ignore::guide::{Entry, Given, Guide, GuideError, Place, Question, Step, Waiting, Wanted};
use ignore::{Fault, WalkOptions};

/// What a host knows of a path: here one file of rules, and nothing else.
fn known(question: &Question) -> Given<'static> {
    let is_there = question.path.as_str() == "/p/.ignore";
    let nothing = Given {
        kind: None,
        bytes: Err(Fault::NotFound),
        fault: None,
        path: Err(Fault::NotFound),
    };
    match question.wanted {
        Wanted::File if is_there => Given {
            kind: Some(ignore::files::FileType::File),
            bytes: Ok(b"*.o\n"),
            ..nothing
        },
        Wanted::File | Wanted::Kind => nothing,
        Wanted::Canonical => Given {
            path: Ok("/p"),
            ..nothing
        },
    }
}

/// Begins a root, by what the host is asked; no place after a hundred questions.
fn root(guide: &mut Guide) -> Result<Option<Place>, GuideError> {
    let mut step = guide.ask_root("/p")?;
    for _ in 0..100 {
        match step {
            Step::Arrived(arrived) => return Ok(Some(arrived.place)),
            Step::Wants(waiting) => step = told(guide, waiting)?,
        }
    }
    Ok(None)
}

/// Tells what is known of the path that is asked about.
fn told(guide: &mut Guide, waiting: Waiting) -> Result<Step, GuideError> {
    let given = known(&waiting.question);
    guide.tell(waiting, &given)
}

pub fn ask(rt: &HostRuntime, env: &Env) -> anyhow::Result<()> {
    let nowhere = MemoryTree::new(rt.alloc(), "/")?;
    let mut guide = WalkOptions::empty(rt.alloc()).guide(&nowhere, env)?;
    if let Some(place) = root(&mut guide)? {
        let entry = Entry {
            name: "a.o",
            is_dir: false,
            size: None,
        };
        println!(rt;
            "a.o ignored, as told: {}",
            guide.decide(place, &entry)?.is_ignore()
        )?;
    }
    Ok(())
}
