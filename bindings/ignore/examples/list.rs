//! Lists what the rules keep of directories: `list [THREADS] ROOT..`, sorted by one thread.
use ignore::{WalkBuilder, WalkState};
use std::io::Write;
use std::os::unix::ffi::OsStrExt;

fn main() -> std::io::Result<()> {
    let mut words: Vec<_> = std::env::args_os().skip(1).collect();
    let threads = words
        .first()
        .and_then(|it| it.to_str()?.parse::<usize>().ok());
    if threads.is_some() {
        words.remove(0);
    }
    let mut builder = WalkBuilder::empty();
    for root in words {
        builder.add(root);
    }
    let show = |out: &mut Vec<u8>, item: Result<ignore::DirEntry, ignore::Error>| match item {
        Ok(entry) => {
            out.extend_from_slice(entry.path().as_os_str().as_bytes());
            out.push(b'\n');
        }
        Err(error) => eprintln!("{error}"),
    };
    let mut out = Vec::new();
    match threads {
        None => {
            builder.sort_by_file_name(|one, other| one.cmp(other));
            builder.build().for_each(|item| show(&mut out, item));
        }
        Some(threads) => {
            let (to, from) = std::sync::mpsc::channel();
            builder.threads(threads).build_parallel().run(|| {
                let to = to.clone();
                Box::new(move |item| match to.send(item) {
                    Ok(()) => WalkState::Continue,
                    Err(_) => WalkState::Quit,
                })
            });
            drop(to);
            from.into_iter().for_each(|item| show(&mut out, item));
        }
    }
    std::io::stdout().lock().write_all(&out)
}
