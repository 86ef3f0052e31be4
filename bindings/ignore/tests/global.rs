//! git's global file. The environment is of the process, so this is one test.

mod common;

use common::Room;
use ignore::gitignore::{gitconfig_excludes_path, Gitignore};
use ignore::WalkBuilder;
use std::env;
use std::path::Path;

fn kept(room: &Room, threads: Option<usize>) -> Vec<String> {
    let mut builder = WalkBuilder::new(room.path().join("top"));
    let items = std::sync::Mutex::new(Vec::new());
    match threads {
        None => items
            .lock()
            .expect("no panic")
            .extend(builder.build().flatten()),
        Some(count) => builder.threads(count).build_parallel().run(|| {
            Box::new(|entry| {
                items.lock().expect("no panic").extend(entry);
                ignore::WalkState::Continue
            })
        }),
    }
    let items = items.into_inner().expect("no panic");
    common::below(&room.path().join("top"), items.into_iter())
}

#[test]
fn the_global_file_is_found_and_counts() {
    let room = Room::new();
    room.put("top/.git/", "")
        .put("top/a.tmp", "")
        .put("top/b.bak", "")
        .put("top/c", "");
    room.put("home/.config/git/ignore", "*.tmp\n")
        .put("bak", "*.bak\n")
        .put("c", "c\n");
    for name in ["GIT_CONFIG_GLOBAL", "XDG_CONFIG_HOME"] {
        env::remove_var(name);
    }
    env::set_var("GIT_CONFIG_SYSTEM", room.path().join("none"));
    env::set_var("HOME", room.path().join("home"));
    env::set_current_dir(room.path()).expect("a folder");
    let all_kept = |wanted: &[&str]| {
        for threads in [None, Some(1), Some(4)] {
            assert_eq!(kept(&room, threads), wanted, "{threads:?}");
        }
    };
    let usual = room.path().join("home/.config/git/ignore");
    assert_eq!(gitconfig_excludes_path(), Some(usual));
    all_kept(&["b.bak", "c"]);
    let (rules, error) = Gitignore::global();
    assert!(error.is_none() && rules.matched("x/a.tmp", false).is_ignore());
    assert_eq!(rules.path(), room.path());

    let named = room.path().join("bak");
    room.put(
        "home/.gitconfig",
        &format!("[core]\n\texcludesFile = {}\n", named.display()),
    );
    assert_eq!(gitconfig_excludes_path(), Some(named));
    all_kept(&["a.tmp", "c"]);
    room.put("home/.gitconfig", "[core]\nexcludesfile = ~/../c\n");
    all_kept(&["a.tmp", "b.bak"]);
    room.put("home/.gitconfig", "[core]\nexcludesfile = bak\n");
    all_kept(&["a.tmp", "c"]);
    room.put("mine", "excludesfile = \"c\"\n");
    env::set_var("GIT_CONFIG_GLOBAL", "mine");
    assert_eq!(gitconfig_excludes_path().as_deref(), Some(Path::new("c")));
    all_kept(&["a.tmp", "b.bak"]);
    env::remove_var("GIT_CONFIG_GLOBAL");
    room.put("home/.gitconfig", "");
    env::set_var("XDG_CONFIG_HOME", room.path().join("xdg"));
    all_kept(&["a.tmp", "b.bak", "c"]);
    room.put("xdg/git/config", "excludesfile = /nowhere\n");
    assert_eq!(
        gitconfig_excludes_path().as_deref(),
        Some(Path::new("/nowhere"))
    );
    let (rules, error) = Gitignore::global();
    assert!(rules.is_empty() && error.is_none());
    room.put("top/.git/info/exclude", "a.tmp\n");
    all_kept(&["b.bak", "c"]);
}
