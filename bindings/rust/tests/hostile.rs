//! Disks that do what none should: the working directory is gone, descriptors are few.
use ignore_proved::WalkBuilder;
use std::path::{Path, PathBuf};
use std::process::{Command, Stdio};
use std::{env, fs};

const HIGH: usize = 13;
const WIDE: usize = 1001;

/// A folder of large folders in each other, without what goes with it.
struct Tower(PathBuf);

impl Tower {
    fn new() -> Tower {
        let top = env::temp_dir().join(format!("ignore_proved_tower_{}", std::process::id()));
        let mut dir = top.clone();
        for _ in 0..HIGH {
            fs::create_dir_all(&dir).expect("a folder");
            (0..WIDE).for_each(|it| drop(fs::File::create(dir.join(it.to_string()))));
            dir.push("d");
        }
        fs::create_dir(&dir).expect("a folder");
        fs::create_dir(top.join("gone")).expect("a folder");
        Tower(top)
    }
}

impl Drop for Tower {
    fn drop(&mut self) {
        let _ = fs::remove_dir_all(&self.0);
    }
}

#[test]
fn a_root_that_went_and_comes_back_is_read_anew() {
    let top = env::temp_dir().join(format!("ignore_proved_back_{}", std::process::id()));
    let put = || {
        fs::create_dir_all(&top).expect("a folder");
        fs::write(top.join(".ignore"), "a\n").expect("a file");
    };
    put();
    let mut builder = WalkBuilder::new(&top).expect("a root");
    let mut matcher = builder.build_matcher().expect("a matcher");
    for is_there in [true, false, true] {
        match is_there {
            true => put(),
            false => fs::remove_dir_all(&top).expect("it goes"),
        }
        let found = matcher.matched("a", false).expect("memory");
        assert!(found.is_ignore(), "what was read is kept");
        assert_eq!(matcher.forget("").expect("memory"), 1);
        let found = matcher.matched("a", false).expect("memory");
        assert_eq!(found.is_ignore(), is_there);
        put();
        assert!(matcher.matched("a", false).expect("memory").is_ignore());
    }
    fs::remove_dir_all(&top).expect("it goes");
}

#[test]
#[ignore = "it is run by another test"]
fn lists_with_little() {
    let Some(top) = env::var_os("IGNORE_TEST_FOLDER") else {
        return;
    };
    let gone = Path::new(&top).join("gone");
    env::set_current_dir(&gone).expect("a folder");
    fs::remove_dir(&gone).expect("it goes");
    assert!(WalkBuilder::new("d").is_err());
    let mut builder = WalkBuilder::new(&top).expect("a root");
    let items: Result<Vec<_>, _> = builder.build().expect("a walk").collect();
    assert_eq!(items.expect("no error").len(), HIGH * (WIDE + 1));
    let mut matcher = builder.build_matcher().expect("a matcher");
    assert!(matcher.matched("d/.x", false).expect("memory").is_ignore());
}

#[test]
fn a_walk_needs_few_descriptors_and_no_working_directory() {
    let tower = Tower::new();
    let status = Command::new("sh")
        .args(["-c", "ulimit -n 14 && exec \"$@\"", "sh"])
        .arg(env::current_exe().expect("this program"))
        .args(["--ignored", "--exact", "lists_with_little"])
        .env("IGNORE_TEST_FOLDER", &tower.0)
        .stdout(Stdio::null())
        .status();
    assert!(status.is_ok_and(|it| it.success()));
}
