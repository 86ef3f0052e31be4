//! A folder of a test, which goes with it.
#![allow(dead_code)]

use std::fs;
use std::path::{Path, PathBuf};
use std::sync::atomic::{AtomicUsize, Ordering};

static COUNT: AtomicUsize = AtomicUsize::new(0);

pub struct Room(PathBuf);

impl Room {
    pub fn new() -> Room {
        let count = COUNT.fetch_add(1, Ordering::Relaxed);
        let name = format!("ignore_room_{}_{count}", std::process::id());
        let top = fs::canonicalize(std::env::temp_dir())
            .expect("a folder")
            .join(name);
        fs::create_dir_all(&top).expect("a folder");
        Room(top)
    }

    pub fn path(&self) -> &Path {
        &self.0
    }

    /// Writes a file, and the folders above it; a path that ends in a slash is a folder.
    pub fn put<P: AsRef<Path>>(&self, path: P, text: &str) -> &Room {
        let whole = self.0.join(&path);
        if path.as_ref().as_os_str().to_string_lossy().ends_with('/') {
            fs::create_dir_all(whole).expect("a folder");
            return self;
        }
        fs::create_dir_all(whole.parent().expect("a folder")).expect("a folder");
        fs::write(whole, text).expect("a file");
        self
    }
}

impl Drop for Room {
    fn drop(&mut self) {
        let _ = fs::remove_dir_all(&self.0);
    }
}

/// The paths of entries below a folder, sorted.
pub fn below(top: &Path, items: impl Iterator<Item = ignore::DirEntry>) -> Vec<String> {
    let mut paths: Vec<String> = items
        .filter_map(|it| {
            Some(
                it.path()
                    .strip_prefix(top)
                    .ok()?
                    .to_string_lossy()
                    .into_owned(),
            )
        })
        .filter(|it| !it.is_empty())
        .collect();
    paths.sort();
    paths
}
