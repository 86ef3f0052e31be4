//! Links the static library: that in the folder IGNORE_PROVED_DIR, else one beside this file or in
//! the folder above, as tools/release puts them, else that in `dist/` of the repository.
use std::{env, path::PathBuf};

fn main() {
    println!("cargo:rerun-if-env-changed=IGNORE_PROVED_DIR");
    let here = PathBuf::from(env::var("CARGO_MANIFEST_DIR").expect("cargo sets it"));
    let dirs = match env::var_os("IGNORE_PROVED_DIR") {
        Some(dir) => vec![PathBuf::from(dir)],
        None => [".", "..", "../../dist"].map(|dir| here.join(dir)).into(),
    };
    let is_there = |dir: &&PathBuf| dir.join("libignore_proved.a").is_file();
    let Some(dir) = dirs.iter().find(is_there) else {
        panic!(
            "libignore_proved.a isn't in {dirs:?}: tools/release makes it, or set \
             IGNORE_PROVED_DIR to its folder"
        );
    };
    let archive = dir.join("libignore_proved.a");
    println!("cargo:rerun-if-changed={}", archive.display());
    println!("cargo:rustc-link-search=native={}", dir.display());
    println!("cargo:rustc-link-lib=static=ignore_proved");
}
