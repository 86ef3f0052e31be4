//! Asks the rules of a file about paths: `ask FILE PATH..`; a path that ends with `/` is a directory.
use ignore_proved::gitignore::Gitignore;
use ignore_proved::{Error, Match};
use std::io::{self, BufWriter, Write};

fn main() -> Result<(), Error> {
    let mut words = std::env::args().skip(1);
    let rules = Gitignore::new(words.next().expect("usage: ask FILE PATH.."))?;
    let mut out = BufWriter::new(io::stdout().lock());
    for word in words {
        let path = word.strip_suffix('/').unwrap_or(&word);
        match rules.matched(path, word.ends_with('/'))? {
            Match::None => writeln!(out, "none {word}")?,
            Match::Ignore(glob) => writeln!(out, "ignore {word} by {}", glob.original())?,
            Match::Whitelist(glob) => writeln!(out, "whitelist {word} by {}", glob.original())?,
        }
    }
    Ok(out.flush()?)
}
