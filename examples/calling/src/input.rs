//! Paths from standard input.

use std::io::{BufRead, BufReader};

/// Reads a path from each line.
pub fn ask(rt: &HostRuntime) -> anyhow::Result<()> {
    for line in BufReader::new(rt.alloc(), rt.stdin())?.lines(rt.alloc()) {
        let path = line?;
        println!(rt; "read {path}")?;
    }
    Ok(())
}
