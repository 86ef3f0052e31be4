//! What the rules of a file cost to build.

use crate::matcher::nanos_of;
use ignore_base::Error;
use ignore_files::DiskFiles;
use ignore_rules::gitignore::{Gitignore, GitignoreBuilder};
use std::fs;
use std::time::CpuClock;

/// Builds the matcher of a file of rules in so many rounds, and prints for each how many
/// nanoseconds of the processor that took, with the reading of the file, and how many rules there
/// are; then the most memory that the process took.
pub(crate) fn time_builds(rt: &HostRuntime, rules: &str, rounds: usize) -> Result<(), Error> {
    for _ in 0..rounds {
        time_build(rt, rules)?;
    }
    print_peak(rt)
}

/// Prints the most memory that the process took so far, as Linux has it.
fn print_peak(rt: &HostRuntime) -> Result<(), Error> {
    let status = fs::read_to_string(rt, "/proc/self/status")?;
    for line in status.as_str().lines() {
        if let Some(peak) = line.strip_prefix("VmHWM:") {
            println!(rt; "peak {peak}")?;
        }
    }
    Ok(())
}

fn time_build(rt: &HostRuntime, rules: &str) -> Result<(), Error> {
    let start = rt.process_cpu_time()?;
    let matcher = built(rt, rules)?;
    let end = rt.process_cpu_time()?;
    let nanos = nanos_of(end.saturating_sub(start));
    let rules = matcher.len();
    println!(rt; "build {nanos} {rules}")?;
    Ok(())
}

/// The matcher of a file of rules; no error is expected in it.
fn built(rt: &HostRuntime, rules: &str) -> Result<Gitignore, Error> {
    let files = DiskFiles::new(rt);
    let mut builder = GitignoreBuilder::new(rt.alloc(), "")?;
    match builder.add(&files, rules)? {
        Some(error) => Err(error),
        None => Ok(builder.into_gitignore()),
    }
}
