//! The program `bench`: what matching costs, over stored data. `tools/bench` runs it and makes
//! tables of what it prints.
#![tactic(auto)]

mod build;
mod check;
mod floor;
mod globs;
mod input;
mod list;
mod matcher;
mod plain;
mod queries;
mod rules;
mod tokens;

use ignore_base::Error;
use input::words;
use std::process::ExitCode;

const USAGE: &str =
    "usage: bench check | globs GLOBS TEXTS ROUNDS | rules RULES TEXTS COUNT ROUNDS | list RULES PATHS | queries ROOT PATHS ROUNDS | build RULES ROUNDS | floor FOLDERS";

/// Runs the command in the words; returns whether there is such a command.
fn run(rt: &HostRuntime, words: &[String]) -> Result<bool, Error> {
    match words {
        [command] if command.as_str() == "check" => check::check(rt)?,
        [command, globs, texts, rounds] if command.as_str() == "globs" => {
            globs::time_globs(rt, globs.as_str(), texts.as_str(), number(rounds.as_str()))?;
        }
        [command, rules, texts, count, rounds] if command.as_str() == "rules" => {
            let count = number(count.as_str());
            let rounds = number(rounds.as_str());
            rules::time_rules(rt, rules.as_str(), texts.as_str(), count, rounds)?;
        }
        [command, root, paths, rounds] if command.as_str() == "queries" => {
            let rounds = number(rounds.as_str());
            queries::time_queries(rt, root.as_str(), paths.as_str(), rounds)?;
        }
        [command, rules, rounds] if command.as_str() == "build" => {
            build::time_builds(rt, rules.as_str(), number(rounds.as_str()))?;
        }
        [command, folders] if command.as_str() == "floor" => floor::floor(rt, folders.as_str())?,
        [command, rules, paths] if command.as_str() == "list" => {
            list::list(rt, rules.as_str(), paths.as_str())?;
        }
        _ => return Ok(false),
    }
    Ok(true)
}

/// The number that the word is, or 0.
fn number(word: &str) -> usize {
    word.parse::<usize>().unwrap_or(0)
}

fn main(rt: HostRuntime) -> Result<ExitCode, Error> {
    let words = words(&rt)?;
    if run(&rt, words.as_slice())? {
        return Ok(ExitCode::from(0));
    }
    eprintln!(rt; "{USAGE}")?;
    Ok(ExitCode::from(2))
}
