//! Tests of builders of walks, of the callers in `uses`, each once with ample memory, and of the
//! commands of `igwalk`, of which a write or a call of the files fails.
#![tactic(auto)]

#[cfg(test)]
mod builders;
#[cfg(test)]
mod deep;
#[cfg(test)]
mod default_types;
#[cfg(test)]
mod failing_lists;
#[cfg(test)]
mod failing_writers;
#[cfg(test)]
mod refused_builders;
#[cfg(test)]
mod refused_runs;
#[cfg(test)]
mod rules;
#[cfg(test)]
mod trees;
#[cfg(test)]
mod walks;
