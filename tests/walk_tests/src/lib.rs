//! Tests of what directories hold, of single paths and of walks.
#![tactic(auto)]

#[cfg(test)]
mod deep;
#[cfg(test)]
mod entries;
#[cfg(test)]
mod hostile;
#[cfg(test)]
mod kept;
#[cfg(test)]
mod lazy;
#[cfg(test)]
mod loads;
#[cfg(test)]
mod matchers;
#[cfg(test)]
mod noted;
#[cfg(test)]
mod probes;
#[cfg(test)]
mod queries;
#[cfg(test)]
mod refused_matchers;
#[cfg(test)]
mod surveys;
#[cfg(test)]
mod trees;
#[cfg(test)]
mod walks;
