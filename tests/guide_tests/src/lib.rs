//! Tests of guides: over a tree in memory, and with a host that is asked.
#![tactic(auto)]

#[cfg(test)]
mod asked;
#[cfg(test)]
mod left;
#[cfg(test)]
mod listed;
#[cfg(test)]
mod stood;
#[cfg(test)]
mod teller;
