//! Tests of the program `ig`: it ends as it says where nothing can be written or read, and where a
//! call of the files is refused.
#![tactic(auto)]

#[cfg(test)]
mod ends;
#[cfg(test)]
mod refused;
