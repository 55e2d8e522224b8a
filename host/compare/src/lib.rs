//! The comparison's parts: `main.rs` compares by them, and other tests generate and damage plans by them.
#![deny(unsafe_code)]

pub mod baseline;
pub mod causes;
pub mod checked;
pub mod command;
pub mod damage;
pub mod difference;
pub mod engines;
pub mod fault;
pub mod generate;
pub mod halves;
pub mod images;
#[cfg(test)]
mod lenient;
pub mod lent;
pub mod list;
pub mod lists;
pub mod loads;
pub mod logs;
mod named;
pub mod no_turns;
pub mod older;
pub mod oracle;
pub mod pages;
#[cfg(test)]
mod planted;
pub mod ranking;
#[cfg(test)]
mod ranks_first;
pub mod rng;
pub mod roster;
pub mod rosters;
pub mod runs;
pub mod sequences;
pub mod spoil;
pub mod tally;
pub mod turns;
pub mod words;
#[cfg(test)]
mod wrapping;
#[cfg(test)]
mod wrong_lists;
#[cfg(test)]
mod wrong_logs;
#[cfg(test)]
mod wrong_rosters;
#[cfg(test)]
mod wrong_turns;
