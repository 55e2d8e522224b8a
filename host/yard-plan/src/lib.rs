//! What a planner wants to know of a plan, an image or a log: what it says, and what is wrong with it.
//! The numbers are the library's own answers; the analysis here explains them.
#![forbid(unsafe_code)]

pub mod added;
pub mod command;
pub mod expression;
pub mod faults;
pub mod image;
pub mod judged;
pub mod layout;
pub mod log;
pub mod mend;
pub mod moves;
pub mod read;
pub mod report;
pub mod show;
pub mod start;
pub mod tables;
pub mod text;
pub mod words;
