//! An independent implementation of the scope paper 01 with the change requests of 02, written to be plainly right.
#![forbid(unsafe_code)]

pub mod answer;
pub mod book;
pub mod calls;
pub mod code;
pub mod draft;
pub mod image;
pub mod lane;
pub mod list;
pub mod log;
pub mod plan;
pub mod roster;
pub mod sums;
