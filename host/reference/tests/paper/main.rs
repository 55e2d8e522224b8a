//! The cases, limits and refusals of 01, and the added oracles, held sums, ranking, logs, lists and turns of 02, run on the reference.

mod added;
mod book;
mod cases;
mod lanes;
mod limits;
mod lists;
mod logs;
mod moves;
mod ranks;
mod refusals;
mod sample;
mod sums;
mod verdicts;
