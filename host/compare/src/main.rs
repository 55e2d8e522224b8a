//! Compares every call of libyard.a with the reference, the C baseline and the book.
#![forbid(unsafe_code)]

use std::process::ExitCode;

use compare::checked::Comparer;
use compare::command;

fn main() -> ExitCode {
    command::run("compare", Comparer::new)
}
