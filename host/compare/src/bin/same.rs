//! Compares every call of libyard.a with that of an older build as well, whose calls are named old_: answers, images and rosters must be the same. Where
//! the older one has no lists, none is handed in, and plans with a state of verdict 1, which it refuses, are passed over; where it has no turns, none is
//! given.

use std::process::ExitCode;

use compare::checked::Comparer;
use compare::command;
use compare::engines::Engine;

mod old {
    yard::engine!(
        "old_check",
        "old_start",
        "old_offered",
        "old_offered_bits",
        "old_try",
        "old_settle",
        "old_list",
        "old_turn",
        "old_log",
        "old_log_index"
    );
}

const OLD: Engine = Engine {
    name: "old library",
    check: old::check,
    start: old::start,
    offered: old::offered,
    bits: old::offered_bits,
    attempt: old::attempt,
    settle: old::settle,
    list: old::list,
    turn: old::turn,
    log: old::log,
    log_index: old::log_index,
};

fn main() -> ExitCode {
    command::run("same", |seed| Comparer::new(seed).and_older(OLD))
}
