//! Engines with a fault planted in the check of a log: each is found out, in the library's place and as an older build.

use reference::answer::Cause;
use reference::lane::Lane;
use reference::log;
use reference::plan::Plan;
use yard::Answer;

use crate::baseline;
use crate::checked::Comparer;
use crate::engines::{Engine, BASELINE};
use crate::sequences::Session;

fn wrong(cause: Cause) -> Answer {
    Answer {
        kind: yard::WRONG,
        number: cause as u32,
    }
}

/// Whether an entry of an accepted log lies below an enabled interaction.
fn has_enabled_above(plan: &[u8], log: &[u8]) -> bool {
    let plan = Plan::read(plan).expect("the plan passed the check");
    let mut lane = Lane::start(&plan);
    for entry in log::entries(log) {
        if lane
            .enabled(&plan)
            .iter()
            .any(|&above| plan.below(entry, above))
        {
            return true;
        }
        lane = lane.after(&plan, entry).expect("the log passed the check");
    }
    false
}

/// 18 by any enabled move above.
fn ranked_by_enabled(plan: &[u8], log: &[u8]) -> Answer {
    let answer = baseline::log(plan, log);
    if answer.kind == yard::ACCEPTED && has_enabled_above(plan, log) {
        wrong(Cause::Outranked)
    } else {
        answer
    }
}

/// Bad before 18.
fn bad_first(plan: &[u8], bytes: &[u8]) -> Answer {
    match (Plan::read(plan), log::first_wrong(plan, bytes)) {
        (Ok(lawful), Ok(Some(found)))
            if found.cause == Cause::Outranked && !found.lane.ends_good(&lawful, found.entry) =>
        {
            wrong(Cause::Bad)
        }
        _ => baseline::log(plan, bytes),
    }
}

/// 15 before 21.
fn start_first(plan: &[u8], log: &[u8]) -> Answer {
    match baseline::log(plan, &[]) {
        start if start.number == 15 => start,
        _ => baseline::log(plan, log),
    }
}

fn empty_log_accepted(plan: &[u8], log: &[u8]) -> Answer {
    match baseline::log(plan, log) {
        answer if answer.number == 15 && log.is_empty() => yard::answer(0),
        answer => answer,
    }
}

/// Highest byte first.
fn bytes_swapped(plan: &[u8], log: &[u8]) -> Answer {
    let mut swapped = log.to_vec();
    swapped.chunks_exact_mut(2).for_each(<[u8]>::reverse);
    baseline::log(plan, &swapped)
}

/// Only the low byte of an entry.
fn low_bytes(plan: &[u8], log: &[u8]) -> Answer {
    let mut low = log.to_vec();
    low.chunks_exact_mut(2).for_each(|entry| entry[1] = 0);
    baseline::log(plan, &low)
}

fn index_from_1(plan: &[u8], log: &[u8]) -> u64 {
    match baseline::log(plan, log).kind {
        yard::WRONG => baseline::log_index(plan, log) + 1,
        _ => 0,
    }
}

/// Its lowest byte alone.
fn index_of_a_byte(plan: &[u8], log: &[u8]) -> u64 {
    baseline::log_index(plan, log) % 256
}

/// The last entry's where there is no wrong one.
fn index_of_accepted(plan: &[u8], log: &[u8]) -> u64 {
    match baseline::log(plan, log).kind {
        yard::ACCEPTED => log.len() as u64 / 2,
        _ => baseline::log_index(plan, log),
    }
}

#[test]
fn each_engine_that_judges_logs_wrongly_is_found_out() {
    let right = |name| Engine { name, ..BASELINE };
    let check = |name, log| Engine { log, ..right(name) };
    let index = |name, log_index| Engine {
        log_index,
        ..right(name)
    };
    for engine in [
        check("18 by an enabled bad move", ranked_by_enabled),
        check("bad before 18", bad_first),
        check("15 before 21", start_first),
        check("an empty log past a bad start", empty_log_accepted),
        check("highest byte first", bytes_swapped),
        check("low bytes alone", low_bytes),
        index("index from 1", index_from_1),
        index("index of one byte", index_of_a_byte),
        index("index of an accepted log", index_of_accepted),
    ] {
        assert_found_out(engine);
    }
}

/// A faulty engine is found out and named, as the library and as the older build.
pub(crate) fn assert_found_out(engine: Engine) {
    for comparer in [
        Comparer::with(2, engine),
        Comparer::with(2, BASELINE).and_older(engine),
    ] {
        let found = Session::new(2, comparer).compare(20_000).err();
        let said = found.map(|difference| difference.said.0);
        assert_eq!(said, Some(engine.name));
    }
}
