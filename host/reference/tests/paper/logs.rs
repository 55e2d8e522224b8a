//! Job 4 of 02: a log is accepted exactly where it is a run; else the first wrong entry and the first cause that fits it.

use reference::answer::{Answer, Cause, Refusal};
use reference::draft::Draft;
use reference::log;

use crate::ranks::End::*;
use crate::ranks::{every_fork, fork};
use crate::sample::*;

const ACCEPTED: (Answer, u64) = (Answer::Accepted, 0);

fn wrong(cause: Cause, index: u64) -> (Answer, u64) {
    (Answer::Wrong(cause), index)
}

fn refused(refusal: Refusal) -> (Answer, u64) {
    (Answer::Refused(refusal), 0)
}

fn bad_start() -> Draft {
    let mut plan = sample();
    plan.components[0].start = 2;
    plan
}

#[test]
fn a_run_is_accepted_and_each_beginning_of_it() {
    let run = [1, 0, 2, 1, 0, 2];
    for length in 0..=run.len() {
        assert_eq!(logged(&sample(), &run[..length]), ACCEPTED);
    }
}

#[test]
fn a_run_need_not_be_what_settling_does() {
    let plan = fork(&[Good, Good], &[0, 0]);
    assert_eq!(logged(&plan, &[1]), ACCEPTED);
}

#[test]
fn an_empty_log_is_accepted_where_no_move_is_enabled_too() {
    assert_eq!(logged(&fork(&[NotEnabled], &[0]), &[]), ACCEPTED);
}

#[test]
fn cause_16_is_a_number_that_the_plan_lacks() {
    for number in [3, 64, 255, 256, 257, 32_768, 65_535] {
        let at = |index, moves: &[u16]| {
            assert_eq!(logged(&sample(), moves), wrong(Cause::NoSuchMove, index));
        };
        at(0, &[number]);
        at(3, &[1, 0, 2, number, 1]);
    }
}

#[test]
fn an_entry_has_its_lowest_byte_first() {
    let plan = sample().bytes();
    assert_eq!(log::check(&plan, &[1, 0]), ACCEPTED);
    assert_eq!(log::check(&plan, &[0, 1]), wrong(Cause::NoSuchMove, 0));
}

#[test]
fn cause_17_is_a_move_that_is_not_enabled_there() {
    assert_eq!(logged(&sample(), &[2]), wrong(Cause::NotEnabled, 0));
    assert_eq!(logged(&sample(), &[1, 1]), wrong(Cause::NotEnabled, 1));
    let longer = [1, 0, 2, 1, 0, 0, 9];
    assert_eq!(logged(&sample(), &longer), wrong(Cause::NotEnabled, 5));
}

#[test]
fn cause_18_is_a_good_move_above() {
    let plan = fork(&[Good, Good], &[0b10, 0]);
    assert_eq!(logged(&plan, &[0]), wrong(Cause::Outranked, 0));
    assert_eq!(logged(&plan, &[1]), ACCEPTED);
}

#[test]
fn a_bad_or_disabled_move_above_is_no_cause() {
    for above in [Bad, NotEnabled] {
        assert_eq!(logged(&fork(&[Good, above], &[0b10, 0]), &[0]), ACCEPTED);
    }
    let ranks = [0b110, 0b100, 0];
    let past_a_bad_one = fork(&[Good, Bad, Good], &ranks);
    assert_eq!(logged(&past_a_bad_one, &[0]), wrong(Cause::Outranked, 0));
}

#[test]
fn bad_and_below_a_good_one_is_18() {
    let plan = fork(&[Bad, Good], &[0b10, 0]);
    assert_eq!(logged(&plan, &[0]), wrong(Cause::Outranked, 0));
}

#[test]
fn not_enabled_and_below_a_good_one_is_17() {
    let plan = fork(&[NotEnabled, Good], &[0b10, 0]);
    assert_eq!(logged(&plan, &[0]), wrong(Cause::NotEnabled, 0));
}

#[test]
fn bad_is_the_last_cause_and_has_number_0() {
    assert_eq!(logged(&sample(), &[0]), wrong(Cause::Bad, 0));
    assert_eq!(logged(&sample(), &[1, 0, 2, 0, 9]), wrong(Cause::Bad, 3));
    let below_a_bad_one = fork(&[Bad, Bad], &[0b10, 0]);
    assert_eq!(logged(&below_a_bad_one, &[0]), wrong(Cause::Bad, 0));
    let answer = Answer::Wrong(Cause::Bad);
    assert_eq!((answer.kind(), answer.number()), (6, 0));
}

#[test]
fn an_odd_number_of_bytes_is_21_whatever_they_are() {
    let plan = sample().bytes();
    for log in [&[1][..], &[1, 0, 0], &[9, 9, 9], &[255; 101]] {
        assert_eq!(log::check(&plan, log), refused(Refusal::OddLog));
    }
}

#[test]
fn refusal_21_comes_before_15() {
    let plan = bad_start().bytes();
    assert_eq!(log::check(&plan, &[1]), refused(Refusal::OddLog));
}

#[test]
fn a_bad_start_is_15_for_an_empty_log_too() {
    for moves in [&[][..], &[2], &[65_535]] {
        assert_eq!(logged(&bad_start(), moves), refused(Refusal::BadStart));
    }
}

/// One entry on every fork, by the words of job 4.
#[test]
fn each_entry_of_every_fork_is_judged_by_its_end_and_those_above() {
    every_fork(|plan, ends, ranks| {
        for (n, &end) in ends.iter().enumerate() {
            let above = (0..3).filter(|i| ranks[n] >> i & 1 == 1);
            let is_outranked = above.into_iter().any(|i| ends[i] == Good);
            let expected = match end {
                NotEnabled => wrong(Cause::NotEnabled, 0),
                _ if is_outranked => wrong(Cause::Outranked, 0),
                Bad => wrong(Cause::Bad, 0),
                Good => ACCEPTED,
            };
            assert_eq!(logged(plan, &[n as u16]), expected);
        }
    });
}
