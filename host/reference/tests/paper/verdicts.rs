//! Job 6 of 02: verdict 1 is lawful and may lead anywhere, and only verdicts 2 and 3 are good.

use reference::answer::{Answer, Cause, Refusal};
use reference::calls;
use reference::draft::Draft;

use crate::sample::*;

/// Locations of a lane, each with a verdict of its own: 2, 2, 0 and 1.
pub const START: u8 = 0;
pub const GOOD: u8 = 1;
pub const BAD: u8 = 2;
pub const FALSE: u8 = 3;

/// A lane with a move for each arc, and the ranks of each as bits. Its oracle goes by the location, and a bad state stays bad.
pub fn lane(arcs: &[(u8, u8)], ranks: &[u64]) -> Draft {
    let mut plan = sample();
    plan.components[0].locations = 4;
    plan.components[0].ports = arcs.len() as u8;
    plan.transitions = (0..)
        .zip(arcs)
        .map(|(port, &(source, destination))| transition(source, port, destination, EMPTY))
        .collect();
    plan.interactions = (0..arcs.len() as u8).map(interaction).collect();
    for (interaction, &rank) in plan.interactions.iter_mut().zip(ranks) {
        interaction.rank = rank;
    }
    let [bad, half] = [BAD, FALSE].map(|at| add(&mut plan, &[0x4000 | u16::from(at)]));
    plan.propositions = vec![bad, half];
    let by_letter = |verdict| state(verdict, &[0, 1, 2, 1]);
    plan.oracle = vec![by_letter(2), state(0, &[1; 4]), by_letter(1)];
    plan
}

/// A move to verdict 1 and one from there back to 2.
pub fn two_halves() -> Draft {
    lane(&[(START, FALSE), (FALSE, GOOD)], &[])
}

fn refused(refusal: Refusal) -> Answer {
    Answer::Refused(refusal)
}

#[test]
fn verdict_1_may_lead_to_any_verdict() {
    for follower in 0..4 {
        let mut plan = sample();
        plan.oracle = (0..4).map(|v| state(v, &[v; 2])).collect();
        plan.oracle[1].next = vec![1, follower];
        assert_eq!(check(&plan), Answer::Accepted);
        plan.added = vec![plan.oracle.clone()];
        assert_eq!(check(&plan), Answer::Accepted);
    }
}

#[test]
fn verdicts_0_and_3_may_not_lead_to_1() {
    for verdict in [0, 3] {
        let mut plan = sample();
        let leading_on = vec![state(verdict, &[0, 1]), state(1, &[1, 1])];
        plan.added = vec![leading_on.clone()];
        assert_plan_refused(&plan.bytes(), Refusal::AddedOracle);
        plan.oracle = leading_on;
        assert_plan_refused(&plan.bytes(), Refusal::Oracle);
    }
}

#[test]
fn a_try_that_ends_at_verdict_1_is_cancelled() {
    let plan = two_halves();
    let mut image = started(&plan);
    let mut marked = image;
    marked[16] = 1;
    assert_eq!(attempt(&plan, &mut image, 0), Answer::Cancelled(0));
    assert_eq!(image, marked);
    assert_eq!(attempt(&plan, &mut image, 0), refused(Refusal::Marked));
}

#[test]
fn settling_never_takes_a_move_to_verdict_1() {
    let plan = two_halves();
    let mut image = started(&plan);
    assert_eq!(settle(&plan, &mut image), Answer::Penned);
    assert_eq!(marks(&image), 1);
    let plan = lane(&[(START, FALSE), (START, GOOD)], &[0, 0b01]);
    let mut image = started(&plan);
    assert_eq!(settle(&plan, &mut image), Answer::Committed(1));
}

#[test]
fn a_mark_on_a_move_to_verdict_1_is_true() {
    let plan = lane(&[(START, FALSE), (START, GOOD)], &[0, 0b01]);
    let mut image = started(&plan);
    image[16] = 0b01;
    assert_eq!(offered(&plan, &image), (Answer::Accepted, 0b10));
    image[16] = 0b10;
    assert_eq!(offered(&plan, &image).0, refused(Refusal::FalseMark));
}

#[test]
fn an_entry_of_a_log_that_ends_at_verdict_1_is_bad() {
    let wrong = |cause| (Answer::Wrong(cause), 0);
    assert_eq!(logged(&two_halves(), &[0, 1]), wrong(Cause::Bad));
    // A move to verdict 1 above another holds none down.
    let plan = lane(&[(START, FALSE), (START, GOOD)], &[0, 0b01]);
    assert_eq!(logged(&plan, &[1]), (Answer::Accepted, 0));
}

#[test]
fn r13_any_oracle_at_verdict_1() {
    let mut plan = two_halves();
    plan.added = vec![vec![state(2, &[0; 4]), state(1, &[0; 4])]];
    let started = started(&plan);
    for (at, byte) in [(8, 2), (9, 1)] {
        let mut image = started;
        image[at] = byte;
        let before = image;
        assert_eq!(offered(&plan, &image).0, refused(Refusal::State));
        assert_eq!(list(&plan, &mut image, &[0, 1]), refused(Refusal::State));
        assert_eq!(image, before);
    }
}

#[test]
fn r15_a_start_at_verdict_1() {
    let mut plan = two_halves();
    plan.components[0].start = FALSE;
    assert_eq!(check(&plan), Answer::Accepted);
    let answer = calls::start(&plan.bytes(), &mut [0; 312]);
    assert_eq!(answer, refused(Refusal::BadStart));
    let log = (refused(Refusal::BadStart), 0);
    assert_eq!(logged(&plan, &[1]), log);
}
