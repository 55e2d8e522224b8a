//! Answers that come from an added oracle alone, by their causes.

use reference::answer::{Answer, Refusal};
use reference::calls;
use reference::image;
use reference::lane::{is_good, Lane};
use reference::plan::Plan;

use crate::engines::Call;
use crate::named::named;

named! {
    Cause, CAUSES:
    Number = "2 by the number of added oracles",
    States = "2 by the states of an added oracle",
    UnusedStates = "2 by the states of an unused oracle",
    StateOutOfRange = "13 by an added oracle's state out of range",
    BadState = "13 by an added oracle's bad state",
    UnusedState = "13 by an unused oracle's state",
    BadStart = "15 by added oracles alone",
    Cancelled = "cancelled by added oracles alone",
    Penned = "penned by added oracles alone",
}

/// The cause of a call's answer, where it is one of these and nothing else.
pub fn cause(call: Call, plan: &[u8], image: &[u8], answer: Answer) -> Option<Cause> {
    match (call, answer) {
        (_, Answer::Refused(Refusal::Count)) => count(plan),
        (_, Answer::Refused(Refusal::State)) => state(&lawful(plan), image),
        (_, Answer::Refused(Refusal::BadStart)) => start(&lawful(plan)),
        (Call::Try(_), Answer::Cancelled(interaction)) => {
            cancelled(&lawful(plan), image, interaction)
        }
        (_, Answer::Penned) => penned(&lawful(plan), image),
        _ => None,
    }
}

fn lawful(plan: &[u8]) -> Plan {
    Plan::read(plan).expect("the plan passed the check")
}

fn lane(plan: &Plan, image: &[u8]) -> Lane {
    let stored = image::read(plan, image);
    stored.expect("the image passed the check").lane
}

/// Which of bytes 42 to 45 is out of range, where no other count is.
fn count(plan: &[u8]) -> Option<Cause> {
    let mut without = plan.to_vec();
    without[42..46].fill(0);
    if calls::check(&without) == Answer::Refused(Refusal::Count) {
        return None;
    }
    if plan[42] > 3 {
        return Some(Cause::Number);
    }
    let used = &plan[43..43 + usize::from(plan[42])];
    if used.iter().all(|states| (1..=32).contains(states)) {
        Some(Cause::UnusedStates)
    } else {
        Some(Cause::States)
    }
}

/// What is wrong with one of bytes 9 to 11, where the image passes 13 without that fault.
fn state(plan: &Plan, bytes: &[u8]) -> Option<Cause> {
    (1..4).find_map(|n| {
        let (cause, cure) = state_fault(plan, n, bytes[8 + n].into())?;
        let mut cured = bytes.to_vec();
        cured[8 + n] = cure as u8;
        let passes = image::read(plan, &cured) != Err(Refusal::State);
        passes.then_some(cause)
    })
}

/// What is wrong with the state of an oracle, and a state that would be right.
fn state_fault(plan: &Plan, oracle: usize, state: usize) -> Option<(Cause, usize)> {
    let Some(oracle) = plan.oracles.get(oracle) else {
        return (state != 0).then_some((Cause::UnusedState, 0));
    };
    let good = oracle.iter().position(|state| is_good(state.verdict))?;
    match oracle.get(state) {
        None => Some((Cause::StateOutOfRange, good)),
        Some(state) => (!is_good(state.verdict)).then_some((Cause::BadState, good)),
    }
}

/// Whether the first oracle's verdict on the lane is good.
fn first_good(plan: &Plan, lane: &Lane) -> bool {
    is_good(plan.oracles[0][lane.oracles[0]].verdict)
}

fn start(plan: &Plan) -> Option<Cause> {
    first_good(plan, &Lane::start(plan)).then_some(Cause::BadStart)
}

fn cancelled(plan: &Plan, image: &[u8], interaction: usize) -> Option<Cause> {
    let after = lane(plan, image).after(plan, interaction)?;
    first_good(plan, &after).then_some(Cause::Cancelled)
}

fn penned(plan: &Plan, image: &[u8]) -> Option<Cause> {
    let lane = lane(plan, image);
    let enabled = lane.enabled(plan).into_iter();
    let mut ends = enabled.filter_map(|i| lane.after(plan, i));
    ends.all(|end| first_good(plan, &end))
        .then_some(Cause::Penned)
}
