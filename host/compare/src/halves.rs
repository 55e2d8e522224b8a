//! What a call shows of verdict 1 (02, job 6): it is lawful in a plan, and no move, mark, image or start is good by it.

use reference::answer::{Answer, Cause, Refusal};
use reference::image::{self, Stored};
use reference::lane::Lane;
use reference::log;
use reference::plan::Plan;

use crate::engines::Call;
use crate::named::named;

named! {
    Half, HALVES:
    State = "13 by verdict 1 alone",
    AddedState = "13 by verdict 1 of an added oracle alone",
    Start = "15 by verdict 1",
    Cancelled = "a try cancelled by verdict 1",
    Marked = "not 14, with a mark on a move to verdict 1",
    Penned = "penned, and an enabled move leads to verdict 1",
    Settled = "settled on a move below one that leads to verdict 1",
    Entry = "an entry of a log wrong by verdict 1",
    OfSequence = "the moves of a sequence wrong as a log, where a list passed through verdict 1",
}

/// What the answer to a call shows.
pub fn halves(call: Call, plan: &[u8], lent: &[u8], answer: Answer) -> Vec<Half> {
    match answer {
        Answer::Refused(refusal) => refused(plan, lent, refusal),
        Answer::Wrong(Cause::Bad) => wrong(plan, lent),
        _ => made(call, plan, lent, answer),
    }
}

fn is_half(plan: &Plan, lane: &Lane) -> bool {
    lane.verdict(plan) == 1
}

fn refused(plan: &[u8], lent: &[u8], refusal: Refusal) -> Vec<Half> {
    let Ok(plan) = Plan::read(plan) else {
        return Vec::new();
    };
    match refusal {
        Refusal::State => state(&plan, lent),
        Refusal::BadStart if is_half(&plan, &Lane::start(&plan)) => vec![Half::Start],
        _ => Vec::new(),
    }
}

/// Whether the image passes 13 once each oracle at verdict 1 has a good state.
fn state(plan: &Plan, bytes: &[u8]) -> Vec<Half> {
    let mut cured = bytes.to_vec();
    let mut halves = Vec::new();
    for (n, oracle) in plan.oracles.iter().enumerate() {
        let is_half = |at: &u8| oracle.get(usize::from(*at)).is_some_and(|s| s.verdict == 1);
        let good = oracle.iter().position(|state| state.verdict >= 2);
        if let (true, Some(good)) = (bytes.get(8 + n).is_some_and(is_half), good) {
            cured[8 + n] = good as u8;
            halves.push(n);
        }
    }
    if halves.is_empty() || image::read_unjudged(plan, &cured).is_err() {
        return Vec::new();
    }
    match halves.contains(&0) {
        true => vec![Half::State],
        false => vec![Half::State, Half::AddedState],
    }
}

fn wrong(plan: &[u8], bytes: &[u8]) -> Vec<Half> {
    let (Ok(lawful), Ok(Some(wrong))) = (Plan::read(plan), log::first_wrong(plan, bytes)) else {
        return Vec::new();
    };
    let after = wrong.lane.after(&lawful, wrong.entry);
    let is_half = after.is_some_and(|after| is_half(&lawful, &after));
    Vec::from_iter(is_half.then_some(Half::Entry))
}

/// What a call shows that was made on a lane.
fn made(call: Call, plan: &[u8], lent: &[u8], answer: Answer) -> Vec<Half> {
    if matches!(call, Call::Check | Call::Start) || call.is_of_log() {
        return Vec::new();
    }
    let Ok(plan) = Plan::read(plan) else {
        return Vec::new();
    };
    let Ok(Stored { lane, marked }) = image::read(&plan, lent) else {
        return Vec::new();
    };
    let to_half = |i: usize| lane.after(&plan, i).is_some_and(|end| is_half(&plan, &end));
    let mut enabled = lane.enabled(&plan).into_iter();
    let mut shown = Vec::new();
    let mut note = |half, is_shown: bool| shown.extend(is_shown.then_some(half));
    note(Half::Marked, marked.iter().any(|&mark| to_half(mark)));
    match (call, answer) {
        (Call::Try(_), Answer::Cancelled(interaction)) => {
            note(Half::Cancelled, to_half(interaction));
        }
        (Call::Settle, Answer::Committed(chosen)) => {
            let above = |i| plan.below(chosen, i) && to_half(i);
            note(Half::Settled, enabled.any(above));
        }
        (Call::Settle, Answer::Penned) => note(Half::Penned, enabled.any(to_half)),
        _ => {}
    }
    shown
}
