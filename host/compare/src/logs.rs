//! What the check of a log shows (02, job 4): its answers, by their causes.

use reference::answer::{Answer, Cause, Refusal};
use reference::lane::Lane;
use reference::log::{self, Wrong};
use reference::plan::Plan;

use crate::named::named;

named! {
    Shown, SHOWN:
    Empty = "accepted, and empty",
    Accepted = "accepted, with entries",
    OfSequence = "accepted, the moves of a sequence",
    BelowBad = "accepted, with an entry below a bad one",
    NoSuchMove = "wrong by 16",
    Greatest = "wrong by 16, an entry of 65535",
    NotEnabled = "wrong by 17",
    Outranked = "wrong by 18",
    OutrankedAndBad = "wrong by 18, and the entry ends bad too",
    Bad = "wrong, ends bad",
    First = "wrong in the first entry",
    Later = "wrong in a later entry",
    Far = "wrong past entry 255",
    OddLog = "refused with 21",
    OddAndBadStart = "refused with 21, and the start is bad too",
    BadStart = "refused with 15",
    EmptyAndBadStart = "refused with 15, and empty",
    Plan = "refused with a number of the plan",
}

/// What the answer to a log shows.
pub fn shown(plan: &[u8], log: &[u8], answer: Answer) -> Vec<Shown> {
    let and = |first, more: bool, second| {
        Vec::from_iter([first].into_iter().chain(more.then_some(second)))
    };
    match answer {
        Answer::Accepted if log.is_empty() => vec![Shown::Empty],
        Answer::Accepted => vec![Shown::Accepted],
        Answer::Refused(Refusal::OddLog) => {
            let plan = Plan::read(plan).expect("the plan passed the check");
            let starts_bad = !Lane::start(&plan).good(&plan);
            and(Shown::OddLog, starts_bad, Shown::OddAndBadStart)
        }
        Answer::Refused(Refusal::BadStart) => {
            and(Shown::BadStart, log.is_empty(), Shown::EmptyAndBadStart)
        }
        Answer::Refused(_) => vec![Shown::Plan],
        _ => wrong(plan, log),
    }
}

fn wrong(plan: &[u8], log: &[u8]) -> Vec<Shown> {
    let (Ok(plan), Ok(Some(wrong))) = (Plan::read(plan), log::first_wrong(plan, log)) else {
        return Vec::new();
    };
    let Wrong {
        index,
        entry,
        cause,
        lane,
    } = wrong;
    let place = if index == 0 {
        Shown::First
    } else {
        Shown::Later
    };
    let mut shown = vec![place, of_cause(cause)];
    if index > 255 {
        shown.push(Shown::Far);
    }
    if entry == usize::from(u16::MAX) {
        shown.push(Shown::Greatest);
    }
    if cause == Cause::Outranked && !lane.ends_good(&plan, entry) {
        shown.push(Shown::OutrankedAndBad);
    }
    shown
}

fn of_cause(cause: Cause) -> Shown {
    match cause {
        Cause::NoSuchMove => Shown::NoSuchMove,
        Cause::NotEnabled => Shown::NotEnabled,
        Cause::Outranked => Shown::Outranked,
        Cause::Bad => Shown::Bad,
    }
}
