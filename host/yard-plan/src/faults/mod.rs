//! What is wrong with a plan: every fault that can be told, in the order in which the refusals are tested.

mod added;
pub mod code;
mod components;
mod counts;
mod head;
mod interactions;
mod oracle;
mod places;
mod ranks;
mod transitions;
mod variables;

use crate::judged::Judged;
use crate::mend::Mend;

#[derive(Clone, Debug, PartialEq, Eq)]
pub struct Fault {
    /// The refusal's number.
    pub number: u32,
    /// The record and field.
    pub what: String,
    /// The byte offset.
    pub place: usize,
    /// The value found and the rule that it breaks.
    pub text: String,
    pub cure: String,
    /// A change of bytes after which the fault is gone; none where no such change would do. It is no advice, which is the cure's.
    pub mend: Option<Mend>,
}

/// A plan's refusals in the order in which they are tested.
pub const ORDER: [u32; 11] = [1, 2, 3, 4, 5, 6, 7, 8, 9, 20, 10];

/// The faults found, and what is said where there may be more that cannot be told yet.
pub struct Analysis {
    pub faults: Vec<Fault>,
    pub rest: Option<&'static str>,
}

const NO_RECORDS: &str =
    "the records cannot be told apart until this is cured: check the plan again then";

impl Analysis {
    /// The number that the analysis would answer; 0 for accepted.
    pub fn first_number(&self) -> u32 {
        self.faults.first().map_or(0, |fault| fault.number)
    }
}

pub fn of_plan(bytes: &[u8]) -> Analysis {
    let mut faults = head::faults(bytes);
    faults.extend(counts::faults(bytes));
    faults.extend(places::faults(bytes));
    let judged = Judged::read(bytes);
    if let Some(judged) = &judged {
        faults.extend(components::faults(judged));
        faults.extend(variables::faults(judged));
        faults.extend(transitions::faults(judged));
        faults.extend(interactions::faults(judged));
        faults.extend(ranks::faults(judged));
        faults.extend(oracle::faults(judged));
        faults.extend(code::faults(judged));
    }
    Analysis {
        faults,
        rest: judged.is_none().then_some(NO_RECORDS),
    }
}
