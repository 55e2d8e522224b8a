//! Job 4 of 02: whether a log of moves, 16 bits each with the lowest byte first, is a run from the starting state.

use crate::answer::{Answer, Cause, Refusal};
use crate::lane::Lane;
use crate::plan::Plan;

/// The first wrong entry of a log.
#[derive(Clone, Debug, PartialEq, Eq)]
pub struct Wrong {
    /// From 0.
    pub index: u64,
    pub entry: usize,
    pub cause: Cause,
    /// What the entries before it left.
    pub lane: Lane,
}

/// The answer, and the index of the first wrong entry; 0 where there is none.
pub fn check(plan: &[u8], log: &[u8]) -> (Answer, u64) {
    match first_wrong(plan, log) {
        Ok(None) => (Answer::Accepted, 0),
        Ok(Some(wrong)) => (Answer::Wrong(wrong.cause), wrong.index),
        Err(refusal) => (Answer::Refused(refusal), 0),
    }
}

pub fn first_wrong(plan: &[u8], log: &[u8]) -> Result<Option<Wrong>, Refusal> {
    let plan = Plan::read(plan)?;
    if !log.len().is_multiple_of(2) {
        return Err(Refusal::OddLog);
    }
    let mut lane = Lane::start(&plan);
    if !lane.good(&plan) {
        return Err(Refusal::BadStart);
    }
    for (index, entry) in (0..).zip(entries(log)) {
        match step(&plan, &lane, entry) {
            Ok(after) => lane = after,
            Err(cause) => {
                return Ok(Some(Wrong {
                    index,
                    entry,
                    cause,
                    lane,
                }))
            }
        }
    }
    Ok(None)
}

/// The entries of a log with an even number of bytes.
pub fn entries(log: &[u8]) -> impl Iterator<Item = usize> + '_ {
    let number = |bytes: &[u8]| u16::from_le_bytes([bytes[0], bytes[1]]).into();
    log.chunks_exact(2).map(number)
}

/// The enabled interactions above this one that end good.
pub fn good_above<'a>(
    plan: &'a Plan,
    lane: &'a Lane,
    interaction: usize,
) -> impl Iterator<Item = usize> + 'a {
    let above = (0..plan.interactions.len()).filter(move |&above| plan.below(interaction, above));
    above.filter(|&above| lane.ends_good(plan, above))
}

/// The lane after an entry, or the first cause for which it is wrong.
fn step(plan: &Plan, lane: &Lane, entry: usize) -> Result<Lane, Cause> {
    if entry >= plan.interactions.len() {
        return Err(Cause::NoSuchMove);
    }
    let after = lane.after(plan, entry).ok_or(Cause::NotEnabled)?;
    if good_above(plan, lane, entry).next().is_some() {
        Err(Cause::Outranked)
    } else if after.good(plan) {
        Ok(after)
    } else {
        Err(Cause::Bad)
    }
}
