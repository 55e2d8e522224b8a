//! Job 6 of 02: a list of moves, 16 bits each with the lowest byte first, which is committed whole or not at all.

use crate::answer::Refusal;
use crate::lane::Lane;
use crate::log;
use crate::plan::Plan;

/// The most moves of a list.
pub const MOST_MOVES: usize = 8;

/// The entries of a list, or 22: there is none, a byte too many, or more than eight.
pub fn entries(list: &[u8]) -> Result<Vec<usize>, Refusal> {
    let entries = Vec::from_iter(log::entries(list));
    if list.len().is_multiple_of(2) && (1..=MOST_MOVES).contains(&entries.len()) {
        Ok(entries)
    } else {
        Err(Refusal::BadList)
    }
}

/// The lane after all entries. Else the index of the first that is not allowed, or their number where only the end is not good.
pub fn walk(plan: &Plan, lane: &Lane, entries: &[usize]) -> Result<Lane, usize> {
    let mut lane = lane.clone();
    for (index, &entry) in entries.iter().enumerate() {
        lane = step(plan, &lane, entry).ok_or(index)?;
    }
    if lane.good(plan) {
        Ok(lane)
    } else {
        Err(entries.len())
    }
}

/// The lane after an entry; none where it is not allowed.
pub fn step(plan: &Plan, lane: &Lane, entry: usize) -> Option<Lane> {
    if entry >= plan.interactions.len() || held_down(plan, lane, entry) {
        return None;
    }
    lane.after(plan, entry).filter(|after| not_bad(plan, after))
}

/// Whether an enabled interaction above this one leads to a verdict other than 0.
fn held_down(plan: &Plan, lane: &Lane, interaction: usize) -> bool {
    let mut above = (0..plan.interactions.len()).filter(|&above| plan.below(interaction, above));
    above.any(|above| {
        lane.after(plan, above)
            .is_some_and(|after| not_bad(plan, &after))
    })
}

fn not_bad(plan: &Plan, lane: &Lane) -> bool {
    lane.verdict(plan) != 0
}
