//! Job 7 of 02: one box serves up to eight lanes with one plan, their images end to end in one buffer.

use std::cmp::Reverse;
use std::ops::Range;

use crate::answer::{Answer, Refusal};
use crate::calls;
use crate::image::IMAGE_BYTES;
use crate::plan::Plan;

/// The most lanes of a roster.
pub const MOST_LANES: usize = 8;

/// A lane's record in the roster.
#[derive(Clone, Copy, Debug, PartialEq, Eq)]
pub struct Record {
    pub number: u8,
    /// A flag: held where it is not 0.
    pub held: u8,
    /// Turns waited.
    pub wait: u16,
}

impl Record {
    pub fn is_held(&self) -> bool {
        self.held != 0
    }
}

/// Gives a turn to one of the lanes: which one, where one had it, and the outcome.
pub fn turn(plan: &[u8], roster: &mut [Record], buffer: &mut [u8]) -> (Option<usize>, Answer) {
    if let Err(refusal) = check(plan, roster, buffer) {
        return (None, Answer::Refused(refusal));
    }
    let Some(lane) = next(roster) else {
        return (None, Answer::Idle);
    };
    let outcome = calls::settle(plan, &mut buffer[place(lane)]);
    move_on(roster, lane);
    (Some(lane), outcome)
}

/// Where the image of a lane lies in the buffer.
pub fn place(lane: usize) -> Range<usize> {
    lane * IMAGE_BYTES..(lane + 1) * IMAGE_BYTES
}

/// The plan's numbers, then 23.
fn check(plan: &[u8], roster: &[Record], buffer: &[u8]) -> Result<(), Refusal> {
    Plan::read(plan)?;
    if is_lawful(roster, buffer) {
        Ok(())
    } else {
        Err(Refusal::BadRoster)
    }
}

/// The rule of 23.
pub fn is_lawful(roster: &[Record], buffer: &[u8]) -> bool {
    let numbers = roster.iter().map(|record| usize::from(record.number));
    (1..=MOST_LANES).contains(&roster.len())
        && numbers.eq(0..roster.len())
        && buffer.len() == roster.len() * IMAGE_BYTES
}

/// The unheld lane that waited longest, the lowest number on a tie.
pub fn next(roster: &[Record]) -> Option<usize> {
    let unheld = roster.iter().filter(|record| !record.is_held());
    let next = unheld.max_by_key(|record| (record.wait, Reverse(record.number)));
    next.map(|record| record.number.into())
}

/// The wait of the lane that had the turn becomes 0, and every other one grows.
pub fn move_on(roster: &mut [Record], lane: usize) {
    for record in roster {
        record.wait = if usize::from(record.number) == lane {
            0
        } else {
            record.wait.saturating_add(1)
        };
    }
}
