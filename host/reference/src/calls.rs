//! The engine's calls on byte slices, each judged from its inputs alone.

use crate::answer::{answer_of, Answer, Refusal};
use crate::image::{self, Stored};
use crate::lane::{self, Lane, Moves};
use crate::list;
use crate::plan::Plan;

pub fn check(plan: &[u8]) -> Answer {
    answer_of(Plan::read(plan).map(|_| Answer::Accepted))
}

pub fn start(plan: &[u8], bytes: &mut [u8]) -> Answer {
    answer_of(try_start(plan, bytes))
}

/// The answer, and the bits of the moves on offer where it is no refusal.
pub fn offered(plan: &[u8], bytes: &[u8]) -> (Answer, u64) {
    match Examined::read(plan, bytes) {
        Ok(examined) => (Answer::Accepted, image::bits(&examined.offered())),
        Err(refusal) => (Answer::Refused(refusal), 0),
    }
}

/// Tries one move.
pub fn attempt(plan: &[u8], bytes: &mut [u8], number: u32) -> Answer {
    answer_of(Examined::read(plan, bytes).and_then(|examined| examined.attempt(bytes, number)))
}

pub fn settle(plan: &[u8], bytes: &mut [u8]) -> Answer {
    answer_of(Examined::read(plan, bytes).map(|examined| examined.settle(bytes)))
}

/// Hands in a list of moves, which is committed whole or not at all.
pub fn list(plan: &[u8], bytes: &mut [u8], moves: &[u8]) -> Answer {
    answer_of(Examined::read(plan, bytes).and_then(|examined| examined.list(bytes, moves)))
}

fn try_start(plan: &[u8], bytes: &mut [u8]) -> Result<Answer, Refusal> {
    let plan = Plan::read(plan)?;
    image::check_length(bytes)?;
    let lane = Lane::start(&plan);
    if !lane.good(&plan) {
        return Err(Refusal::BadStart);
    }
    let marked = Moves::new();
    bytes.copy_from_slice(&image::write(&plan, &Stored { lane, marked }));
    Ok(Answer::Accepted)
}

/// A lawful plan with a lawful lane, and which interactions are marked and enabled.
struct Examined {
    plan: Plan,
    lane: Lane,
    marked: Moves,
    enabled: Moves,
}

impl Examined {
    fn read(plan: &[u8], bytes: &[u8]) -> Result<Examined, Refusal> {
        let plan = Plan::read(plan)?;
        let Stored { lane, marked } = image::read(&plan, bytes)?;
        let enabled = lane.enabled(&plan);
        Ok(Examined {
            plan,
            lane,
            marked,
            enabled,
        })
    }

    fn offered(&self) -> Moves {
        lane::offered(&self.plan, &self.enabled, &self.marked)
    }

    fn attempt(&self, bytes: &mut [u8], number: u32) -> Result<Answer, Refusal> {
        let interaction = usize::try_from(number).map_err(|_| Refusal::NoSuchMove)?;
        if interaction >= self.plan.interactions.len() {
            return Err(Refusal::NoSuchMove);
        }
        if !self.enabled.contains(&interaction) {
            return Err(Refusal::NotEnabled);
        }
        if lane::outranked(&self.plan, &self.enabled, &self.marked, interaction) {
            return Err(Refusal::Outranked);
        }
        if self.marked.contains(&interaction) {
            return Err(Refusal::Marked);
        }
        if self.lane.ends_good(&self.plan, interaction) {
            return Ok(self.commit(bytes, interaction));
        }
        let mut marked = self.marked.clone();
        marked.insert(interaction);
        self.store(bytes, self.lane.clone(), marked);
        Ok(Answer::Cancelled(interaction))
    }

    fn settle(&self, bytes: &mut [u8]) -> Answer {
        if let Some(interaction) = self.lane.settled(&self.plan) {
            self.commit(bytes, interaction)
        } else if self.enabled.is_empty() {
            Answer::Stalled
        } else {
            self.store(bytes, self.lane.clone(), self.enabled.clone());
            Answer::Penned
        }
    }

    fn list(&self, bytes: &mut [u8], moves: &[u8]) -> Result<Answer, Refusal> {
        let entries = list::entries(moves)?;
        Ok(match list::walk(&self.plan, &self.lane, &entries) {
            Ok(after) => {
                self.store(bytes, after, Moves::new());
                Answer::Committed(entries.len())
            }
            Err(index) => Answer::Cancelled(index),
        })
    }

    fn commit(&self, bytes: &mut [u8], interaction: usize) -> Answer {
        let after = self.lane.after(&self.plan, interaction);
        let after = after.expect("a move that ends good is enabled");
        self.store(bytes, after, Moves::new());
        Answer::Committed(interaction)
    }

    fn store(&self, bytes: &mut [u8], lane: Lane, marked: Moves) {
        bytes.copy_from_slice(&image::write(&self.plan, &Stored { lane, marked }));
    }
}
