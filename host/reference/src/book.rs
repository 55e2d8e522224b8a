//! The book of demand 3: it keeps the moves done and the moves crossed off, and no image.

use crate::answer::{answer_of, Answer, Refusal};
use crate::image::{self, Stored, IMAGE_BYTES};
use crate::lane::{self, Lane, Moves};
use crate::list;
use crate::plan::Plan;

/// What the book is told of a call.
#[derive(Clone, Copy, Debug, PartialEq, Eq)]
pub enum Call<'a> {
    Start,
    Offered,
    Try(u32),
    Settle,
    /// The bytes of a list.
    List(&'a [u8]),
}

pub struct Book {
    plan: Plan,
    done: Vec<usize>,
    crossed_off: Moves,
}

impl Book {
    /// The book after start.
    pub fn new(plan: Plan) -> Book {
        Book {
            plan,
            done: Vec::new(),
            crossed_off: Moves::new(),
        }
    }

    /// The answer to a call and, for offered, its bits.
    pub fn call(&mut self, call: Call) -> (Answer, u64) {
        match call {
            Call::Start => {
                self.done.clear();
                self.crossed_off.clear();
                (Answer::Accepted, 0)
            }
            Call::Offered => (Answer::Accepted, self.offered()),
            Call::Try(number) => (answer_of(self.attempt(number)), 0),
            Call::Settle => (self.settle(), 0),
            Call::List(moves) => (answer_of(self.list(moves)), 0),
        }
    }

    /// The lane with the set as marks.
    pub fn image(&self) -> [u8; IMAGE_BYTES] {
        image::write(
            &self.plan,
            &Stored {
                lane: self.lane(),
                marked: self.crossed_off.clone(),
            },
        )
    }

    /// The starting state, its event read, after the listed moves in turn.
    fn lane(&self) -> Lane {
        let step = |lane: Lane, &interaction: &usize| {
            lane.after(&self.plan, interaction)
                .expect("a listed move was enabled after those before it")
        };
        self.done.iter().fold(Lane::start(&self.plan), step)
    }

    fn offered(&self) -> u64 {
        let enabled = self.lane().enabled(&self.plan);
        image::bits(&lane::offered(&self.plan, &enabled, &self.crossed_off))
    }

    fn attempt(&mut self, number: u32) -> Result<Answer, Refusal> {
        let lane = self.lane();
        let enabled = lane.enabled(&self.plan);
        let interaction = number as usize;
        if interaction >= self.plan.interactions.len() {
            return Err(Refusal::NoSuchMove);
        }
        if !enabled.contains(&interaction) {
            return Err(Refusal::NotEnabled);
        }
        if lane::outranked(&self.plan, &enabled, &self.crossed_off, interaction) {
            return Err(Refusal::Outranked);
        }
        if self.crossed_off.contains(&interaction) {
            return Err(Refusal::Marked);
        }
        if lane.ends_good(&self.plan, interaction) {
            Ok(self.commit(interaction))
        } else {
            self.crossed_off.insert(interaction);
            Ok(Answer::Cancelled(interaction))
        }
    }

    fn settle(&mut self) -> Answer {
        let lane = self.lane();
        let enabled = lane.enabled(&self.plan);
        if let Some(interaction) = lane.settled(&self.plan) {
            self.commit(interaction)
        } else if enabled.is_empty() {
            Answer::Stalled
        } else {
            self.crossed_off.extend(enabled);
            Answer::Penned
        }
    }

    fn list(&mut self, moves: &[u8]) -> Result<Answer, Refusal> {
        let entries = list::entries(moves)?;
        if let Err(index) = list::walk(&self.plan, &self.lane(), &entries) {
            return Ok(Answer::Cancelled(index));
        }
        self.add(&entries);
        Ok(Answer::Committed(entries.len()))
    }

    fn commit(&mut self, interaction: usize) -> Answer {
        self.add(&[interaction]);
        Answer::Committed(interaction)
    }

    /// Adds to the moves done, and empties the set.
    fn add(&mut self, moves: &[usize]) {
        self.done.extend(moves);
        self.crossed_off.clear();
    }
}
