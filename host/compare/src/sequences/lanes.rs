//! The lanes of a box, and what is kept beside their bytes.

use reference::book::Book;
use reference::plan::Plan;
use reference::roster::{place, Record};

use crate::rosters::Lineup;

/// A lane's book and moves, where all of its bytes come from calls.
pub struct Kept {
    pub book: Book,
    pub moves: Vec<usize>,
}

impl Kept {
    /// After a start.
    pub fn new(plan: Plan) -> Kept {
        Kept {
            book: Book::new(plan),
            moves: Vec::new(),
        }
    }
}

pub struct Lanes {
    pub lineup: Lineup,
    /// None for a lane whose image was damaged.
    pub kept: Vec<Option<Kept>>,
    /// How many turns in a row each lane was passed over while it was unheld.
    passed_over: Vec<usize>,
}

impl Lanes {
    /// Lanes that have just been started.
    pub fn new(plan: &Plan, roster: Vec<Record>, started: &[u8]) -> Lanes {
        let count = roster.len();
        Lanes {
            kept: (0..count).map(|_| Some(Kept::new(plan.clone()))).collect(),
            passed_over: vec![0; count],
            lineup: Lineup {
                roster,
                images: started.repeat(count),
            },
        }
    }

    pub fn count(&self) -> usize {
        self.lineup.roster.len()
    }

    pub fn image(&self, lane: usize) -> &[u8] {
        &self.lineup.images[place(lane)]
    }

    pub fn put(&mut self, lane: usize, image: &[u8]) {
        self.lineup.images[place(lane)].copy_from_slice(image);
    }

    /// The host puts another image in the lane's place.
    pub fn damage(&mut self, lane: usize, image: &[u8]) {
        self.put(lane, image);
        self.kept[lane] = None;
    }

    pub fn hold(&mut self, lane: usize, held: u8) {
        self.lineup.roster[lane].held = held;
    }

    pub fn hold_all(&mut self, held: u8) {
        (0..self.count()).for_each(|lane| self.hold(lane, held));
    }

    /// The host sets a wait: how often a lane was passed over is counted anew.
    pub fn set_wait(&mut self, lane: usize, wait: u16) {
        self.lineup.roster[lane].wait = wait;
        self.passed_over.fill(0);
    }

    /// Whether this is the last turn within which the lane must have one.
    pub fn is_last(&self, lane: usize) -> bool {
        self.passed_over[lane] + 1 == self.count()
    }

    /// Notes whose turn it was; gives an unheld lane that was passed over in as many turns as there are lanes.
    pub fn served(&mut self, lane: usize) -> Option<usize> {
        let turns = self.passed_over.iter_mut().zip(&self.lineup.roster);
        for (n, (turns, record)) in turns.enumerate() {
            let is_passed_over = n != lane && !record.is_held();
            *turns = if is_passed_over { *turns + 1 } else { 0 };
        }
        let most = self.count();
        self.passed_over.iter().position(|&turns| turns >= most)
    }
}

#[cfg(test)]
mod tests {
    use super::*;
    use crate::generate;
    use crate::rng::Rng;

    /// Three unheld lanes.
    fn three() -> Lanes {
        let plan = generate::plan(&mut Rng::new(1)).draft.bytes();
        let plan = Plan::read(&plan).expect("a generated plan is lawful");
        let record = |number| Record {
            number,
            held: 0,
            wait: 0,
        };
        Lanes::new(&plan, [0, 1, 2].map(record).to_vec(), &[0; 312])
    }

    #[test]
    fn an_unheld_lane_that_is_passed_over_too_often_is_named() {
        let mut lanes = three();
        assert_eq!(
            [0, 1, 0].map(|lane| lanes.served(lane)),
            [None, None, Some(2)]
        );
        let mut lanes = three();
        assert_eq!([0, 1].map(|lane| lanes.served(lane)), [None; 2]);
        assert!(lanes.is_last(2) && !lanes.is_last(1));
        assert_eq!([2, 0, 1, 2].map(|lane| lanes.served(lane)), [None; 4]);
    }

    #[test]
    fn turns_are_counted_anew_once_a_lane_was_held_or_a_wait_set() {
        let mut lanes = three();
        assert_eq!([0, 1].map(|lane| lanes.served(lane)), [None; 2]);
        lanes.hold(2, 255);
        assert_eq!(lanes.served(0), None);
        lanes.hold(2, 0);
        assert_eq!([1, 0].map(|lane| lanes.served(lane)), [None; 2]);
        lanes.set_wait(0, 9);
        assert_eq!([0, 1].map(|lane| lanes.served(lane)), [None; 2]);
        assert_eq!(lanes.served(0), Some(2));
    }
}
