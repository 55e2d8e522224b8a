//! Random sequences of calls on random plans, held against the reference and the book.

mod lanes;
mod lists;
mod logs;
mod turns;

use std::ops::Range;

use reference::answer::Answer;
use reference::book::Book;
use reference::draft::Draft;
use reference::image::IMAGE_BYTES;
use reference::plan::Plan;

use crate::checked::{self, Checked, Comparer, Outcome};
use crate::difference::Difference;
use crate::engines::{Call, Reply};
use crate::generate::Generated;
use crate::lent::{LentPlan, Shelf};
use crate::lists::Listed;
use crate::older::{self, Has};
use crate::ranking::Fact;
use crate::rng::Rng;
use crate::tally::Tally;
use crate::{damage, generate, images};

/// The marks of an image.
const MARKS: Range<usize> = 16..24;

pub struct Session {
    rng: Rng,
    pub tally: Tally,
    comparer: Comparer,
    /// What all engines have: lists are handed in, plans have verdict 1 and turns are given only where they do.
    has: Has,
    plans: Shelf,
    /// An image that another plan reached.
    other: Vec<u8>,
    /// The last log.
    log: Vec<u8>,
}

impl Session {
    pub fn new(seed: u64, comparer: Comparer) -> Session {
        Session {
            rng: Rng::new(seed),
            tally: Tally::default(),
            has: comparer.has(),
            comparer,
            plans: Shelf::default(),
            other: vec![0; IMAGE_BYTES],
            log: Vec::new(),
        }
    }

    /// Rounds until so many calls are compared; ends early with the first difference.
    pub fn compare(&mut self, calls: u64) -> Checked<()> {
        while self.tally.calls < calls {
            self.round()?;
        }
        Ok(())
    }

    /// What never occurred, and should have.
    pub fn missing(&self) -> Vec<String> {
        self.tally.missing(self.has)
    }

    /// Whether all engines know what a plan may hold.
    fn takes(&self, plan: &[u8]) -> bool {
        self.has.lists || !older::has_verdict_1(plan)
    }

    fn new_plan(&mut self) -> Generated {
        loop {
            let made = generate::plan(&mut self.rng);
            if self.takes(&made.draft.bytes()) {
                return made;
            }
        }
    }

    /// One lawful plan: a sequence of calls with others between, a box of lanes, then calls on damaged plans.
    fn round(&mut self) -> Checked<()> {
        let made = self.new_plan();
        self.tally.plan(&made);
        let plan = self.plans.lend(&made.draft.bytes());
        let mut image = vec![0; IMAGE_BYTES];
        self.rng.fill(&mut image);
        self.call(&plan, &image, Call::Check)?;
        let damaged = images::damaged(&mut self.rng, &image, &made.draft, &self.other);
        self.call(&plan, &damaged, Call::Start)?;
        let started = self.call(&plan, &image, Call::Start)?;
        image = started.image;
        if started.answer == Answer::Accepted {
            let started = image.clone();
            image = self.sequence(&made.draft, &plan, image)?;
            if self.has.turns && self.rng.chance(35) {
                self.box_of_lanes(&made.draft, &plan, &started)?;
            }
            self.other.clone_from(&image);
            self.log_of_run(&plan)?;
        }
        self.any_log(&plan)?;
        if self.has.turns && self.rng.chance(50) {
            self.any_turn(&made.draft, &plan, &image)?;
        }
        for _ in 0..4 {
            self.damaged_plan(&made.draft, &image)?;
        }
        self.plans.take_back(plan);
        Ok(())
    }

    /// The calls after an accepted start; gives the last image.
    fn sequence(&mut self, draft: &Draft, plan: &LentPlan, started: Vec<u8>) -> Checked<Vec<u8>> {
        let lawful = Plan::read(plan.bytes()).expect("a started plan is lawful");
        let mut book = Book::new(lawful);
        let mut image = started;
        let mut offer = 0;
        let (mut calls, mut moves) = (0, Vec::new());
        for _ in 0..self.rng.pick(&[4, 12, 12, 30, 60]) {
            self.detour(draft, plan, &image)?;
            let call = self.next_call(draft, plan, &image, offer);
            let outcome = self.call(plan, &image, call)?;
            self.hold_against(&mut book, plan, &image, call, &outcome)?;
            image = outcome.image;
            calls += 1;
            note_moves(&mut moves, call, outcome.answer);
            match (call, outcome.answer) {
                (Call::Offered | Call::Bits, Answer::Accepted) => offer = outcome.bits,
                (_, Answer::Stalled | Answer::Penned) if self.rng.chance(50) => break,
                _ => {}
            }
        }
        self.tally.sequence(calls, moves.len());
        self.log_of_sequence(plan, &moves)?;
        Ok(image)
    }

    fn call(&mut self, plan: &LentPlan, image: &[u8], call: Call) -> Checked<Outcome> {
        let outcome = self.comparer.compare(&mut self.tally, plan, image, call)?;
        let ignores_marks = matches!(call, Call::Settle | Call::List(_));
        if ignores_marks && outcome.answer.kind() != yard::REFUSED {
            self.call_unmarked(plan, image, call, &outcome)?;
        }
        Ok(outcome)
    }

    /// Settles or hands in the list without the marks, as before the tries that were cancelled: answer and image must be the same, but for the
    /// marks that a cancelled list leaves.
    fn call_unmarked(
        &mut self,
        plan: &LentPlan,
        image: &[u8],
        call: Call,
        outcome: &Outcome,
    ) -> Checked<()> {
        let mut unmarked = image.to_vec();
        unmarked[MARKS].fill(0);
        if unmarked == image {
            return Ok(());
        }
        let other = self
            .comparer
            .compare(&mut self.tally, plan, &unmarked, call)?;
        match call {
            Call::List(_) => self.tally.listed(Listed::WithoutMarks),
            _ => self.tally.fact(Fact::WithoutMarks),
        }
        let mut expected = other.image;
        if matches!(other.answer, Answer::Cancelled(_)) {
            expected[MARKS].copy_from_slice(&image[MARKS]);
        }
        let first_byte = checked::first_difference(&outcome.image, &expected);
        if outcome.answer == other.answer && first_byte.is_none() {
            return Ok(());
        }
        Err(Box::new(Difference {
            what: "the same call without the marks",
            call,
            call_number: self.tally.calls,
            said: ("all with the marks", Reply::of(call, outcome.answer, 0)),
            expected: ("all without them", Reply::of(call, other.answer, 0)),
            first_byte,
            plan: plan.bytes().to_vec(),
            lent: image.to_vec(),
        }))
    }

    /// Now and then, calls apart from the sequence: on another image or with a damaged plan.
    fn detour(&mut self, draft: &Draft, plan: &LentPlan, image: &[u8]) -> Checked<()> {
        match self.rng.below(20) {
            0..=3 => {
                let damaged = images::damaged(&mut self.rng, image, draft, &self.other);
                self.any_call(draft, plan, &damaged)?;
            }
            4 => {
                let redressed = images::redressed(&mut self.rng, image, draft);
                let outcome = self.any_call(draft, plan, &redressed)?;
                self.any_call(draft, plan, &outcome.image)?;
            }
            5 => self.damaged_plan(draft, image)?,
            6 | 7 => self.marked_image(draft, plan, image)?,
            _ => {}
        }
        Ok(())
    }

    /// What is on offer in the image, or in one of another state, with other marks, and a call on it that often tries one of these or hands in a list.
    fn marked_image(&mut self, draft: &Draft, plan: &LentPlan, image: &[u8]) -> Checked<()> {
        let state = match self.rng.chance(50) {
            true => images::redressed(&mut self.rng, image, draft),
            false => image.to_vec(),
        };
        let marked = images::marked(&mut self.rng, &state, draft);
        let offer = self.call(plan, &marked, Call::Bits)?.bits;
        let call = match self.has.lists && self.rng.chance(30) {
            true => Call::List(self.next_list(plan, &marked)),
            false => self.next_call(draft, plan, &marked, offer),
        };
        self.call(plan, &marked, call)?;
        Ok(())
    }

    /// A check of a damaged plan, and another call with it.
    fn damaged_plan(&mut self, draft: &Draft, image: &[u8]) -> Checked<()> {
        let bytes = damage::plan(&mut self.rng, draft);
        if !self.takes(&bytes) {
            return Ok(());
        }
        let plan = self.plans.lend(&bytes);
        self.call(&plan, image, Call::Check)?;
        if self.rng.chance(5) {
            let damaged = images::damaged(&mut self.rng, image, draft, &self.other);
            self.any_call(draft, &plan, &damaged)?;
        }
        self.any_call(draft, &plan, image)?;
        if self.rng.chance(10) {
            self.any_log(&plan)?;
        }
        if self.has.turns && self.rng.chance(10) {
            self.any_turn(draft, &plan, image)?;
        }
        self.plans.take_back(plan);
        Ok(())
    }

    fn any_call(&mut self, draft: &Draft, plan: &LentPlan, image: &[u8]) -> Checked<Outcome> {
        let call = self.next_call(draft, plan, image, 0);
        self.call(plan, image, call)
    }

    /// A call for a sequence; a try is often of a move that was on offer, and a list often of moves that are allowed.
    fn next_call(&mut self, draft: &Draft, plan: &LentPlan, image: &[u8], offer: u64) -> Call {
        match self.rng.below(100) {
            0..=2 => Call::Start,
            3..=8 => Call::Offered,
            9..=17 => Call::Bits,
            18..=38 => Call::Settle,
            39..=53 if self.has.lists => Call::List(self.next_list(plan, image)),
            _ => Call::Try(self.number(draft.interactions.len(), offer)),
        }
    }

    fn number(&mut self, interactions: usize, offer: u64) -> u32 {
        let on_offer: Vec<u32> = (0..64).filter(|&i| offer >> i & 1 == 1).collect();
        match self.rng.below(100) {
            0..=49 if !on_offer.is_empty() => self.rng.pick(&on_offer),
            96 => interactions as u32,
            97 => self.rng.pick(&[64, 65, 255, 256, 65_536, u32::MAX]),
            98 => (self.rng.below(interactions) as u32) | 1 << self.rng.between(6, 31),
            99 => self.rng.next() as u32,
            _ => self.rng.below(interactions) as u32,
        }
    }

    /// Feeds the book the call; its answer and its image must be the outcome's.
    fn hold_against(
        &mut self,
        book: &mut Book,
        plan: &LentPlan,
        image: &[u8],
        call: Call,
        outcome: &Outcome,
    ) -> Checked<()> {
        let Some(told) = call.told() else {
            return Ok(());
        };
        let (answer, bits) = book.call(told);
        let said = Reply::of(call, outcome.answer, outcome.bits);
        let expected = Reply::of(call, answer, bits);
        let first_byte = checked::first_difference(&outcome.image, &book.image());
        if said == expected && first_byte.is_none() {
            return Ok(());
        }
        Err(Box::new(Difference {
            what: "answer or image of the book",
            call,
            call_number: self.tally.calls,
            said: ("library and reference", said),
            expected: ("book", expected),
            first_byte,
            plan: plan.bytes().to_vec(),
            lent: image.to_vec(),
        }))
    }
}

/// Notes what a call on a lane committed; a start begins anew.
fn note_moves(moves: &mut Vec<usize>, call: Call, answer: Answer) {
    match (call, answer) {
        (Call::Start, Answer::Accepted) => moves.clear(),
        (Call::List(list), Answer::Committed(_)) => moves.extend(list.entries()),
        (_, Answer::Committed(number)) => moves.push(number),
        _ => {}
    }
}

#[cfg(test)]
mod tests {
    use super::*;
    use crate::engines::{Engine, BASELINE};

    /// The C baseline stands in the library's place too.
    #[test]
    fn the_baseline_agrees_and_everything_occurs() {
        let mut session = Session::new(2, Comparer::with(2, BASELINE));
        if let Err(difference) = session.compare(60_000) {
            difference.report(2);
            panic!("a difference");
        }
        assert_eq!(session.missing(), [""; 0]);
    }

    const WITHOUT_TURNS: Engine = Engine {
        name: "without turns",
        turn: |_, _, _| yard::turn_of(0),
        ..BASELINE
    };

    fn assert_compared_in_all_else(older: Engine) {
        let comparer = Comparer::with(2, BASELINE).and_older(older);
        let mut session = Session::new(2, comparer);
        assert!(session.compare(40_000).is_ok());
        assert_eq!(session.missing(), [""; 0]);
    }

    #[test]
    fn an_older_build_without_turns_is_compared_in_all_else() {
        assert_compared_in_all_else(WITHOUT_TURNS);
    }

    /// As an older build that has no lists and refuses verdict 1.
    #[test]
    fn an_older_build_without_lists_is_compared_in_all_else() {
        assert_compared_in_all_else(Engine {
            name: "without lists",
            check: |plan| match older::has_verdict_1(plan) {
                true => panic!("verdict 1"),
                false => (BASELINE.check)(plan),
            },
            list: |_, _, _| yard::answer(0),
            ..WITHOUT_TURNS
        });
    }
}
