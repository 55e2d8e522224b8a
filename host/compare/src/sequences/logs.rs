//! The logs of a session: of its moves, of runs, spoilt ones, and ones that nobody wrote.

use reference::answer::{Answer, Cause};
use reference::lane::Lane;
use reference::plan::Plan;

use super::Session;
use crate::checked::{Checked, Outcome};
use crate::difference::Difference;
use crate::engines::{Call, Reply};
use crate::halves::Half;
use crate::lent::LentPlan;
use crate::logs::Shown;
use crate::runs::{self, Run};

/// The moves of a long run, in plans whose moves are soon made.
const LONG: usize = 600;
const ACCEPTED: (Answer, u64) = (Answer::Accepted, 0);

/// The index of the first of the moves, made in turn from the start, that ends at verdict 1.
fn first_half(plan: &LentPlan, moves: &[usize]) -> Option<u64> {
    let plan = Plan::read(plan.bytes()).expect("a started plan is lawful");
    let mut lane = Lane::start(&plan);
    let mut ends = moves.iter().map(|&number| {
        lane = lane.after(&plan, number).expect("the move was made");
        lane.verdict(&plan)
    });
    ends.position(|verdict| verdict == 1).map(|at| at as u64)
}

impl Session {
    /// Both calls on a log; it is kept for other plans.
    fn log(&mut self, plan: &LentPlan, log: Vec<u8>) -> Checked<Outcome> {
        self.log = log;
        let mut compare = |call| {
            self.comparer
                .compare(&mut self.tally, plan, &self.log, call)
        };
        compare(Call::LogIndex)?;
        compare(Call::Log)
    }

    /// The log of moves that were made must be accepted, or be wrong where they passed through verdict 1.
    fn expected_log(
        &mut self,
        plan: &LentPlan,
        log: Vec<u8>,
        expected: (Answer, u64),
        whose: &'static str,
    ) -> Checked<()> {
        let outcome = self.log(plan, log)?;
        if (outcome.answer, outcome.bits) == expected {
            return Ok(());
        }
        let call = Call::Log;
        Err(Box::new(Difference {
            what: whose,
            call,
            call_number: self.tally.calls,
            said: ("all", Reply::of(call, outcome.answer, outcome.bits)),
            expected: (
                "whoever made the moves",
                Reply::of(call, expected.0, expected.1),
            ),
            first_byte: None,
            plan: plan.bytes().to_vec(),
            lent: self.log.clone(),
        }))
    }

    /// The moves that a sequence committed. The first that a list took to verdict 1 is wrong, since it ends bad, and no other.
    pub(super) fn log_of_sequence(&mut self, plan: &LentPlan, moves: &[usize]) -> Checked<()> {
        let half = first_half(plan, moves);
        let wrong = |index| (Answer::Wrong(Cause::Bad), index);
        let expected = half.map_or(ACCEPTED, wrong);
        let log = runs::log_of(moves);
        self.expected_log(plan, log, expected, "log of a sequence's moves")?;
        if half.is_some() {
            self.tally.half(Half::OfSequence);
        } else if !moves.is_empty() {
            self.tally.shown(Shown::OfSequence);
        }
        Ok(())
    }

    /// A run's log, and the same spoilt.
    pub(super) fn log_of_run(&mut self, plan: &LentPlan) -> Checked<()> {
        let lawful = Plan::read(plan.bytes()).expect("a started plan is lawful");
        let is_small = lawful.interactions.len() <= 8;
        let most = match is_small && self.rng.chance(10) {
            true => LONG,
            false => self.rng.pick(&[0, 1, 3, 8, 20]),
        };
        let run = Run::new(&mut self.rng, lawful, most);
        self.expected_log(plan, run.log(), ACCEPTED, "log of a run")?;
        if run.is_below_bad() {
            self.tally.shown(Shown::BelowBad);
        }
        for _ in 0..2 {
            let spoilt = run.spoilt(&mut self.rng);
            self.log(plan, spoilt)?;
        }
        Ok(())
    }

    /// A log that has nothing to do with the plan: empty, the last one, small numbers, or random bytes.
    pub(super) fn any_log(&mut self, plan: &LentPlan) -> Checked<()> {
        let log = match self.rng.below(4) {
            0 => Vec::new(),
            1 => self.log.clone(),
            2 => {
                let length = self.rng.below(5);
                runs::log_of(&Vec::from_iter((0..length).map(|_| self.rng.below(4))))
            }
            _ => {
                let mut log = vec![0; self.rng.below(9)];
                self.rng.fill(&mut log);
                log
            }
        };
        self.log(plan, log)?;
        Ok(())
    }
}
