//! The turns of a session: of boxes whose lanes each have a book, with calls on single lanes between, and of rosters and plans that are refused.

use reference::answer::Answer;
use reference::calls;
use reference::draft::Draft;
use reference::image::IMAGE_BYTES;
use reference::plan::Plan;
use reference::roster::{place, MOST_LANES};

use super::lanes::{Kept, Lanes};
use super::{note_moves, Session};
use crate::checked::{self, Checked, Outcome};
use crate::difference::Difference;
use crate::engines::{Call, Reply};
use crate::lent::LentPlan;
use crate::roster::Roster;
use crate::rosters::{self, Lineup};
use crate::turns::Turned;
use crate::{damage, images};

impl Session {
    /// Turns and other calls on a box of lanes, which the host holds, frees and now and then damages.
    pub(super) fn box_of_lanes(
        &mut self,
        draft: &Draft,
        plan: &LentPlan,
        started: &[u8],
    ) -> Checked<()> {
        let lawful = Plan::read(plan.bytes()).expect("a started plan is lawful");
        let count = self.rng.pick(&[1, 2, 3, 4, 8]);
        let roster = rosters::lawful(&mut self.rng, count);
        let mut lanes = Lanes::new(&lawful, roster, started);
        for _ in 0..self.rng.pick(&[4, 8, 16]) {
            self.host(draft, &mut lanes);
            if self.rng.chance(40) {
                self.call_on_lane(draft, plan, &mut lanes)?;
            }
            if self.rng.chance(15) {
                self.refused_turn(draft, plan, &lanes.lineup)?;
            }
            self.turn_of_box(plan, &mut lanes)?;
        }
        self.log_of_lane(plan, &lanes)
    }

    /// What the host does between turns.
    fn host(&mut self, draft: &Draft, lanes: &mut Lanes) {
        let rng = &mut self.rng;
        let lane = rng.below(lanes.count());
        match rng.below(40) {
            0..=13 => lanes.hold(lane, rosters::held(rng)),
            14 => lanes.hold_all(rng.pick(&[1, 2, 255])),
            15..=17 => lanes.hold_all(0),
            18 | 19 => lanes.set_wait(lane, rosters::wait(rng)),
            20..=22 => {
                let damaged = images::damaged(rng, lanes.image(lane), draft, &self.other);
                if damaged.len() == IMAGE_BYTES {
                    lanes.damage(lane, &damaged);
                }
            }
            _ => {}
        }
    }

    /// A call on the bytes of one lane, held against its book; a damaged lane has a book again from a start on.
    fn call_on_lane(&mut self, draft: &Draft, plan: &LentPlan, lanes: &mut Lanes) -> Checked<()> {
        let lane = self.rng.below(lanes.count());
        let image = lanes.image(lane).to_vec();
        let kept = &mut lanes.kept[lane];
        let (_, offer) = calls::offered(plan.bytes(), &image);
        let call = match kept.is_none() && self.rng.chance(30) {
            true => Call::Start,
            false => self.next_call(draft, plan, &image, offer),
        };
        let outcome = self.call(plan, &image, call)?;
        if kept.is_none() && (call, outcome.answer) == (Call::Start, Answer::Accepted) {
            let lawful = Plan::read(plan.bytes()).expect("a started plan is lawful");
            *kept = Some(Kept::new(lawful));
            self.tally.turned(Turned::Anew);
        }
        if self.hold_against_kept(kept, plan, &image, call, &outcome)? {
            self.tally.turned(Turned::Between);
        }
        lanes.put(lane, &outcome.image);
        Ok(())
    }

    /// Holds a call against the lane's book and notes its moves; false where it has none.
    fn hold_against_kept(
        &mut self,
        kept: &mut Option<Kept>,
        plan: &LentPlan,
        image: &[u8],
        call: Call,
        outcome: &Outcome,
    ) -> Checked<bool> {
        let Some(kept) = kept else {
            return Ok(false);
        };
        self.hold_against(&mut kept.book, plan, image, call, outcome)?;
        note_moves(&mut kept.moves, call, outcome.answer);
        self.tally.sequence(1, kept.moves.len());
        Ok(true)
    }

    fn turn(&mut self, plan: &LentPlan, lineup: &Lineup) -> Checked<Outcome> {
        let call = Call::Turn(Roster::of(&lineup.roster));
        self.comparer
            .compare(&mut self.tally, plan, &lineup.images, call)
    }

    /// A turn of the box. Where a lane has it, a settling of that lane's own bytes gives the same, and no unheld lane waits for longer than it may.
    fn turn_of_box(&mut self, plan: &LentPlan, lanes: &mut Lanes) -> Checked<()> {
        let outcome = self.turn(plan, &lanes.lineup)?;
        if let Some(lane) = outcome.lane {
            self.hold_against_settling(plan, lanes, lane, &outcome)?;
            self.hold_against_waiting(plan, lanes, lane, &outcome)?;
        }
        let roster = outcome.roster.expect("a turn leaves a roster");
        lanes.lineup = Lineup {
            roster: roster.records(),
            images: outcome.image,
        };
        Ok(())
    }

    /// Settles the bytes of the lane that had the turn: answer and bytes are the turn's and its book's, and no other lane's bytes change.
    fn hold_against_settling(
        &mut self,
        plan: &LentPlan,
        lanes: &mut Lanes,
        lane: usize,
        outcome: &Outcome,
    ) -> Checked<()> {
        let image = lanes.image(lane).to_vec();
        let call = Call::Settle;
        let settled = self.call(plan, &image, call)?;
        let mut expected = lanes.lineup.images.clone();
        expected[place(lane)].copy_from_slice(&settled.image);
        let first_byte = checked::first_difference(&outcome.image, &expected);
        if outcome.answer != settled.answer || first_byte.is_some() {
            return Err(Box::new(Difference {
                what: "a settling of the lane's own bytes",
                expected: ("the settling", settled.reply(call)),
                first_byte,
                ..self.wrong_turn(plan, &lanes.lineup, outcome)
            }));
        }
        self.tally.turned(Turned::AsSettled);
        if self.hold_against_kept(&mut lanes.kept[lane], plan, &image, call, &settled)? {
            self.tally.turned(Turned::OfBook);
        }
        Ok(())
    }

    /// A lane that stays unheld has its turn within as many turns as there are lanes.
    fn hold_against_waiting(
        &mut self,
        plan: &LentPlan,
        lanes: &mut Lanes,
        lane: usize,
        outcome: &Outcome,
    ) -> Checked<()> {
        if lanes.count() > 1 && lanes.is_last(lane) {
            self.tally.turned(Turned::Last);
        }
        match lanes.served(lane) {
            None => Ok(()),
            Some(late) => Err(Box::new(Difference {
                what: "a lane that waits for more turns than there are lanes",
                expected: ("one who counts turns", Reply::Index(late as u64)),
                ..self.wrong_turn(plan, &lanes.lineup, outcome)
            })),
        }
    }

    /// A turn on which all agree, and which is wrong all the same.
    fn wrong_turn(&self, plan: &LentPlan, lineup: &Lineup, outcome: &Outcome) -> Difference {
        let call = Call::Turn(Roster::of(&lineup.roster));
        Difference {
            what: "",
            call,
            call_number: self.tally.calls,
            said: ("all", outcome.reply(call)),
            expected: ("all", outcome.reply(call)),
            first_byte: None,
            plan: plan.bytes().to_vec(),
            lent: lineup.images.clone(),
        }
    }

    /// A turn apart from the box's own, with a spoilt roster or a damaged plan.
    fn refused_turn(&mut self, draft: &Draft, plan: &LentPlan, lineup: &Lineup) -> Checked<()> {
        if self.rng.chance(30) {
            let bytes = damage::plan(&mut self.rng, draft);
            let damaged = self.plans.lend(&bytes);
            self.turn(&damaged, lineup)?;
            self.plans.take_back(damaged);
            return Ok(());
        }
        let mut spoilt = lineup.clone();
        spoilt.spoil(&mut self.rng);
        self.turn(plan, &spoilt)?;
        Ok(())
    }

    /// A turn of lanes that no calls led to; the roster is spoilt now and then.
    pub(super) fn any_turn(&mut self, draft: &Draft, plan: &LentPlan, image: &[u8]) -> Checked<()> {
        let count = self.rng.between(1, MOST_LANES);
        let mut lineup = Lineup {
            roster: rosters::lawful(&mut self.rng, count),
            images: (0..count)
                .flat_map(|_| self.any_image(draft, image))
                .collect(),
        };
        if self.rng.chance(35) {
            lineup.spoil(&mut self.rng);
        }
        self.turn(plan, &lineup)?;
        Ok(())
    }

    /// The image, another plan's, or one that is damaged.
    fn any_image(&mut self, draft: &Draft, image: &[u8]) -> Vec<u8> {
        match self.rng.below(8) {
            0 => self.other.clone(),
            1..=3 => {
                let mut damaged = images::damaged(&mut self.rng, image, draft, &self.other);
                damaged.resize(IMAGE_BYTES, 0);
                damaged
            }
            _ => image.to_vec(),
        }
    }

    /// The moves that one of the lanes committed, as a log.
    fn log_of_lane(&mut self, plan: &LentPlan, lanes: &Lanes) -> Checked<()> {
        match &lanes.kept[self.rng.below(lanes.count())] {
            Some(kept) => self.log_of_sequence(plan, &kept.moves),
            None => Ok(()),
        }
    }
}

#[cfg(test)]
mod tests {
    use super::*;
    use crate::checked::Comparer;
    use crate::engines::BASELINE;
    use crate::generate;
    use crate::rng::Rng;
    use reference::roster::Record;

    /// A turn of lane 0 of two, and what is said of it once it was tampered with.
    fn found(tamper: fn(&mut Outcome)) -> Option<&'static str> {
        let mut session = Session::new(1, Comparer::with(1, BASELINE));
        let draft = generate::plan(&mut Rng::new(5)).draft;
        let plan = session.plans.lend(&draft.bytes());
        let started = session.call(&plan, &[0; IMAGE_BYTES], Call::Start);
        let started = started.ok().expect("all agree").image;
        let lawful = Plan::read(plan.bytes()).expect("a generated plan is lawful");
        let record = |number| Record {
            number,
            held: 0,
            wait: 1,
        };
        let mut lanes = Lanes::new(&lawful, [0, 1].map(record).to_vec(), &started);
        let mut outcome = session.turn(&plan, &lanes.lineup).ok().expect("all agree");
        assert_eq!(outcome.lane, Some(0));
        assert!(matches!(outcome.answer, Answer::Committed(_)));
        tamper(&mut outcome);
        let held = session.hold_against_settling(&plan, &mut lanes, 0, &outcome);
        held.err().map(|difference| difference.what)
    }

    #[test]
    fn a_turn_that_is_no_settling_of_its_lane_alone_is_found() {
        let no_settling = Some("a settling of the lane's own bytes");
        assert_eq!(found(|_| {}), None);
        assert_eq!(
            found(|outcome| outcome.answer = Answer::Stalled),
            no_settling
        );
        assert_eq!(found(|outcome| outcome.image[20] ^= 1), no_settling);
        assert_eq!(found(|outcome| outcome.image[312] ^= 1), no_settling);
        assert_eq!(found(|outcome| outcome.image[623] ^= 1), no_settling);
    }
}
