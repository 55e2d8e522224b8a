//! What a lane's turn shows (02, job 7): why it was this lane's, its outcome, and what became of the waits.

use reference::answer::{Answer, Refusal};
use reference::image::{self, IMAGE_BYTES};
use reference::plan::Plan;
use reference::roster::Record;

use crate::named::named;

named! {
    Turned, TURNED:
    Committed = "committed",
    Stalled = "stalled",
    Penned = "penned",
    OtherPlan = "refused with 12",
    State = "refused with 13",
    FalseMark = "refused with 14",
    UsedUp = "refused, and its wait cleared",
    BesideRefused = "committed, and another lane's image would be refused",
    OneLane = "of the only lane",
    EighthLane = "of the eighth lane",
    Longest = "waited longer than each other unheld lane",
    LongestHigher = "waited longer than an unheld lane of a lower number",
    PastMiddle = "waited past 32767, and another unheld lane did not",
    Tie = "a tie, and the lowest number",
    TieAtEnd = "a tie at 65535",
    TieAtZero = "a tie at 0",
    HeldLonger = "a held lane that waited longer passed over",
    HeldLower = "a held lane of a lower number passed over on a tie",
    HeldOtherwise = "a lane that is held by another byte than 1 passed over",
    HeldEven = "a lane that is held by an even byte passed over",
    Stopped = "the wait of an unheld lane stopped at 65535",
    HeldStopped = "the wait of a held lane stopped at 65535",
    Came = "a wait came to 65535",
    HeldGrew = "the wait of a held lane grew",
    AsSettled = "a settling of the lane's bytes alone does the same",
    OfBook = "held against the lane's own book",
    Last = "the last of the turns within which the lane must have one",
    Between = "a call on a lane's own bytes between turns, held against its book",
    Anew = "a damaged lane started anew between turns",
}

/// A turn that was given, idle or refused.
pub struct Made<'a> {
    pub plan: &'a [u8],
    pub roster: &'a [Record],
    pub images: &'a [u8],
    pub lane: Option<usize>,
    pub answer: Answer,
}

impl Made<'_> {
    /// What a lane's turn shows.
    pub fn turned(&self) -> Vec<Turned> {
        match self.lane {
            Some(lane) => [
                self.outcome(lane),
                self.among_unheld(lane),
                self.past_held(lane),
                self.others_waits(lane),
            ]
            .concat(),
            None => Vec::new(),
        }
    }

    /// Whether the plan is lawful, and an image whose lane a test admits would be refused with 12 or 13.
    pub fn is_damaged(&self, admits: impl Fn(usize) -> bool) -> bool {
        let Ok(plan) = Plan::read(self.plan) else {
            return false;
        };
        let images = self.images.chunks_exact(IMAGE_BYTES).enumerate();
        let mut admitted = images.filter(|(lane, _)| admits(*lane));
        admitted.any(|(_, bytes)| image::read_unjudged(&plan, bytes).is_err())
    }

    fn others(&self, lane: usize) -> impl Iterator<Item = &Record> {
        let is_other = move |record: &&Record| usize::from(record.number) != lane;
        self.roster.iter().filter(is_other)
    }

    fn outcome(&self, lane: usize) -> Vec<Turned> {
        let is_refused = matches!(self.answer, Answer::Refused(_));
        let is_committed = matches!(self.answer, Answer::Committed(_));
        let beside_refused = is_committed && self.is_damaged(|other| other != lane);
        let mut shown = Vec::from_iter(of_answer(self.answer));
        let mut note = |what, is_shown: bool| shown.extend(is_shown.then_some(what));
        note(Turned::UsedUp, is_refused && self.roster[lane].wait > 0);
        note(Turned::BesideRefused, beside_refused);
        note(Turned::OneLane, self.roster.len() == 1);
        note(Turned::EighthLane, lane == 7);
        shown
    }

    fn among_unheld(&self, lane: usize) -> Vec<Turned> {
        let Record { number, wait, .. } = self.roster[lane];
        let unheld = self.others(lane).filter(|other| !other.is_held());
        let unheld = Vec::from_iter(unheld);
        let is_tie = unheld.iter().any(|other| other.wait == wait);
        let waited_less = |other: &&Record| other.number < number && other.wait < wait;
        let below_middle = unheld.iter().any(|other| other.wait <= 32_767);
        let mut shown = Vec::new();
        let mut note = |what, is_shown: bool| shown.extend(is_shown.then_some(what));
        note(Turned::Longest, !unheld.is_empty() && !is_tie);
        note(Turned::LongestHigher, unheld.iter().any(waited_less));
        note(Turned::PastMiddle, wait > 32_767 && below_middle);
        note(Turned::Tie, is_tie);
        note(Turned::TieAtEnd, is_tie && wait == u16::MAX);
        note(Turned::TieAtZero, is_tie && wait == 0);
        shown
    }

    /// The held lanes that would have had the turn before this one.
    fn past_held(&self, lane: usize) -> Vec<Turned> {
        let Record { number, wait, .. } = self.roster[lane];
        let held = self.others(lane).filter(|other| other.is_held());
        let before = held.filter(|o| o.wait > wait || o.wait == wait && o.number < number);
        let shown = before.flat_map(|other| {
            let why = match other.wait > wait {
                true => Turned::HeldLonger,
                false => Turned::HeldLower,
            };
            let otherwise = (other.held != 1).then_some(Turned::HeldOtherwise);
            let even = (other.held % 2 == 0).then_some(Turned::HeldEven);
            [Some(why), otherwise, even].into_iter().flatten()
        });
        shown.collect()
    }

    fn others_waits(&self, lane: usize) -> Vec<Turned> {
        let shown = self.others(lane).flat_map(|other| {
            let came = (other.wait == u16::MAX - 1).then_some(Turned::Came);
            let end = match (other.wait == u16::MAX, other.is_held()) {
                (true, true) => Some(Turned::HeldStopped),
                (true, false) => Some(Turned::Stopped),
                (false, true) => Some(Turned::HeldGrew),
                (false, false) => None,
            };
            [came, end].into_iter().flatten()
        });
        shown.collect()
    }
}

fn of_answer(answer: Answer) -> Option<Turned> {
    match answer {
        Answer::Committed(_) => Some(Turned::Committed),
        Answer::Stalled => Some(Turned::Stalled),
        Answer::Penned => Some(Turned::Penned),
        Answer::Refused(Refusal::OtherPlan) => Some(Turned::OtherPlan),
        Answer::Refused(Refusal::State) => Some(Turned::State),
        Answer::Refused(Refusal::FalseMark) => Some(Turned::FalseMark),
        _ => None,
    }
}
