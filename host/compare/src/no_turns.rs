//! What a turn shows that no lane has (02, job 7): all are held, or plan or roster is refused.

use reference::answer::{Answer, Refusal};
use reference::image::IMAGE_BYTES;
use reference::roster::{is_lawful, place, Record, MOST_LANES};

use crate::named::named;
use crate::turns::Made;

named! {
    NoTurn, NO_TURNS:
    Idle = "idle",
    IdleBelowEnd = "idle, and each wait could have grown",
    IdleDamaged = "idle, and an image would be refused",
    NoLanes = "23 by no lanes alone",
    NineLanes = "23 by nine lanes alone",
    FarTooMany = "23 by more lanes than a byte can count",
    Numbers = "23 by lane numbers alone",
    NumbersFrom1 = "23 by lane numbers from 1 on alone",
    Swapped = "23 by lane numbers out of order alone",
    Short = "23 by a byte less alone",
    Long = "23 by a byte more alone",
    OtherLanes = "23 by the images of another number of lanes alone",
    RosterAndHeld = "23, and all lanes are held",
    RosterAndImage = "23, and an image would be refused",
    Plan = "refused with a number of the plan",
    PlanAndRoster = "refused with a number of the plan, and 23 fits too",
    PlanAndHeld = "refused with a number of the plan, and all lanes are held",
}

impl Made<'_> {
    /// What a turn shows that no lane has.
    pub fn no_turn(&self) -> Vec<NoTurn> {
        match (self.lane, self.answer) {
            (Some(_), _) => Vec::new(),
            (None, Answer::Idle) => self.idle(),
            (None, Answer::Refused(Refusal::BadRoster)) => self.bad_roster(),
            (None, _) => self.bad_plan(),
        }
    }

    fn all_held(&self) -> bool {
        !self.roster.is_empty() && self.roster.iter().all(Record::is_held)
    }

    fn idle(&self) -> Vec<NoTurn> {
        let could_grow = |record: &Record| record.wait < u16::MAX;
        let mut shown = vec![NoTurn::Idle];
        if self.roster.iter().all(could_grow) {
            shown.push(NoTurn::IdleBelowEnd);
        }
        if self.is_damaged(|_| true) {
            shown.push(NoTurn::IdleDamaged);
        }
        shown
    }

    fn bad_roster(&self) -> Vec<NoTurn> {
        let mut shown = self.why();
        if self.all_held() {
            shown.push(NoTurn::RosterAndHeld);
        }
        if self.is_damaged(|_| true) {
            shown.push(NoTurn::RosterAndImage);
        }
        shown
    }

    /// What breaks the rule of 23, where it is one thing alone; the numbers of more lanes than a byte can count cannot run on.
    fn why(&self) -> Vec<NoTurn> {
        let lanes = self.roster.len();
        let numbers = self.roster.iter().map(|record| record.number.into());
        let numbers = Vec::<usize>::from_iter(numbers);
        let count_fits = (1..=MOST_LANES).contains(&lanes);
        let numbers_fit = numbers.iter().copied().eq(0..lanes);
        let (length, right) = (self.images.len(), place(lanes).start);
        match (count_fits, numbers_fit, length == right) {
            (false, true, true) if lanes == 0 => vec![NoTurn::NoLanes],
            (false, true, true) if lanes == 9 => vec![NoTurn::NineLanes],
            (false, _, _) if lanes > 255 => vec![NoTurn::FarTooMany],
            (true, false, true) => why_numbers(&numbers),
            (true, true, false) => Vec::from_iter(why_length(length, right)),
            _ => Vec::new(),
        }
    }

    fn bad_plan(&self) -> Vec<NoTurn> {
        let mut shown = vec![NoTurn::Plan];
        if !is_lawful(self.roster, self.images) {
            shown.push(NoTurn::PlanAndRoster);
        } else if self.all_held() {
            shown.push(NoTurn::PlanAndHeld);
        }
        shown
    }
}

fn why_numbers(numbers: &[usize]) -> Vec<NoTurn> {
    let mut shown = vec![NoTurn::Numbers];
    if numbers.iter().copied().eq(1..=numbers.len()) {
        shown.push(NoTurn::NumbersFrom1);
    }
    if (0..numbers.len()).all(|number| numbers.contains(&number)) {
        shown.push(NoTurn::Swapped);
    }
    shown
}

fn why_length(length: usize, right: usize) -> Option<NoTurn> {
    if length + 1 == right {
        Some(NoTurn::Short)
    } else if length == right + 1 {
        Some(NoTurn::Long)
    } else {
        length
            .is_multiple_of(IMAGE_BYTES)
            .then_some(NoTurn::OtherLanes)
    }
}
