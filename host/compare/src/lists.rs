//! What handing in a list shows (02, job 6): its answers, by their causes.

use reference::answer::{Answer, Refusal};
use reference::image::{self, Stored};
use reference::lane::{Lane, Moves};
use reference::list::{self, MOST_MOVES};
use reference::plan::Plan;

use crate::list::List;
use crate::named::named;

named! {
    Listed, LISTED:
    Committed = "committed",
    Through = "committed through verdict 1",
    ThroughTwice = "committed through two entries of verdict 1",
    BelowBad = "committed, with an entry below one of verdict 0",
    Longest = "committed, of eight moves",
    ClearedMarks = "committed, and marks cleared",
    First = "cancelled at index 0",
    Later = "cancelled at a later entry",
    AfterHalf = "cancelled at an entry behind one of verdict 1",
    End = "cancelled at the number of entries, at verdict 1",
    KeptMarks = "cancelled, and marks kept",
    NoSuchMove = "cancelled by a number of I or more",
    Greatest = "cancelled by an entry of 65535",
    NotEnabled = "cancelled by an entry not enabled",
    Bad = "cancelled by an entry of verdict 0",
    BelowGood = "cancelled below a good move",
    BelowHalf = "cancelled below moves to verdict 1 alone",
    BelowMarked = "cancelled below marked moves alone",
    WithoutMarks = "handed in with marks, and the same without them",
    Empty = "22 by an empty list",
    Odd = "22 by an odd number of bytes alone",
    TooLong = "22 by nine moves or more",
    FarTooLong = "22 by more moves than a byte can count",
    RefusedWithMarks = "22, and marks kept",
    BothMarkAndList = "14, and the list is wrong too",
    OfPlanOrImage = "refused with a number of plan or image",
}

/// What the answer to a list shows.
pub fn listed(plan: &[u8], image: &[u8], list: &List, answer: Answer) -> Vec<Listed> {
    match answer {
        Answer::Refused(Refusal::BadList) => refused(image, list),
        Answer::Refused(Refusal::FalseMark) if list::entries(list.bytes()).is_err() => {
            vec![Listed::OfPlanOrImage, Listed::BothMarkAndList]
        }
        Answer::Refused(_) => vec![Listed::OfPlanOrImage],
        _ => Walked::new(plan, image, list).shown(answer),
    }
}

/// Whether a lawful image has marks.
fn is_marked(image: &[u8]) -> bool {
    image[16..24].iter().any(|&byte| byte != 0)
}

fn refused(image: &[u8], list: &List) -> Vec<Listed> {
    let length = list.bytes().len();
    let mut shown = vec![match length {
        0 => Listed::Empty,
        _ if length / 2 > MOST_MOVES => Listed::TooLong,
        _ => Listed::Odd,
    }];
    if length / 2 > 255 {
        shown.push(Listed::FarTooLong);
    }
    if is_marked(image) {
        shown.push(Listed::RefusedWithMarks);
    }
    shown
}

/// A lawful list on a lawful lane.
struct Walked {
    plan: Plan,
    marked: Moves,
    entries: Vec<usize>,
    /// The lane before each entry that was reached, and after the last one that is allowed.
    lanes: Vec<Lane>,
}

impl Walked {
    fn new(plan: &[u8], image: &[u8], list: &List) -> Walked {
        let plan = Plan::read(plan).expect("the plan passed the check");
        let Stored { lane, marked } =
            image::read(&plan, image).expect("the image passed the check");
        let mut walked = Walked {
            entries: list.entries(),
            lanes: vec![lane],
            plan,
            marked,
        };
        for n in 0..walked.entries.len() {
            match list::step(&walked.plan, &walked.lanes[n], walked.entries[n]) {
                Some(after) => walked.lanes.push(after),
                None => break,
            }
        }
        walked
    }

    fn shown(&self, answer: Answer) -> Vec<Listed> {
        match answer {
            Answer::Committed(_) => self.committed(),
            Answer::Cancelled(index) if index == self.entries.len() => {
                [vec![Listed::End], self.kept()].concat()
            }
            Answer::Cancelled(index) => [self.stopped(index), self.kept()].concat(),
            _ => Vec::new(),
        }
    }

    /// How many entries were left at verdict 1.
    fn halves(&self) -> usize {
        let is_half = |lane: &&Lane| lane.verdict(&self.plan) == 1;
        self.lanes.iter().filter(is_half).count()
    }

    fn committed(&self) -> Vec<Listed> {
        let mut shown = vec![Listed::Committed];
        let mut note = |what, is_shown: bool| shown.extend(is_shown.then_some(what));
        let below = |n: usize| !self.above(n, |_| true).is_empty();
        note(Listed::Through, self.halves() > 0);
        note(Listed::ThroughTwice, self.halves() > 1);
        note(Listed::BelowBad, (0..self.entries.len()).any(below));
        note(Listed::Longest, self.entries.len() == MOST_MOVES);
        note(Listed::ClearedMarks, !self.marked.is_empty());
        shown
    }

    fn kept(&self) -> Vec<Listed> {
        Vec::from_iter((!self.marked.is_empty()).then_some(Listed::KeptMarks))
    }

    fn stopped(&self, index: usize) -> Vec<Listed> {
        let mut shown = vec![match index {
            0 => Listed::First,
            _ => Listed::Later,
        }];
        if self.halves() > 0 {
            shown.push(Listed::AfterHalf);
        }
        shown.extend(self.why(index));
        shown
    }

    /// Why an entry is not allowed.
    fn why(&self, index: usize) -> Vec<Listed> {
        let entry = self.entries[index];
        if entry >= self.plan.interactions.len() {
            let greatest = entry == usize::from(u16::MAX);
            return [Listed::NoSuchMove, Listed::Greatest][..1 + usize::from(greatest)].to_vec();
        }
        let Some(after) = self.lanes[index].after(&self.plan, entry) else {
            return vec![Listed::NotEnabled];
        };
        if after.verdict(&self.plan) == 0 {
            return vec![Listed::Bad];
        }
        let above = self.above(index, |end| end.verdict(&self.plan) != 0);
        let good = |&i: &usize| self.lanes[index].ends_good(&self.plan, i);
        let mut shown = vec![match above.iter().any(good) {
            true => Listed::BelowGood,
            false => Listed::BelowHalf,
        }];
        if index == 0 && above.iter().all(|i| self.marked.contains(i)) {
            shown.push(Listed::BelowMarked);
        }
        shown
    }

    /// The enabled interactions above an entry whose end a test admits.
    fn above(&self, index: usize, admits: impl Fn(&Lane) -> bool) -> Vec<usize> {
        let (lane, entry) = (&self.lanes[index], self.entries[index]);
        let above = (0..self.plan.interactions.len()).filter(|&i| self.plan.below(entry, i));
        above
            .filter(|&i| lane.after(&self.plan, i).is_some_and(|end| admits(&end)))
            .collect()
    }
}
