//! What a call shows of ranks and marks (02, job 3): a marked interaction holds none down, and settling ranks among the moves that end good.

use reference::answer::{Answer, Refusal};
use reference::image::{self, Stored};
use reference::lane::{Lane, Moves};
use reference::plan::Plan;

use crate::engines::Call;
use crate::named::named;

named! {
    Fact, FACTS:
    Offered = "offered, with a marked one above",
    Committed = "tried and committed, with a marked one above",
    Cancelled = "tried and cancelled, with a marked one above",
    Outranked = "18, with a marked one above as well",
    Marked = "19, with a marked one above",
    FalseMark = "14 by an unmarked enabled one above a mark alone",
    TrueMark = "not 14, with a marked one above a mark",
    BelowBad = "settled on a move below a bad one",
    PassedOver = "settled past a lower number that ends good",
    Between = "settled on a number between a lower move and a good one above that",
    PennedBelow = "penned, and a move with an unmarked one above is marked",
    PennedFurther = "penned, with some marked before and others not",
    WithoutMarks = "settled with marks, and the same without them",
}

/// A lane in a lawful state in which an enabled interaction lies above another; its marks may be false.
pub struct Ranked {
    plan: Plan,
    lane: Lane,
    enabled: Moves,
    marked: Moves,
}

impl Ranked {
    /// None where the call reads no image, for a list, to which marks are nothing, where plan or image has another fault than its marks, and
    /// where no enabled interaction lies above another: the ranks then play no part.
    pub fn read(call: Call, plan: &[u8], image: &[u8]) -> Option<Ranked> {
        if matches!(call, Call::Check | Call::Start | Call::List(_)) || call.is_of_log() {
            return None;
        }
        let plan = Plan::read(plan).ok()?;
        let Stored { lane, marked } = image::read_unjudged(&plan, image).ok()?;
        let ranked = Ranked {
            enabled: lane.enabled(&plan),
            plan,
            lane,
            marked,
        };
        let is_ranked = ranked.enabled.iter().any(|&i| ranked.is_below(i));
        is_ranked.then_some(ranked)
    }

    /// What the answer shows, with its bits where moves were offered.
    pub fn facts(&self, call: Call, answer: Answer, bits: u64) -> Vec<Fact> {
        let mut facts = Vec::new();
        let mut note = |fact, shown: bool| facts.extend(shown.then_some(fact));
        if answer == Answer::Refused(Refusal::FalseMark) {
            note(Fact::FalseMark, self.is_false_by_rank_alone());
            return facts;
        }
        note(
            Fact::TrueMark,
            self.marked.iter().any(|&i| self.is_below(i)),
        );
        let below_marked = |number: u32| self.above(number as usize).any(|i| self.is_marked(i));
        match (call, answer) {
            (Call::Try(number), _) => facts.extend(tried(answer).filter(|_| below_marked(number))),
            (_, Answer::Accepted) => note(Fact::Offered, self.any_below(bits)),
            (_, Answer::Committed(chosen)) => facts.extend(self.settled(chosen)),
            (_, Answer::Penned) => facts.extend(self.penned()),
            _ => {}
        }
        facts
    }

    /// The enabled interactions above this one, which is of the plan.
    fn above(&self, interaction: usize) -> impl Iterator<Item = usize> + '_ {
        let enabled = self.enabled.iter().copied();
        enabled.filter(move |&above| self.plan.below(interaction, above))
    }

    fn is_below(&self, interaction: usize) -> bool {
        self.above(interaction).next().is_some()
    }

    fn any_below(&self, bits: u64) -> bool {
        let mut enabled = self.enabled.iter();
        enabled.any(|&i| bits >> i & 1 == 1 && self.is_below(i))
    }

    fn is_marked(&self, interaction: usize) -> bool {
        self.marked.contains(&interaction)
    }

    fn is_good(&self, interaction: usize) -> bool {
        self.lane.ends_good(&self.plan, interaction)
    }

    /// Whether each mark is on an enabled interaction that ends bad.
    fn is_false_by_rank_alone(&self) -> bool {
        let mut marked = self.marked.iter();
        marked.all(|&i| self.enabled.contains(&i) && !self.is_good(i))
    }

    fn settled(&self, chosen: usize) -> Vec<Fact> {
        let lower: Vec<usize> = self.enabled.range(..chosen).copied().collect();
        let higher_good = |above| above > chosen && self.is_good(above);
        let mut shown = Vec::new();
        if self.is_below(chosen) {
            shown.push(Fact::BelowBad);
        }
        if lower.iter().any(|&i| self.is_good(i)) {
            shown.push(Fact::PassedOver);
        }
        if lower.iter().any(|&i| self.above(i).any(higher_good)) {
            shown.push(Fact::Between);
        }
        shown
    }

    fn penned(&self) -> Vec<Fact> {
        let newly: Vec<usize> = self.enabled.difference(&self.marked).copied().collect();
        let mut shown = Vec::new();
        if newly
            .iter()
            .any(|&i| self.above(i).any(|above| !self.is_marked(above)))
        {
            shown.push(Fact::PennedBelow);
        }
        if !self.marked.is_empty() && !newly.is_empty() {
            shown.push(Fact::PennedFurther);
        }
        shown
    }
}

/// What a try shows of a move below marked ones.
fn tried(answer: Answer) -> Option<Fact> {
    match answer {
        Answer::Committed(_) => Some(Fact::Committed),
        Answer::Cancelled(_) => Some(Fact::Cancelled),
        Answer::Refused(Refusal::Outranked) => Some(Fact::Outranked),
        Answer::Refused(Refusal::Marked) => Some(Fact::Marked),
        _ => None,
    }
}
