//! How often each call, answer and refusal occurred.

use std::fmt;

use reference::answer::{Answer, Refusal};
use reference::draft::Draft;
use reference::sums::Past;

use crate::causes::{Cause, CAUSES};
use crate::engines::Call;
use crate::generate::Generated;
use crate::halves::{Half, HALVES};
use crate::lists::{Listed, LISTED};
use crate::logs::{Shown, SHOWN};
use crate::no_turns::{NoTurn, NO_TURNS};
use crate::older::Has;
use crate::ranking::{Fact, FACTS};
use crate::turns::{Turned, TURNED};

const CALLS: [&str; 10] = [
    "check", "start", "offered", "bits", "try", "settle", "list", "turn", "log", "index",
];
/// One past the highest refusal, that of a roster.
const REFUSALS: usize = Refusal::BadRoster as usize + 1;
const KINDS: [&str; 8] = [
    "accepted",
    "committed",
    "cancelled",
    "stalled",
    "penned",
    "refused",
    "wrong",
    "idle",
];
const SUMS: [&str; 3] = ["add", "subtract", "kind 1"];
const ENDS: [&str; 2] = ["upper", "lower"];
const SIZES: [&str; 11] = [
    "components",
    "variables",
    "transitions",
    "interactions",
    "propositions",
    "oracle states",
    "added oracles",
    "states of an added one",
    "code words",
    "words in a span",
    "depth",
];

#[derive(Default)]
pub struct Tally {
    pub calls: u64,
    answers: [[u64; KINDS.len()]; CALLS.len()],
    refusals: [u64; REFUSALS],
    causes: [u64; CAUSES.len()],
    facts: [u64; FACTS.len()],
    shown: [u64; SHOWN.len()],
    listed: [u64; LISTED.len()],
    halves: [u64; HALVES.len()],
    turned: [u64; TURNED.len()],
    no_turns: [u64; NO_TURNS.len()],
    past: Past,
    plans: u64,
    /// Those with a state of verdict 1.
    plans_with_halves: u64,
    largest: [usize; 11],
    book: u64,
    most_moves: usize,
}

impl Tally {
    pub fn count(&mut self, call: Call, answer: Answer) {
        self.calls += 1;
        self.answers[call.row()][answer.kind() as usize] += 1;
        if let Answer::Refused(refusal) = answer {
            self.refusals[refusal as usize] += 1;
        }
    }

    pub fn cause(&mut self, cause: Cause) {
        self.causes[cause as usize] += 1;
    }

    pub fn fact(&mut self, fact: Fact) {
        self.facts[fact as usize] += 1;
    }

    pub fn shown(&mut self, shown: Shown) {
        self.shown[shown as usize] += 1;
    }

    pub fn listed(&mut self, listed: Listed) {
        self.listed[listed as usize] += 1;
    }

    pub fn half(&mut self, half: Half) {
        self.halves[half as usize] += 1;
    }

    pub fn turned(&mut self, turned: Turned) {
        self.turned[turned as usize] += 1;
    }

    pub fn no_turn(&mut self, no_turn: NoTurn) {
        self.no_turns[no_turn as usize] += 1;
    }

    /// Counts the results of one call that went past an end.
    pub fn past(&mut self, past: Past) {
        let counts = self.past.as_flattened_mut().iter_mut();
        for (all, more) in counts.zip(past.as_flattened()) {
            *all += more;
        }
    }

    pub fn plan(&mut self, made: &Generated) {
        self.plans += 1;
        self.plans_with_halves += u64::from(has_halves(&made.draft));
        for (largest, size) in self.largest.iter_mut().zip(sizes(made)) {
            *largest = size.max(*largest);
        }
    }

    /// Counts calls of a sequence, which a book was told of, and its moves.
    pub fn sequence(&mut self, calls: u64, moves: usize) {
        self.book += calls;
        self.most_moves = moves.max(self.most_moves);
    }

    /// The answer kinds, refusals, causes, facts and results past an end that never occurred; those of lists, of verdict 1 and of turns where there are any.
    pub fn missing(&self, has: Has) -> Vec<String> {
        let of_lists = never(LISTED, &self.listed).chain(never(HALVES, &self.halves));
        let of_turns = never(TURNED, &self.turned).chain(never(NO_TURNS, &self.no_turns));
        self.kinds_missing(has)
            .chain(self.refusals_missing(has))
            .chain(never(CAUSES, &self.causes))
            .chain(never(FACTS, &self.facts))
            .chain(never(SHOWN, &self.shown))
            .chain(self.never_past())
            .chain(of_lists.filter(|_| has.lists))
            .chain(of_turns.filter(|_| has.turns))
            .collect()
    }

    fn kinds_missing(&self, has: Has) -> impl Iterator<Item = String> + '_ {
        let kinds = (0..KINDS.len()).filter(move |&n| has.turns || n as u32 != yard::IDLE);
        let never = kinds.filter(|&kind| self.answers.iter().all(|row| row[kind] == 0));
        never.map(|kind| KINDS[kind].to_string())
    }

    fn refusals_missing(&self, has: Has) -> impl Iterator<Item = String> + '_ {
        let refusals = (1..REFUSALS).filter(move |&n| match n {
            _ if n == Refusal::BadList as usize => has.lists,
            _ if n == Refusal::BadRoster as usize => has.turns,
            _ => true,
        });
        let never = refusals.filter(|&n| self.refusals[n] == 0);
        never.map(|n| format!("refusal {n}"))
    }

    /// The ends that no result of an operation went past.
    fn never_past(&self) -> Vec<String> {
        let ends = (0..3).flat_map(|sum| [(sum, 0), (sum, 1)]);
        let never = ends.filter(|&(sum, end)| self.past[sum][end] == 0);
        never
            .map(|(sum, end)| format!("{} past the {} end", SUMS[sum], ENDS[end]))
            .collect()
    }
}

/// The names whose count is 0.
fn never<'a>(names: &'a [&str], counts: &'a [u64]) -> impl Iterator<Item = String> + 'a {
    let counted = names.iter().zip(counts);
    let never = counted.filter(|(_, &count)| count == 0);
    never.map(|(name, _)| name.to_string())
}

/// Whether an oracle has a state of verdict 1.
fn has_halves(draft: &Draft) -> bool {
    let mut states = draft.oracle.iter().chain(draft.added.iter().flatten());
    states.any(|state| state.verdict == 1)
}

/// A line for each name with its count.
fn listed(f: &mut fmt::Formatter, title: &str, names: &[&str], counts: &[u64]) -> fmt::Result {
    write!(f, "\n\n{title}")?;
    for (name, count) in names.iter().zip(counts) {
        write!(f, "\n  {name}: {count}")?;
    }
    Ok(())
}

fn sizes(made: &Generated) -> [usize; 11] {
    let draft = &made.draft;
    [
        draft.components.len(),
        draft.variables.len(),
        draft.transitions.len(),
        draft.interactions.len(),
        draft.propositions.len(),
        draft.oracle.len(),
        draft.added.len(),
        draft.added.iter().map(Vec::len).max().unwrap_or(0),
        draft.code.len(),
        longest_span(draft),
        made.depth,
    ]
}

fn longest_span(draft: &Draft) -> usize {
    let transitions = draft.transitions.iter().flat_map(|t| [t.guard, t.action]);
    let interactions = draft
        .interactions
        .iter()
        .flat_map(|i| [i.guard, i.transfer]);
    let spans = transitions
        .chain(interactions)
        .chain(draft.propositions.iter().copied());
    spans.map(|span| span.length.into()).max().unwrap_or(0)
}

impl fmt::Display for Tally {
    fn fmt(&self, f: &mut fmt::Formatter) -> fmt::Result {
        write!(f, "{:8}", "")?;
        for kind in KINDS {
            write!(f, "{kind:>11}")?;
        }
        for (call, row) in CALLS.iter().zip(&self.answers) {
            write!(f, "\n{call:8}")?;
            for count in row {
                write!(f, "{count:11}")?;
            }
        }
        write!(f, "\n\nrefusals")?;
        for (number, count) in self.refusals.iter().enumerate().skip(1) {
            let gap = if number % 7 == 1 { "\n " } else { "" };
            write!(f, "{gap} {number:2}:{count:<7}")?;
        }
        listed(f, "by added oracles", CAUSES, &self.causes)?;
        listed(f, "by ranks and marks", FACTS, &self.facts)?;
        listed(f, "lists", LISTED, &self.listed)?;
        listed(f, "at verdict 1", HALVES, &self.halves)?;
        listed(f, "turns of a lane", TURNED, &self.turned)?;
        listed(f, "turns of no lane", NO_TURNS, &self.no_turns)?;
        listed(f, "logs", SHOWN, &self.shown)?;
        write!(f, "\n\nresults past the upper and the lower end")?;
        for (name, [upper, lower]) in SUMS.iter().zip(self.past) {
            write!(f, "\n  {name}: {upper}, {lower}")?;
        }
        write!(f, "\n\n{} accepted plans", self.plans)?;
        write!(f, ", {} with verdict 1", self.plans_with_halves)?;
        write!(f, "; the largest sizes:")?;
        for (n, (name, size)) in SIZES.iter().zip(self.largest).enumerate() {
            write!(f, "{}{name} {size}", if n % 5 == 0 { "\n  " } else { ", " })?;
        }
        writeln!(f, "\n  moves in one sequence {}", self.most_moves)?;
        writeln!(f, "\n{} calls held against the book\n", self.book)
    }
}
