//! Random runs from the starting state under the ranks, and their logs: whole, or spoilt in one place.

use reference::lane::Lane;
use reference::log;
use reference::plan::Plan;

use crate::rng::Rng;

/// The ways to spoil a log.
const WAYS: [fn(&Run, &mut Rng) -> Vec<u8>; 9] = [
    disabled,
    outranked,
    outranked_and_bad,
    bad,
    past_the_last,
    past_the_last,
    swapped,
    cut_off,
    lengthened,
];

pub struct Run {
    plan: Plan,
    moves: Vec<usize>,
    /// The lane before each move, and after the last.
    lanes: Vec<Lane>,
}

impl Run {
    /// A run of so many moves of a plan whose start is good, or fewer where it ends.
    pub fn new(rng: &mut Rng, plan: Plan, most: usize) -> Run {
        let mut run = Run {
            lanes: vec![Lane::start(&plan)],
            moves: Vec::new(),
            plan,
        };
        while run.moves.len() < most && run.go_on(rng) {}
        run
    }

    /// Makes one more move; false where there is none.
    fn go_on(&mut self, rng: &mut Rng) -> bool {
        let at = self.moves.len();
        let right = self.numbers(at, |run, i| run.is_good(at, i) && !run.is_below_good(at, i));
        if right.is_empty() {
            return false;
        }
        let chosen = rng.pick(&right);
        let after = self.lanes[at].after(&self.plan, chosen);
        self.moves.push(chosen);
        self.lanes.extend(after);
        true
    }

    pub fn log(&self) -> Vec<u8> {
        log_of(&self.moves)
    }

    /// Whether a move lies below an enabled one; that one does not end good.
    pub fn is_below_bad(&self) -> bool {
        let moves = self.moves.iter().enumerate();
        let is_below = |(at, &low): (usize, &usize)| {
            let above = self.numbers(at, |run, high| run.plan.below(low, high));
            !above.is_empty()
        };
        moves.into_iter().any(is_below)
    }

    /// The log with one fault; it may be a run all the same.
    pub fn spoilt(&self, rng: &mut Rng) -> Vec<u8> {
        rng.pick(&WAYS)(self, rng)
    }

    /// The interactions that are enabled before a move, or at the end, and that a test admits.
    fn numbers(&self, at: usize, admits: impl Fn(&Run, usize) -> bool) -> Vec<usize> {
        let enabled = self.lanes[at].enabled(&self.plan).into_iter();
        enabled.filter(|&i| admits(self, i)).collect()
    }

    fn is_good(&self, at: usize, interaction: usize) -> bool {
        self.lanes[at].ends_good(&self.plan, interaction)
    }

    fn is_below_good(&self, at: usize, interaction: usize) -> bool {
        log::good_above(&self.plan, &self.lanes[at], interaction)
            .next()
            .is_some()
    }

    /// A place for another entry: the first one often, or behind the last.
    fn place(&self, rng: &mut Rng) -> usize {
        match rng.chance(20) {
            true => 0,
            false => rng.below(self.lanes.len()),
        }
    }

    /// The log with another entry at a place: one of these, or where there is none one past the last interaction.
    fn with(&self, rng: &mut Rng, at: usize, numbers: &[usize]) -> Vec<u8> {
        let number = match numbers.is_empty() {
            true => past(rng, self.plan.interactions.len()),
            false => rng.pick(numbers),
        };
        let rest = self.moves.iter().skip(at + 1);
        let moves = self.moves[..at].iter().chain([&number]).chain(rest);
        log_of(&Vec::from_iter(moves.copied()))
    }

    /// The log with one of the enabled interactions that a test admits at a place; where there is none, other places are looked at.
    fn with_enabled(&self, rng: &mut Rng, admits: impl Fn(usize, usize) -> bool) -> Vec<u8> {
        let places = [0; 4].map(|_| self.place(rng));
        let numbers = places.map(|at| self.numbers(at, |_, i| admits(at, i)));
        let found = numbers.iter().position(|numbers| !numbers.is_empty());
        let found = found.unwrap_or(0);
        self.with(rng, places[found], &numbers[found])
    }
}

/// Moves as a log.
pub fn log_of(moves: &[usize]) -> Vec<u8> {
    let entries = moves.iter().map(|&number| number as u16);
    entries.flat_map(u16::to_le_bytes).collect()
}

/// A number that no interaction has, at most 65535.
pub fn past(rng: &mut Rng, interactions: usize) -> usize {
    match rng.below(6) {
        0 | 1 => interactions,
        2 => rng.below(interactions) | 1 << rng.between(6, 15),
        3 => rng.between(interactions, 65_535),
        4 => rng.pick(&[64, 255, 256, 32_768]),
        _ => 65_535,
    }
}

fn disabled(run: &Run, rng: &mut Rng) -> Vec<u8> {
    let at = run.place(rng);
    let enabled = run.lanes[at].enabled(&run.plan);
    let numbers = (0..run.plan.interactions.len()).filter(|i| !enabled.contains(i));
    run.with(rng, at, &Vec::from_iter(numbers))
}

fn outranked(run: &Run, rng: &mut Rng) -> Vec<u8> {
    run.with_enabled(rng, |at, i| run.is_below_good(at, i))
}

fn outranked_and_bad(run: &Run, rng: &mut Rng) -> Vec<u8> {
    run.with_enabled(rng, |at, i| run.is_below_good(at, i) && !run.is_good(at, i))
}

fn bad(run: &Run, rng: &mut Rng) -> Vec<u8> {
    run.with_enabled(rng, |at, i| {
        !run.is_below_good(at, i) && !run.is_good(at, i)
    })
}

fn past_the_last(run: &Run, rng: &mut Rng) -> Vec<u8> {
    let at = run.place(rng);
    run.with(rng, at, &[])
}

fn swapped(run: &Run, rng: &mut Rng) -> Vec<u8> {
    let mut moves = run.moves.clone();
    if let Some(last) = moves.len().checked_sub(1) {
        moves.swap(rng.below(last + 1), rng.below(last + 1));
    }
    log_of(&moves)
}

fn cut_off(run: &Run, rng: &mut Rng) -> Vec<u8> {
    let mut log = run.log();
    if !log.is_empty() {
        log.remove(rng.below(log.len()));
    }
    log
}

fn lengthened(run: &Run, rng: &mut Rng) -> Vec<u8> {
    let mut log = run.log();
    log.insert(rng.below(log.len() + 1), rng.byte());
    log
}
