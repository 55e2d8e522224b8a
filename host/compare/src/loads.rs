//! Random lists of moves on a lane: allowed ones, often through verdict 1, and ones that are spoilt in one place.

use reference::lane::Lane;
use reference::list::{self, MOST_MOVES};
use reference::log;
use reference::plan::Plan;

use crate::list::List;
use crate::rng::Rng;
use crate::runs::{log_of, past};

/// The ways to spoil a list.
const WAYS: [fn(&Load, &mut Rng) -> List; 12] = [
    ends_half,
    ends_half,
    disabled,
    bad,
    held_down,
    below_halves,
    below_halves,
    past_the_last,
    swapped,
    cut_off,
    too_long,
    wrong_length,
];

/// How many interactions are looked at for one of a kind.
const LOOKED_AT: usize = 16;

struct Load<'a> {
    plan: &'a Plan,
    moves: Vec<usize>,
    /// The lane before each move, and after the last.
    lanes: Vec<Lane>,
}

/// A list for a lane.
pub fn on_lane(rng: &mut Rng, plan: &Plan, lane: &Lane) -> List {
    let most = rng.pick(&[1, 2, 2, 3, 4, MOST_MOVES]);
    let load = Load::new(rng, plan, lane, most);
    match rng.chance(50) {
        true => load.whole(rng),
        false => rng.pick(&WAYS)(&load, rng),
    }
}

/// A list that has nothing to do with a lane.
pub fn any(rng: &mut Rng) -> List {
    let mut bytes = log_of(&Vec::from_iter((0..rng.below(4)).map(|_| rng.below(4))));
    if rng.chance(30) {
        bytes.push(rng.byte());
    }
    List::new(&bytes)
}

impl Load<'_> {
    /// So many moves that are allowed in turn, or fewer where there are no more.
    fn new<'a>(rng: &mut Rng, plan: &'a Plan, lane: &Lane, most: usize) -> Load<'a> {
        let mut load = Load {
            plan,
            moves: Vec::new(),
            lanes: vec![lane.clone()],
        };
        while load.moves.len() < most && load.go_on(rng) {}
        load
    }

    /// Makes one more move, to verdict 1 or elsewhere; false where none is found.
    fn go_on(&mut self, rng: &mut Rng) -> bool {
        let to_half = rng.chance(50);
        let is_wanted = |load: &Load, end: &Lane| load.is_half(end) == to_half;
        let found = self
            .find(rng, is_wanted)
            .or_else(|| self.find(rng, |_, _| true));
        let Some((number, end)) = found else {
            return false;
        };
        self.moves.push(number);
        self.lanes.push(end);
        true
    }

    /// Whether an interaction leads to a verdict other than 0.
    fn leads_on(&self, lane: &Lane, interaction: usize) -> bool {
        let after = lane.after(self.plan, interaction);
        after.is_some_and(|end| end.verdict(self.plan) != 0)
    }

    /// A move that is allowed at the end and whose own end a test admits.
    fn find(&self, rng: &mut Rng, admits: impl Fn(&Load, &Lane) -> bool) -> Option<(usize, Lane)> {
        let lane = self.lanes.last()?;
        let order = rng.shuffled(self.plan.interactions.len()).into_iter();
        let mut allowed = order
            .take(LOOKED_AT)
            .filter_map(|i| Some((i, list::step(self.plan, lane, i)?)));
        allowed.find(|(_, end)| admits(self, end))
    }

    fn is_half(&self, lane: &Lane) -> bool {
        lane.verdict(self.plan) == 1
    }

    /// The moves up to the last that ends good, or now and then all.
    fn whole(&self, rng: &mut Rng) -> List {
        let good = self.lanes.iter().rposition(|lane| !self.is_half(lane));
        let kept = match good {
            Some(kept @ 1..) if rng.chance(90) => kept,
            _ => self.moves.len(),
        };
        List::of(&self.moves[..kept])
    }

    /// A place for another entry: the first one often, or behind the last.
    fn place(&self, rng: &mut Rng) -> usize {
        match rng.chance(30) {
            true => 0,
            false => rng.below(self.lanes.len()),
        }
    }

    /// The list with another entry at a place, or with one more.
    fn with(&self, at: usize, number: usize) -> List {
        let mut moves = self.moves.clone();
        match moves.get_mut(at) {
            Some(entry) => *entry = number,
            None => moves.push(number),
        }
        List::of(&moves)
    }

    /// The list with an interaction that a test admits at a place, or where none is found one past the last.
    fn with_one(&self, rng: &mut Rng, admits: impl Fn(&Lane, usize) -> bool) -> List {
        for at in [0; 3].map(|_| self.place(rng)) {
            let order = rng.shuffled(self.plan.interactions.len()).into_iter();
            let mut looked_at = order.take(LOOKED_AT);
            if let Some(number) = looked_at.find(|&i| admits(&self.lanes[at], i)) {
                return self.with(at, number);
            }
        }
        past_the_last(self, rng)
    }
}

/// Cut behind a move that ends at verdict 1.
fn ends_half(load: &Load, rng: &mut Rng) -> List {
    let halves = (1..load.lanes.len()).filter(|&n| load.is_half(&load.lanes[n]));
    match Vec::from_iter(halves) {
        halves if halves.is_empty() => load.whole(rng),
        halves => List::of(&load.moves[..rng.pick(&halves)]),
    }
}

fn disabled(load: &Load, rng: &mut Rng) -> List {
    load.with_one(rng, |lane, i| lane.after(load.plan, i).is_none())
}

fn bad(load: &Load, rng: &mut Rng) -> List {
    load.with_one(rng, |lane, i| {
        let after = lane.after(load.plan, i);
        after.is_some_and(|end| end.verdict(load.plan) == 0)
    })
}

/// A move of another verdict than 0 that is not allowed all the same.
fn held_down(load: &Load, rng: &mut Rng) -> List {
    load.with_one(rng, |lane, i| {
        load.leads_on(lane, i) && list::step(load.plan, lane, i).is_none()
    })
}

/// The same, with no good move above it.
fn below_halves(load: &Load, rng: &mut Rng) -> List {
    load.with_one(rng, |lane, i| {
        load.leads_on(lane, i)
            && list::step(load.plan, lane, i).is_none()
            && log::good_above(load.plan, lane, i).next().is_none()
    })
}

fn past_the_last(load: &Load, rng: &mut Rng) -> List {
    let number = past(rng, load.plan.interactions.len());
    load.with(load.place(rng), number)
}

fn swapped(load: &Load, rng: &mut Rng) -> List {
    let mut moves = load.moves.clone();
    if let Some(last) = moves.len().checked_sub(1) {
        moves.swap(rng.below(last + 1), rng.below(last + 1));
    }
    List::of(&moves)
}

/// A byte less, or one more.
fn cut_off(load: &Load, rng: &mut Rng) -> List {
    let mut bytes = log_of(&load.moves);
    match rng.chance(50) {
        true => drop(bytes.pop()),
        false => bytes.push(rng.byte()),
    }
    List::new(&bytes)
}

/// More than eight moves: the same ones again.
fn too_long(load: &Load, rng: &mut Rng) -> List {
    let length = rng.pick(&[9, 9, 10, 16, 257, 258]);
    let moves = load.moves.iter().copied().chain([0]);
    let moves = Vec::from_iter(moves);
    List::of(&Vec::from_iter(moves.iter().copied().cycle().take(length)))
}

fn wrong_length(load: &Load, rng: &mut Rng) -> List {
    match rng.chance(40) {
        true => List::new(&[]),
        false => too_long(load, rng),
    }
}
