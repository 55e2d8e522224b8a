//! Random lawful code.

use reference::draft::{Component, Span};

use crate::rng::Rng;

const MOST_DEPTH: usize = 8;
const ADD: u16 = 0x6000;
const SUBTRACT: u16 = 0x6001;
/// The operator that pops one value.
const NOT: u16 = 6;

#[derive(Clone, Copy, PartialEq, Eq)]
pub enum Role {
    Guard,
    /// An action or a transfer.
    Update,
    Proposition,
}

/// What a span is for and what it may name.
pub struct Scope<'a> {
    pub role: Role,
    pub variables: &'a [u16],
    pub components: &'a [Component],
}

/// The code of a plan being generated.
pub struct Writer {
    pub code: Vec<u16>,
    /// The number of code words that the plan will have.
    words: usize,
    /// How many spans in a hundred are empty.
    empty: usize,
    pub deepest: usize,
}

impl Writer {
    pub fn new(rng: &mut Rng, words: usize) -> Writer {
        Writer {
            code: Vec::new(),
            words,
            empty: rng.pick(&[10, 40, 70]),
            deepest: 0,
        }
    }

    /// A new span; empty where chance or the room left wants it so.
    pub fn span(&mut self, rng: &mut Rng, scope: &Scope) -> Span {
        let length = length(rng);
        let shortest = if scope.role == Role::Update { 2 } else { 1 };
        let unnamed = scope.role == Role::Update && scope.variables.is_empty();
        if unnamed || length < shortest || length > self.room() || rng.chance(self.empty) {
            return Span {
                start: rng.between(0, self.words) as u16,
                length: 0,
            };
        }
        self.write(rng, scope, length)
    }

    /// A proposition in room kept for it, often one test alone.
    pub fn proposition(&mut self, rng: &mut Rng, scope: &Scope, room: usize) -> Span {
        if rng.chance(60) {
            self.code.push(test(rng, scope.components));
            return Span {
                start: self.code.len() as u16 - 1,
                length: 1,
            };
        }
        let length = length(rng).min(room);
        self.write(rng, scope, length)
    }

    /// Fills the code up to its number of words with words that no span holds.
    pub fn fill(&mut self, rng: &mut Rng) {
        while self.code.len() < self.words {
            self.code.push(rng.next() as u16);
        }
    }

    /// How many words can still be written.
    pub fn room(&self) -> usize {
        self.words - self.code.len()
    }

    fn write(&mut self, rng: &mut Rng, scope: &Scope, length: usize) -> Span {
        let style = Style::new(rng);
        let start = self.code.len();
        let end = start + length;
        let mut depth = 0;
        while self.code.len() < end {
            let left = end - self.code.len();
            for word in next_words(rng, scope, &style, depth, left) {
                depth = depth_after(depth, word).expect("the words fit");
                self.deepest = self.deepest.max(depth);
                self.code.push(word);
            }
        }
        Span {
            start: start as u16,
            length: length as u16,
        }
    }
}

/// How the words of a span are chosen, each in so many of a hundred cases.
struct Style {
    /// Something is pushed.
    climb: usize,
    /// What is pushed is a large number.
    large: usize,
    /// What computes is kind 1.
    extend: usize,
    /// An operator is add or subtract; else it is any.
    sums: usize,
}

impl Style {
    /// One span in three sums up large numbers.
    fn new(rng: &mut Rng) -> Style {
        let climb = rng.pick(&[30, 45, 70]);
        let (large, extend, sums) = rng.pick(&[(0, 10, 0), (0, 10, 0), (25, 25, 75)]);
        Style {
            climb,
            large,
            extend,
            sums,
        }
    }
}

fn length(rng: &mut Rng) -> usize {
    match rng.below(100) {
        0..=3 => 64,
        4..=11 => rng.between(1, 64),
        12..=35 => rng.between(1, 20),
        _ => rng.between(1, 5),
    }
}

/// Words, at most as many as are left, after which the others can end the span.
fn next_words(rng: &mut Rng, scope: &Scope, style: &Style, depth: usize, left: usize) -> Vec<u16> {
    loop {
        let words = any_words(rng, scope, style);
        let others = left.checked_sub(words.len());
        let mut each = words.iter();
        let after = each.try_fold(depth, |depth, &word| depth_after(depth, word));
        if let (Some(others), Some(after)) = (others, after) {
            if can_end(scope.role, after, others) {
                return words;
            }
        }
    }
}

/// The depth after a word; none where it pops what is not there or goes too deep.
fn depth_after(depth: usize, word: u16) -> Option<usize> {
    let (pops, pushes) = match (word >> 12, word & 0xfff) {
        (1, _) | (6, NOT) => (1, 1),
        (3, _) => (1, 0),
        (6, _) => (2, 1),
        _ => (0, 1),
    };
    let after = depth.checked_sub(pops)? + pushes;
    (after <= MOST_DEPTH).then_some(after)
}

/// Whether so many words can bring the depth to the one a span ends at.
fn can_end(role: Role, depth: usize, left: usize) -> bool {
    match (role, depth) {
        (Role::Update, 0) => left != 1,
        (Role::Update, _) => depth <= left,
        (_, 0) => false,
        (_, _) => depth - 1 <= left,
    }
}

/// A word that may stand in the scope, or the words of a large number.
fn any_words(rng: &mut Rng, scope: &Scope, style: &Style) -> Vec<u16> {
    if rng.chance(style.climb) {
        return match rng.chance(style.large) {
            true => large(rng),
            false => vec![push(rng, scope)],
        };
    }
    let word = if scope.role == Role::Update && rng.chance(40) {
        0x3000 | rng.pick(scope.variables)
    } else if rng.chance(style.extend) {
        0x1000 | number(rng)
    } else if rng.chance(style.sums) {
        rng.pick(&[ADD, SUBTRACT])
    } else {
        0x6000 | rng.below(8) as u16
    };
    vec![word]
}

/// Words that push a number around 2^31 or around 2^19, from which kind 1 comes there, or the negative of one.
fn large(rng: &mut Rng) -> Vec<u16> {
    let digit = |rng: &mut Rng| 0x1000 | rng.pick(&[0, 1, 4094, 4095]);
    let mut words = vec![rng.pick(&[127, 128]), digit(rng)];
    if rng.chance(50) {
        words.insert(0, 0);
        words.push(SUBTRACT);
    }
    if rng.chance(70) {
        words.push(digit(rng));
    }
    words
}

/// A word that pushes a number, a variable or a test.
fn push(rng: &mut Rng, scope: &Scope) -> u16 {
    if scope.role == Role::Proposition && rng.chance(60) {
        return test(rng, scope.components);
    }
    if scope.variables.is_empty() || rng.chance(40) {
        return number(rng);
    }
    0x2000 | rng.pick(scope.variables)
}

fn number(rng: &mut Rng) -> u16 {
    match rng.below(10) {
        0 => rng.below(4096) as u16,
        1 => 4095,
        _ => rng.below(4) as u16,
    }
}

/// A test of a location or of a last port.
fn test(rng: &mut Rng, components: &[Component]) -> u16 {
    let c = rng.below(components.len());
    let named = (c as u16) << 8;
    if rng.chance(50) {
        0x4000 | named | rng.below(components[c].locations.into()) as u16
    } else if rng.chance(20) {
        0x50ff | named
    } else {
        0x5000 | named | rng.below(components[c].ports.into()) as u16
    }
}
