//! The places of a plan's fields, and the layout that its counts give.

use std::ops::Range;

use crate::added::{self, Added, Shares};

pub const HEAD_BYTES: usize = 48;
/// The longest lawful plan.
pub const MOST_BYTES: usize = 16_128;
pub const LETTERS: &[u8; 4] = b"PLAN";
pub const NUMBER: usize = 4;
pub const LENGTH: usize = 8;
pub const FIRST: usize = 22;
pub const OFFSETS: usize = 26;
pub const ZEROS: Range<usize> = 46..48;
pub const MOST_STATES: usize = 32;

/// A count of the header: its name, its place and its range.
pub struct CountRule {
    pub name: &'static str,
    pub at: usize,
    pub least: usize,
    pub most: usize,
}

impl CountRule {
    pub fn allows(&self, count: usize) -> bool {
        (self.least..=self.most).contains(&count)
    }
}

const fn rule(name: &'static str, at: usize, least: usize, most: usize) -> CountRule {
    CountRule {
        name,
        at,
        least,
        most,
    }
}

pub const COUNTS: [CountRule; 7] = [
    rule("components", 10, 1, 16),
    rule("variables", 12, 0, 64),
    rule("transitions", 14, 0, 256),
    rule("interactions", 16, 1, 64),
    rule("propositions", 18, 0, 4),
    rule("oracle states", 20, 1, MOST_STATES),
    rule("code words", 24, 0, 4096),
];

pub const SECTIONS: [&str; 8] = [
    "components",
    "variables",
    "transitions",
    "interactions",
    "rank rows",
    "propositions",
    "oracle states",
    "code",
];

/// The 16-bit field at a place; none where the bytes end before it does.
pub fn field(bytes: &[u8], at: usize) -> Option<usize> {
    let pair = bytes.get(at..at + 2)?;
    Some(usize::from(u16::from_le_bytes([pair[0], pair[1]])))
}

/// The plan number; none where the bytes end before it does.
pub fn number(bytes: &[u8]) -> Option<u32> {
    let four = bytes.get(NUMBER..NUMBER + 4)?;
    Some(u32::from_le_bytes(four.try_into().ok()?))
}

/// The seven counts of 16 bits, in the order of `COUNTS`, and the added oracles.
#[derive(Clone, Copy, Debug, PartialEq, Eq)]
pub struct Counts {
    pub fields: [usize; 7],
    pub added: Added,
}

impl Counts {
    /// The header's counts, whatever they are.
    pub fn stated(bytes: &[u8]) -> Option<Counts> {
        let mut fields = [0; 7];
        for (count, rule) in fields.iter_mut().zip(&COUNTS) {
            *count = field(bytes, rule.at)?;
        }
        let added = Added::stated(bytes);
        Some(Counts { fields, added })
    }

    /// The counts for which the sections have room as the header lays them out: none unless every offset, the stated length and the file's
    /// own agree with counts in their ranges. Where the stated counts are in their ranges too, the first oracle state must agree as well.
    pub fn laid_out(bytes: &[u8]) -> Option<Counts> {
        let offset = |n: usize| match n {
            8 => Some(bytes.len()),
            _ => field(bytes, OFFSETS + 2 * n),
        };
        let size = |n: usize| offset(n + 1)?.checked_sub(offset(n)?);
        let propositions = size(5)? / 4;
        let shares = laid_out_shares(bytes, offset(6)?..offset(7)?, propositions)?;
        let counts = Counts {
            fields: [
                size(0)? / 4,
                size(1)? / 8,
                size(2)? / 12,
                size(3)? / 24,
                propositions,
                shares.first,
                size(7)? / 2,
            ],
            added: shares.added,
        };
        (counts.in_range() && Layout::new(counts).is_stated(bytes)).then_some(counts)
    }

    /// The states of each oracle, the first one's and those added.
    pub fn shares(&self) -> Shares {
        Shares {
            first: self.states(),
            added: self.added,
        }
    }

    pub fn in_range(&self) -> bool {
        let mut fields = self.fields.iter().zip(&COUNTS);
        fields.all(|(&count, rule)| rule.allows(count)) && self.added.lawful()
    }

    pub fn components(&self) -> usize {
        self.fields[0]
    }

    pub fn interactions(&self) -> usize {
        self.fields[3]
    }

    pub fn states(&self) -> usize {
        self.fields[5]
    }

    /// How many letters there are, for at most four propositions.
    pub fn letters(&self) -> usize {
        1 << self.fields[4].min(4)
    }

    fn sizes(&self) -> [usize; 8] {
        let [components, variables, transitions, interactions, propositions, states, words] =
            self.fields;
        [
            4 * components,
            8 * variables,
            12 * transitions,
            24 * interactions,
            8 * interactions,
            4 * propositions,
            (states + self.added.rows()) * (1 + self.letters()),
            2 * words,
        ]
    }
}

/// The oracles for which their section has room.
fn laid_out_shares(bytes: &[u8], section: Range<usize>, propositions: usize) -> Option<Shares> {
    let stated = Counts::stated(bytes)?;
    let letters = 1_usize.checked_shl(propositions.try_into().ok()?)?;
    let rows = bytes.get(section)?.chunks_exact(1 + letters);
    let least = match stated.in_range() {
        true => field(bytes, FIRST)? + 1,
        false => 1,
    };
    added::shared_out(stated.shares(), &Vec::from_iter(rows), least)
}

/// Where each section begins when they are laid end to end.
#[derive(Clone, Copy, Debug)]
pub struct Layout {
    pub counts: Counts,
    /// The eight sections' starts, and the end of the last.
    pub starts: [usize; 9],
}

impl Layout {
    pub fn new(counts: Counts) -> Layout {
        let mut starts = [HEAD_BYTES; 9];
        for (n, size) in counts.sizes().into_iter().enumerate() {
            starts[n + 1] = starts[n] + size;
        }
        Layout { counts, starts }
    }

    pub fn end(&self) -> usize {
        self.starts[8]
    }

    /// Whether the offsets, the stated length and the file's own are those of this layout.
    fn is_stated(&self, bytes: &[u8]) -> bool {
        let offsets = (0..8).all(|n| field(bytes, OFFSETS + 2 * n) == Some(self.starts[n]));
        offsets && field(bytes, LENGTH) == Some(self.end()) && bytes.len() == self.end()
    }

    /// Whether the file has this layout's length, or states it and goes on behind.
    pub fn fits(&self, bytes: &[u8]) -> bool {
        let stated = field(bytes, LENGTH) == Some(self.end());
        bytes.len() == self.end() || bytes.len() > self.end() && stated
    }

    /// The layout by which the records can be told apart: the one that the counts give where the file's length bears it out, else the one
    /// that the offsets and lengths agree on.
    pub fn told(bytes: &[u8]) -> Option<Layout> {
        let stated = Counts::stated(bytes).filter(Counts::in_range);
        stated
            .map(Layout::new)
            .filter(|layout| layout.fits(bytes))
            .or_else(|| Counts::laid_out(bytes).map(Layout::new))
    }
}
