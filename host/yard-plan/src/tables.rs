//! A plan's records as they stand, lawful or not.

use crate::layout::Layout;

/// A span of code words, with the place of its 16-bit start; its length follows.
#[derive(Clone, Copy, Debug, PartialEq, Eq)]
pub struct Span {
    pub at: usize,
    pub start: usize,
    pub length: usize,
}

impl Span {
    pub fn end(&self) -> usize {
        self.start + self.length
    }

    /// The span's words, where it ends within the code.
    pub fn words<'a>(&self, code: &'a [u16]) -> Option<&'a [u16]> {
        code.get(self.start..self.end())
    }
}

#[derive(Clone, Debug)]
pub struct Component {
    pub at: usize,
    pub locations: u8,
    pub start: u8,
    pub ports: u8,
    pub zero: u8,
}

#[derive(Clone, Debug)]
pub struct Variable {
    pub at: usize,
    pub owner: u8,
    pub zeros: [u8; 3],
    pub value: i32,
}

#[derive(Clone, Debug)]
pub struct Transition {
    pub at: usize,
    pub component: u8,
    pub source: u8,
    pub port: u8,
    pub destination: u8,
    pub guard: Span,
    pub action: Span,
}

#[derive(Clone, Debug)]
pub struct Interaction {
    pub at: usize,
    pub ports: [u8; 16],
    pub guard: Span,
    pub transfer: Span,
}

#[derive(Clone, Debug)]
pub struct RankRow {
    pub at: usize,
    /// Bit j for each interaction j above.
    pub above: u64,
}

#[derive(Clone, Debug)]
pub struct State {
    pub at: usize,
    pub verdict: u8,
    pub next: Vec<u8>,
}

#[derive(Clone, Debug)]
pub struct Tables {
    pub layout: Layout,
    pub components: Vec<Component>,
    pub variables: Vec<Variable>,
    pub transitions: Vec<Transition>,
    pub interactions: Vec<Interaction>,
    pub ranks: Vec<RankRow>,
    pub propositions: Vec<Span>,
    /// The first oracle's states, then those of each added one.
    pub oracles: Vec<Vec<State>>,
    pub code: Vec<u16>,
}

impl Tables {
    /// The records, where they can be told apart.
    pub fn read(bytes: &[u8]) -> Option<Tables> {
        let layout = Layout::told(bytes)?;
        let state_bytes = 1 + layout.counts.letters();
        Some(Tables {
            layout,
            components: records(bytes, &layout, 0, 4, component)?,
            variables: records(bytes, &layout, 1, 8, variable)?,
            transitions: records(bytes, &layout, 2, 12, transition)?,
            interactions: records(bytes, &layout, 3, 24, interaction)?,
            ranks: records(bytes, &layout, 4, 8, rank_row)?,
            propositions: records(bytes, &layout, 5, 4, |at, record| span(at, record, 0))?,
            oracles: oracles(&layout, records(bytes, &layout, 6, state_bytes, state)?),
            code: records(bytes, &layout, 7, 2, |_, word| pair(word, 0))?,
        })
    }

    /// The place of a code word.
    pub fn word_at(&self, n: usize) -> usize {
        self.layout.starts[7] + 2 * n
    }
}

/// A section's records, each read from its place and its bytes.
fn records<T>(
    bytes: &[u8],
    layout: &Layout,
    section: usize,
    size: usize,
    read: impl Fn(usize, &[u8]) -> T,
) -> Option<Vec<T>> {
    let from = layout.starts[section];
    let section = bytes
        .get(from..layout.starts[section + 1])?
        .chunks_exact(size);
    let records = section.enumerate();
    Some(
        records
            .map(|(n, record)| read(from + n * size, record))
            .collect(),
    )
}

/// The rows of the section, oracle by oracle.
fn oracles(layout: &Layout, mut rows: Vec<State>) -> Vec<Vec<State>> {
    let mut oracles = Vec::new();
    for states in layout.counts.shares().counts() {
        let behind = rows.split_off(states);
        oracles.push(rows);
        rows = behind;
    }
    oracles
}

fn pair(record: &[u8], at: usize) -> u16 {
    u16::from_le_bytes([record[at], record[at + 1]])
}

fn span(at: usize, record: &[u8], field: usize) -> Span {
    Span {
        at: at + field,
        start: pair(record, field).into(),
        length: pair(record, field + 2).into(),
    }
}

fn component(at: usize, record: &[u8]) -> Component {
    Component {
        at,
        locations: record[0],
        start: record[1],
        ports: record[2],
        zero: record[3],
    }
}

fn variable(at: usize, record: &[u8]) -> Variable {
    Variable {
        at,
        owner: record[0],
        zeros: [record[1], record[2], record[3]],
        value: i32::from_le_bytes([record[4], record[5], record[6], record[7]]),
    }
}

fn transition(at: usize, record: &[u8]) -> Transition {
    Transition {
        at,
        component: record[0],
        source: record[1],
        port: record[2],
        destination: record[3],
        guard: span(at, record, 4),
        action: span(at, record, 8),
    }
}

fn interaction(at: usize, record: &[u8]) -> Interaction {
    let mut ports = [0; 16];
    ports.copy_from_slice(&record[..16]);
    Interaction {
        at,
        ports,
        guard: span(at, record, 16),
        transfer: span(at, record, 20),
    }
}

fn rank_row(at: usize, record: &[u8]) -> RankRow {
    let low_byte_first = record.iter().rev();
    RankRow {
        at,
        above: low_byte_first.fold(0, |row, &byte| row << 8 | u64::from(byte)),
    }
}

fn state(at: usize, record: &[u8]) -> State {
    State {
        at,
        verdict: record[0],
        next: record[1..].to_vec(),
    }
}
