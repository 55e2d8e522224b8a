//! A plan's bytes decoded into records, with the rules of refusals 1 to 9 and 20; `code` has those of 10.

use crate::answer::Refusal;
use crate::code;

pub const NO_PORT: u8 = 255;
const HEAD_BYTES: usize = 48;

#[derive(Clone, Copy, Debug, PartialEq, Eq)]
pub struct Span {
    pub start: usize,
    pub length: usize,
}

#[derive(Clone, Debug)]
pub struct Component {
    pub locations: usize,
    pub start: usize,
    pub ports: usize,
}

#[derive(Clone, Debug)]
pub struct Variable {
    pub owner: usize,
    pub start: i32,
}

#[derive(Clone, Debug)]
pub struct Transition {
    pub component: usize,
    pub source: usize,
    pub port: usize,
    pub destination: usize,
    pub guard: Span,
    pub action: Span,
}

#[derive(Clone, Debug)]
pub struct Interaction {
    /// For each component of the plan its port, where it takes part.
    pub ports: Vec<Option<usize>>,
    pub guard: Span,
    pub transfer: Span,
}

#[derive(Clone, Debug)]
pub struct OracleState {
    pub verdict: u8,
    pub next: Vec<usize>,
}

/// A lawful plan.
#[derive(Clone, Debug)]
pub struct Plan {
    pub number: u32,
    pub components: Vec<Component>,
    pub variables: Vec<Variable>,
    pub transitions: Vec<Transition>,
    pub interactions: Vec<Interaction>,
    ranks: Vec<u64>,
    pub propositions: Vec<Span>,
    /// The first oracle, then the added ones, each with its states.
    pub oracles: Vec<Vec<OracleState>>,
    /// The state in which the first oracle begins; an added one begins in its state 0.
    pub first: usize,
    code: Vec<u16>,
}

impl Plan {
    /// The plan that the bytes hold, or the lowest refusal that applies.
    pub fn read(bytes: &[u8]) -> Result<Plan, Refusal> {
        check_head(bytes)?;
        let counts = Counts::read(bytes)?;
        let [component, variable, transition, interaction, rank, proposition, oracle, code] =
            sections(bytes, &counts)?;
        let components = read_components(component)?;
        // Fields are read in the order of their refusals.
        let plan = Plan {
            number: u32::from_le_bytes([bytes[4], bytes[5], bytes[6], bytes[7]]),
            variables: read_variables(variable, &components)?,
            transitions: read_transitions(transition, &components)?,
            interactions: read_interactions(interaction, &components)?,
            ranks: read_ranks(rank)?,
            propositions: proposition
                .chunks_exact(4)
                .map(|record| span(record, 0))
                .collect(),
            oracles: read_oracles(oracle, &counts)?,
            first: counts.first,
            code: code
                .chunks_exact(2)
                .map(|word| field(word, 0) as u16)
                .collect(),
            components,
        };
        if code::all_spans_lawful(&plan) {
            Ok(plan)
        } else {
            Err(Refusal::Code)
        }
    }

    /// Whether interaction `i` lies below interaction `j`.
    pub fn below(&self, i: usize, j: usize) -> bool {
        below(&self.ranks, i, j)
    }

    /// The words of a span, where it ends within the code.
    pub fn words(&self, span: Span) -> Option<&[u16]> {
        self.code.get(span.start..span.start + span.length)
    }
}

/// The 16-bit field at an offset.
fn field(bytes: &[u8], at: usize) -> usize {
    usize::from(u16::from_le_bytes([bytes[at], bytes[at + 1]]))
}

fn span(record: &[u8], at: usize) -> Span {
    Span {
        start: field(record, at),
        length: field(record, at + 2),
    }
}

fn require(rule: bool, refusal: Refusal) -> Result<(), Refusal> {
    if rule {
        Ok(())
    } else {
        Err(refusal)
    }
}

fn check_head(bytes: &[u8]) -> Result<(), Refusal> {
    let lawful = bytes.len() >= HEAD_BYTES && bytes.starts_with(b"PLAN") && bytes[46..48] == [0; 2];
    require(lawful, Refusal::Head)
}

struct Counts {
    components: usize,
    variables: usize,
    transitions: usize,
    interactions: usize,
    propositions: usize,
    states: usize,
    first: usize,
    words: usize,
    /// Bytes 42 to 45: how many oracles are added, and their states.
    added: usize,
    added_states: [usize; 3],
}

impl Counts {
    fn read(bytes: &[u8]) -> Result<Counts, Refusal> {
        let counts = Counts {
            components: field(bytes, 10),
            variables: field(bytes, 12),
            transitions: field(bytes, 14),
            interactions: field(bytes, 16),
            propositions: field(bytes, 18),
            states: field(bytes, 20),
            first: field(bytes, 22),
            words: field(bytes, 24),
            added: bytes[42].into(),
            added_states: [bytes[43], bytes[44], bytes[45]].map(usize::from),
        };
        require(counts.in_range(), Refusal::Count)?;
        Ok(counts)
    }

    fn in_range(&self) -> bool {
        (1..=16).contains(&self.components)
            && self.variables <= 64
            && self.transitions <= 256
            && (1..=64).contains(&self.interactions)
            && self.propositions <= 4
            && (1..=32).contains(&self.states)
            && self.first < self.states
            && self.words <= 4096
            && self.added_in_range()
    }

    fn added_in_range(&self) -> bool {
        let lawful = |(k, &states): (usize, &usize)| match k < self.added {
            true => (1..=32).contains(&states),
            false => states == 0,
        };
        self.added <= 3 && self.added_states.iter().enumerate().all(lawful)
    }

    /// The bytes of an oracle state.
    fn oracle_row(&self) -> usize {
        1 + (1 << self.propositions)
    }

    /// The states of each oracle, added ones behind the first.
    fn oracle_states(&self) -> Vec<usize> {
        let added = &self.added_states[..self.added];
        [&[self.states], added].concat()
    }

    fn section_sizes(&self) -> [usize; 8] {
        [
            4 * self.components,
            8 * self.variables,
            12 * self.transitions,
            24 * self.interactions,
            8 * self.interactions,
            4 * self.propositions,
            self.oracle_row() * self.oracle_states().iter().sum::<usize>(),
            2 * self.words,
        ]
    }
}

/// The eight sections, where offsets and lengths are as the counts give.
fn sections<'a>(bytes: &'a [u8], counts: &Counts) -> Result<[&'a [u8]; 8], Refusal> {
    let mut sections: [&[u8]; 8] = [&[]; 8];
    let mut at = HEAD_BYTES;
    for (n, size) in counts.section_sizes().into_iter().enumerate() {
        require(field(bytes, 26 + 2 * n) == at, Refusal::Layout)?;
        sections[n] = bytes.get(at..at + size).ok_or(Refusal::Layout)?;
        at += size;
    }
    require(field(bytes, 8) == at && bytes.len() == at, Refusal::Layout)?;
    Ok(sections)
}

fn read_components(section: &[u8]) -> Result<Vec<Component>, Refusal> {
    let read = |record: &[u8]| {
        let [locations, start, ports, zero] = [record[0], record[1], record[2], record[3]];
        let lawful = (1..=16).contains(&locations)
            && start < locations
            && (1..=16).contains(&ports)
            && zero == 0;
        require(lawful, Refusal::Component)?;
        Ok(Component {
            locations: locations.into(),
            start: start.into(),
            ports: ports.into(),
        })
    };
    section.chunks_exact(4).map(read).collect()
}

fn read_variables(section: &[u8], components: &[Component]) -> Result<Vec<Variable>, Refusal> {
    let read = |record: &[u8]| {
        let owner = usize::from(record[0]);
        require(
            owner < components.len() && record[1..4] == [0; 3],
            Refusal::Variable,
        )?;
        let start = i32::from_le_bytes([record[4], record[5], record[6], record[7]]);
        Ok(Variable { owner, start })
    };
    section.chunks_exact(8).map(read).collect()
}

fn read_transitions(section: &[u8], components: &[Component]) -> Result<Vec<Transition>, Refusal> {
    let read = |record: &[u8]| {
        let transition = Transition {
            component: record[0].into(),
            source: record[1].into(),
            port: record[2].into(),
            destination: record[3].into(),
            guard: span(record, 4),
            action: span(record, 8),
        };
        let component = components
            .get(transition.component)
            .ok_or(Refusal::Transition)?;
        let lawful = transition.source < component.locations
            && transition.port < component.ports
            && transition.destination < component.locations;
        require(lawful, Refusal::Transition)?;
        Ok(transition)
    };
    section.chunks_exact(12).map(read).collect()
}

fn read_interactions(
    section: &[u8],
    components: &[Component],
) -> Result<Vec<Interaction>, Refusal> {
    let read = |record: &[u8]| {
        let (named, unused) = record[..16].split_at(components.len());
        let lawful_port = |(component, &port): (&Component, &u8)| {
            port == NO_PORT || usize::from(port) < component.ports
        };
        let lawful = components.iter().zip(named).all(lawful_port)
            && unused.iter().all(|&port| port == NO_PORT)
            && named.iter().any(|&port| port != NO_PORT);
        require(lawful, Refusal::Interaction)?;
        let ports = named
            .iter()
            .map(|&port| (port != NO_PORT).then_some(port.into()))
            .collect();
        Ok(Interaction {
            ports,
            guard: span(record, 16),
            transfer: span(record, 20),
        })
    };
    section.chunks_exact(24).map(read).collect()
}

fn below(ranks: &[u64], i: usize, j: usize) -> bool {
    (ranks[i] >> j) & 1 == 1
}

fn read_ranks(section: &[u8]) -> Result<Vec<u64>, Refusal> {
    let row = |record: &[u8]| {
        record
            .iter()
            .rev()
            .fold(0, |row, &byte| row << 8 | u64::from(byte))
    };
    let ranks: Vec<u64> = section.chunks_exact(8).map(row).collect();
    let count = ranks.len();
    for i in 0..count {
        require((count..64).all(|j| !below(&ranks, i, j)), Refusal::Rank)?;
        require(!below(&ranks, i, i), Refusal::Rank)?;
    }
    for i in 0..count {
        for j in (0..count).filter(|&j| below(&ranks, i, j)) {
            let transitive = (0..count).all(|k| !below(&ranks, j, k) || below(&ranks, i, k));
            require(transitive, Refusal::Rank)?;
        }
    }
    Ok(ranks)
}

/// The first oracle and the added ones; what breaks the rule of a table is 9 in the first and 20 in the others.
fn read_oracles(section: &[u8], counts: &Counts) -> Result<Vec<Vec<OracleState>>, Refusal> {
    let mut rest = section;
    let mut oracles = Vec::new();
    for states in counts.oracle_states() {
        let (table, behind) = rest.split_at(states * counts.oracle_row());
        let refusal = match oracles.is_empty() {
            true => Refusal::Oracle,
            false => Refusal::AddedOracle,
        };
        let oracle = read_oracle(table, counts.oracle_row());
        require(oracle_lawful(&oracle), refusal)?;
        oracles.push(oracle);
        rest = behind;
    }
    Ok(oracles)
}

fn read_oracle(table: &[u8], row: usize) -> Vec<OracleState> {
    let read = |record: &[u8]| OracleState {
        verdict: record[0],
        next: record[1..].iter().map(|&next| next.into()).collect(),
    };
    table.chunks_exact(row).map(read).collect()
}

/// The rule of 9, and for an added oracle of 20: verdicts 0 and 3 are final, 1 and 2 may lead anywhere.
fn oracle_lawful(oracle: &[OracleState]) -> bool {
    oracle.iter().all(|state| {
        let for_good = matches!(state.verdict, 0 | 3);
        let lawful_next = |&next: &usize| {
            oracle
                .get(next)
                .is_some_and(|follower| !for_good || follower.verdict == state.verdict)
        };
        matches!(state.verdict, 0..=3) && state.next.iter().all(lawful_next)
    })
}
