//! Plans damaged on purpose or at random; a few remain lawful.

use reference::draft::{Component, Draft, Interaction, OracleState, Span, Transition, Variable};

use crate::rng::Rng;
use crate::{oracle, spoil};

type Way<T> = fn(&mut Rng, &mut T);

/// Ways that change records; counts, offsets and length then follow.
const RECORDS: [Way<Draft>; 10] = [
    count,
    component,
    variable,
    transition,
    interaction,
    rank,
    first_oracle,
    added_oracle,
    another_number_of_oracles,
    spoil::code,
];

/// Ways that change the written bytes.
const BYTES: [Way<Vec<u8>>; 9] = [
    shortened,
    lengthened,
    letters,
    zeros,
    counts,
    added_counts,
    layout,
    flipped,
    flipped,
];

/// A plan with one or two faults.
pub fn plan(rng: &mut Rng, lawful: &Draft) -> Vec<u8> {
    let mut draft = lawful.clone();
    let in_records = rng.chance(70);
    if in_records {
        rng.pick(&RECORDS)(rng, &mut draft);
    }
    if rng.chance(20) {
        rng.pick(&RECORDS)(rng, &mut draft);
    }
    let mut bytes = draft.bytes();
    if !in_records || rng.chance(5) {
        rng.pick(&BYTES)(rng, &mut bytes);
    }
    bytes
}

/// One of the records, where there is one.
pub fn any<'a, T>(rng: &mut Rng, records: &'a mut [T]) -> Option<&'a mut T> {
    let count = records.len();
    (count > 0).then(|| &mut records[rng.below(count)])
}

/// A byte at or above an end, most often the end itself.
fn past(rng: &mut Rng, end: u8) -> u8 {
    if rng.chance(60) {
        end
    } else {
        end.saturating_add(rng.byte())
    }
}

/// So many records, by repeating the first.
fn repeat<T: Clone>(records: &mut Vec<T>, count: usize) {
    if let Some(first) = records.first().cloned() {
        records.resize(count, first);
    }
}

fn count(rng: &mut Rng, draft: &mut Draft) {
    match rng.below(14) {
        0 => repeat(&mut draft.components, 17),
        1 => repeat(&mut draft.variables, 65),
        2 => repeat(&mut draft.transitions, 257),
        3 => repeat(&mut draft.interactions, 65),
        4 => {
            repeat(&mut draft.propositions, 5);
            let states = draft.oracle.iter_mut();
            states
                .chain(draft.added.iter_mut().flatten())
                .for_each(|state| state.next.resize(32, 0));
        }
        5 => repeat(&mut draft.oracle, 33),
        6 => draft.code.resize(4097, 0),
        7 => draft.first = draft.oracle.len() as u16 + rng.below(3) as u16,
        8 => draft.components.clear(),
        9 => draft.interactions.clear(),
        10 => draft.oracle.clear(),
        11 => repeat(&mut draft.added, 4),
        _ => {
            let states = rng.pick(&[0, 33]);
            if let Some(oracle) = any(rng, &mut draft.added) {
                repeat(oracle, states);
            }
        }
    }
}

fn component(rng: &mut Rng, draft: &mut Draft) {
    let Some(Component {
        locations,
        start,
        ports,
        zero,
    }) = any(rng, &mut draft.components)
    else {
        return;
    };
    match rng.below(6) {
        0 => *locations = 0,
        1 => *locations = past(rng, 17),
        2 => *start = past(rng, *locations),
        3 => *ports = 0,
        4 => *ports = past(rng, 17),
        _ => *zero = past(rng, 1),
    }
}

fn variable(rng: &mut Rng, draft: &mut Draft) {
    let components = draft.components.len() as u8;
    if let Some(Variable { owner, zeros, .. }) = any(rng, &mut draft.variables) {
        match rng.below(3) {
            0 => *owner = past(rng, components),
            1 => *owner = rng.below(usize::from(components).max(1)) as u8,
            _ => zeros[rng.below(3)] = past(rng, 1),
        }
    }
}

fn transition(rng: &mut Rng, draft: &mut Draft) {
    let Some(Transition {
        component,
        source,
        port,
        destination,
        ..
    }) = any(rng, &mut draft.transitions)
    else {
        return;
    };
    let Some(own) = draft.components.get(usize::from(*component)) else {
        return;
    };
    match rng.below(4) {
        0 => *component = past(rng, draft.components.len() as u8),
        1 => *source = past(rng, own.locations),
        2 => *port = past(rng, own.ports),
        _ => *destination = past(rng, own.locations),
    }
}

fn interaction(rng: &mut Rng, draft: &mut Draft) {
    let count = draft.components.len();
    let Some(Interaction { ports, .. }) = any(rng, &mut draft.interactions) else {
        return;
    };
    match rng.below(5) {
        0 if count < 16 => ports[rng.between(count, 15)] = rng.below(3) as u8,
        1 => *ports = [255; 16],
        2 => ports[rng.below(16)] = 254,
        3 => ports[rng.below(16)] = 255,
        _ => {
            let named = rng.below(count.clamp(1, 16));
            ports[named] = past(rng, draft.components.get(named).map_or(0, |c| c.ports));
        }
    }
}

fn rank(rng: &mut Rng, draft: &mut Draft) {
    let count = draft.interactions.len().clamp(1, 64);
    let (low, high) = (rng.below(count), rng.below(count));
    let rows = &mut draft.interactions;
    if rows.is_empty() {
        return;
    }
    match rng.below(5) {
        0 if count < 64 => rows[low].rank |= 1 << rng.between(count, 63),
        1 => rows[low].rank |= 1 << low,
        2 => {
            rows[low].rank |= 1 << high;
            rows[high].rank |= 1 << low;
        }
        3 => rows[low].rank &= !(1 << high),
        _ => rows[low].rank ^= 1 << high,
    }
}

fn first_oracle(rng: &mut Rng, draft: &mut Draft) {
    table(rng, &mut draft.oracle);
}

fn added_oracle(rng: &mut Rng, draft: &mut Draft) {
    if let Some(oracle) = any(rng, &mut draft.added) {
        table(rng, oracle);
    }
}

/// Takes an added oracle away, or adds a lawful one, where there may be one more.
fn another_number_of_oracles(rng: &mut Rng, draft: &mut Draft) {
    if draft.added.len() >= 3 || rng.chance(50) {
        draft.added.pop();
    } else {
        let states = rng.pick(&[1, 2, 5, 32]);
        let letters = 1 << draft.propositions.len().min(4);
        draft.added.push(oracle::states(rng, states, letters));
    }
}

/// Changes an oracle's table.
fn table(rng: &mut Rng, oracle: &mut [OracleState]) {
    let states = oracle.len() as u8;
    let Some(OracleState { verdict, next }) = any(rng, oracle) else {
        return;
    };
    let letter = rng.below(next.len());
    match rng.below(5) {
        0 | 1 => *verdict = past(rng, 4),
        2 => *verdict = rng.pick(&[0, 1, 2, 3]),
        3 => next[letter] = past(rng, states),
        _ => next[letter] = rng.below(states.into()) as u8,
    }
}

/// One of all spans, where there is one.
pub fn any_span<'a>(rng: &mut Rng, draft: &'a mut Draft) -> Option<&'a mut Span> {
    match rng.below(6) {
        0 => any(rng, &mut draft.transitions).map(|t| &mut t.guard),
        1 => any(rng, &mut draft.transitions).map(|t| &mut t.action),
        2 => any(rng, &mut draft.interactions).map(|i| &mut i.guard),
        3 => any(rng, &mut draft.interactions).map(|i| &mut i.transfer),
        _ => any(rng, &mut draft.propositions),
    }
}

fn shortened(rng: &mut Rng, bytes: &mut Vec<u8>) {
    let length = match rng.below(4) {
        0 => bytes.len() - 1,
        1 => rng.below(49),
        2 => 47,
        _ => rng.below(bytes.len()),
    };
    bytes.truncate(length);
}

fn lengthened(rng: &mut Rng, bytes: &mut Vec<u8>) {
    for _ in 0..rng.pick(&[1, 2, 300]) {
        bytes.push(rng.byte());
    }
    if rng.chance(30) {
        let length = (bytes.len() as u16).to_le_bytes();
        bytes[8..10].copy_from_slice(&length);
    }
}

fn letters(rng: &mut Rng, bytes: &mut Vec<u8>) {
    bytes[rng.below(4)] ^= 1 << rng.below(8);
}

fn zeros(rng: &mut Rng, bytes: &mut Vec<u8>) {
    bytes[rng.between(46, 47)] ^= 1 << rng.below(8);
}

/// Changes the number of added oracles or the states of one, used or not.
fn added_counts(rng: &mut Rng, bytes: &mut Vec<u8>) {
    let at = rng.between(42, 45);
    bytes[at] = match rng.below(4) {
        0 => bytes[at].wrapping_add(1),
        1 => bytes[at].wrapping_sub(1),
        2 => rng.pick(&[0, 1, 4, 32, 33]),
        _ => bytes[at] ^ 1 << rng.below(8),
    };
}

/// Changes the 16-bit field at an offset by a little or at random.
fn change_field(rng: &mut Rng, bytes: &mut [u8], at: usize) {
    let field = u16::from_le_bytes([bytes[at], bytes[at + 1]]);
    let changed = match rng.below(4) {
        0 => field.wrapping_add(1),
        1 => field.wrapping_sub(1),
        2 => field ^ 1 << rng.below(16),
        _ => rng.next() as u16,
    };
    bytes[at..at + 2].copy_from_slice(&changed.to_le_bytes());
}

fn counts(rng: &mut Rng, bytes: &mut Vec<u8>) {
    let at = 10 + 2 * rng.below(8);
    change_field(rng, bytes, at);
}

fn layout(rng: &mut Rng, bytes: &mut Vec<u8>) {
    let at = if rng.chance(20) {
        8
    } else {
        26 + 2 * rng.below(8)
    };
    change_field(rng, bytes, at);
}

/// Flips one to four bits anywhere.
fn flipped(rng: &mut Rng, bytes: &mut Vec<u8>) {
    for _ in 0..rng.between(1, 4) {
        let at = rng.below(bytes.len());
        bytes[at] ^= 1 << rng.below(8);
    }
}

#[cfg(test)]
mod tests {
    use super::*;
    use crate::generate;
    use reference::calls;
    use std::collections::BTreeSet;

    #[test]
    fn damaged_plans_meet_every_refusal_of_a_plan_and_some_are_lawful() {
        let mut rng = Rng::new(1);
        let mut met = BTreeSet::new();
        for _ in 0..2000 {
            let lawful = generate::plan(&mut rng).draft;
            met.insert(calls::check(&plan(&mut rng, &lawful)).number());
        }
        assert_eq!(met, (0..=10).chain([20]).collect());
    }
}
