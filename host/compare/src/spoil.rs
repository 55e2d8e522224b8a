//! Code spoiled in one place, or driven to its limits.

use reference::draft::{Draft, Span};

use crate::damage::{any, any_span};
use crate::rng::Rng;

/// Changes a span, a word within one, or gives a span words of its own.
pub fn code(rng: &mut Rng, draft: &mut Draft) {
    match rng.below(10) {
        0 | 1 => change_span(rng, draft),
        2 | 3 => change_word(rng, draft),
        4 | 5 => rename(rng, draft),
        6 => {
            if let Some(proposition) = draft.propositions.first_mut() {
                proposition.length = 0;
            }
        }
        _ => {
            let words = piece(rng, draft);
            replace_span(rng, draft, &words);
        }
    }
}

fn change_span(rng: &mut Rng, draft: &mut Draft) {
    let words = draft.code.len() as u16;
    let Some(Span { start, length }) = any_span(rng, draft) else {
        return;
    };
    match rng.below(7) {
        0 => *start = words.saturating_add(1),
        1 => *length = words.saturating_sub(*start).saturating_add(1),
        2 => *length = length.saturating_add(1),
        3 => *length = length.saturating_sub(1),
        4 => *start = start.saturating_add(1),
        5 => *length = rng.pick(&[65, 66, 300, 65535]),
        _ => *start = rng.pick(&[words, 4097, 65535]),
    }
}

fn change_word(rng: &mut Rng, draft: &mut Draft) {
    let Some(&mut Span { start, length }) = any_span(rng, draft) else {
        return;
    };
    if length > 0 {
        let word = word(rng, draft);
        if let Some(place) = draft
            .code
            .get_mut(usize::from(start) + rng.below(length.into()))
        {
            *place = word;
        }
    }
}

/// Gives a word that names a variable another one, perhaps of another component.
fn rename(rng: &mut Rng, draft: &mut Draft) {
    let variable = rng.below(draft.variables.len() + 1) as u16;
    let Some(&mut Span { start, length }) = any_span(rng, draft) else {
        return;
    };
    let words = draft.code.iter_mut().skip(start.into()).take(length.into());
    let mut naming: Vec<&mut u16> = words.filter(|word| matches!(**word >> 12, 2 | 3)).collect();
    if let Some(word) = any(rng, &mut naming) {
        **word = **word & 0xf000 | variable;
    }
}

/// A word that breaks a rule in some spans or in all.
fn word(rng: &mut Rng, draft: &Draft) -> u16 {
    let operand = rng.below(4096) as u16;
    let component = rng.below(draft.components.len().max(1)) as u16;
    let own = draft.components.get(usize::from(component));
    let (locations, ports) = own.map_or((0, 0), |c| (u16::from(c.locations), u16::from(c.ports)));
    match rng.below(11) {
        0 => rng.next() as u16,
        1 => rng.pick(&[0x7000, 0x8000, 0xf000]) | operand,
        2 => 0x6000 | rng.pick(&[8, 9, 16, 0xfff]),
        3 => rng.pick(&[0x2000, 0x3000]) | draft.variables.len() as u16,
        4 => rng.pick(&[0x2000, 0x3000]) | rng.below(draft.variables.len() + 1) as u16,
        5 => rng.pick(&[0x4000, 0x5000]) | (draft.components.len() as u16 & 15) << 8,
        6 => 0x4000 | component << 8 | locations,
        7 => 0x5000 | component << 8 | ports,
        8 => 0x5000 | component << 8 | rng.pick(&[254, 255]),
        9 => rng.pick(&[0x4000, 0x5000]) | component << 8,
        _ => rng.below(7) as u16 * 0x1000 | operand,
    }
}

/// Words for a whole span, at a limit or past it.
fn piece(rng: &mut Rng, draft: &Draft) -> Vec<u16> {
    match rng.below(8) {
        0 => long(rng.pick(&[63, 64, 65])),
        1 => deep(rng.pick(&[7, 8, 9])),
        2 => vec![rng.pick(&[0x6000, 0x6006, 0x1001, 0x3000])],
        3 => vec![1, 1],
        4 => vec![1, 0x6000 | rng.below(8) as u16],
        5 => vec![1, 1, 0x3000],
        6 => vec![1, word(rng, draft)],
        _ => vec![word(rng, draft)],
    }
}

fn long(length: usize) -> Vec<u16> {
    let mut words = vec![1];
    words.resize(length, 0x1001);
    words
}

fn deep(depth: usize) -> Vec<u16> {
    let mut words = vec![1; depth];
    words.resize(2 * depth - 1, 0x6000);
    words
}

/// Writes the words behind the code, or over its end where it is full, and gives them to a span.
fn replace_span(rng: &mut Rng, draft: &mut Draft, words: &[u16]) {
    let start = draft.code.len().min(4096_usize.saturating_sub(words.len()));
    draft.code.truncate(start);
    draft.code.extend(words);
    if let Some(span) = any_span(rng, draft) {
        *span = Span {
            start: start as u16,
            length: words.len() as u16,
        };
    }
}
