//! Engines with a fault planted in the handing in of a list: each is found out, in the library's place and as an older build.

use reference::image::{self, Stored};
use reference::list;
use reference::plan::Plan;
use yard::Answer;

use crate::baseline;
use crate::checked::Comparer;
use crate::engines::{Engine, BASELINE};
use crate::sequences::Session;
use crate::wrong_logs::assert_found_out;

type Hand = fn(&[u8], &mut [u8], &[u8]) -> Answer;

fn answer(kind: u32, number: usize) -> Answer {
    Answer {
        kind,
        number: number as u32,
    }
}

/// The C engine's answer, and the image that it would leave.
fn right(plan: &[u8], image: &[u8], list: &[u8]) -> (Answer, Vec<u8>) {
    let mut after = image.to_vec();
    (baseline::list(plan, &mut after, list), after)
}

/// What can be committed of the entries before the one that is not allowed stays.
fn keeps_the_first_part(plan: &[u8], image: &mut [u8], list: &[u8]) -> Answer {
    let said = baseline::list(plan, image, list);
    if said.kind == yard::CANCELLED {
        let mut parts = (1..=said.number as usize).rev().map(|n| &list[..2 * n]);
        parts.find(|part| baseline::list(plan, image, part).kind == yard::COMMITTED);
    }
    said
}

/// A cancelled list loses the marks.
fn clears_marks(plan: &[u8], image: &mut [u8], list: &[u8]) -> Answer {
    let answer = baseline::list(plan, image, list);
    if answer.kind == yard::CANCELLED {
        image[16..24].fill(0);
    }
    answer
}

/// A committed one keeps them.
fn keeps_marks(plan: &[u8], image: &mut [u8], list: &[u8]) -> Answer {
    let (answer, mut after) = right(plan, image, list);
    if answer.kind == yard::COMMITTED {
        after[16..24].copy_from_slice(&image[16..24]);
    }
    image.copy_from_slice(&after);
    answer
}

/// Verdict 1 at the end is good.
fn ends_at_verdict_1(plan: &[u8], image: &mut [u8], list: &[u8]) -> Answer {
    match baseline::list(plan, image, list) {
        cancelled if cancelled.kind == yard::CANCELLED && is_end(cancelled, list) => {
            answer(yard::COMMITTED, list.len() / 2)
        }
        other => other,
    }
}

fn is_end(answer: Answer, list: &[u8]) -> bool {
    answer.number as usize == list.len() / 2
}

/// The index of the last entry where only the end is not good.
fn end_as_last_entry(plan: &[u8], image: &mut [u8], list: &[u8]) -> Answer {
    let mut said = baseline::list(plan, image, list);
    if said.kind == yard::CANCELLED && is_end(said, list) {
        said.number -= 1;
    }
    said
}

/// An index from 1.
fn index_from_1(plan: &[u8], image: &mut [u8], list: &[u8]) -> Answer {
    let mut said = baseline::list(plan, image, list);
    said.number += u32::from(said.kind == yard::CANCELLED && !is_end(said, list));
    said
}

/// The last move as the number of a committed list.
fn last_move(plan: &[u8], image: &mut [u8], list: &[u8]) -> Answer {
    match baseline::list(plan, image, list) {
        Answer {
            kind: yard::COMMITTED,
            ..
        } => answer(yard::COMMITTED, list[list.len() - 2].into()),
        other => other,
    }
}

/// 16 for a number that no interaction has.
fn refuses_numbers(plan: &[u8], image: &mut [u8], list: &[u8]) -> Answer {
    let said = baseline::list(plan, image, list);
    let at = 2 * said.number as usize;
    let Some(entry) = list
        .get(at..at + 2)
        .filter(|_| said.kind == yard::CANCELLED)
    else {
        return said;
    };
    let count = u16::from_le_bytes([plan[16], plan[17]]);
    match u16::from_le_bytes([entry[0], entry[1]]) >= count {
        true => answer(yard::REFUSED, 16),
        false => said,
    }
}

/// 22 before the image's numbers.
fn list_first(plan: &[u8], image: &mut [u8], list: &[u8]) -> Answer {
    let said = baseline::list(plan, image, list);
    let of_image = said.kind == yard::REFUSED && (11..=14).contains(&said.number);
    match of_image && list::entries(list).is_err() {
        true => answer(yard::REFUSED, 22),
        false => said,
    }
}

/// A length kept in a byte.
fn length_of_a_byte(plan: &[u8], image: &mut [u8], list: &[u8]) -> Answer {
    let moves = list.len() / 2 % 256;
    let short = &list[..2 * moves + list.len() % 2];
    baseline::list(plan, image, short)
}

fn nine_moves(plan: &[u8], image: &mut [u8], list: &[u8]) -> Answer {
    match list.len() {
        18 => baseline::list(plan, image, &list[..16]),
        _ => baseline::list(plan, image, list),
    }
}

/// A last byte without its second one is passed over.
fn odd_byte(plan: &[u8], image: &mut [u8], list: &[u8]) -> Answer {
    baseline::list(plan, image, &list[..list.len() / 2 * 2])
}

fn empty_committed(plan: &[u8], image: &mut [u8], list: &[u8]) -> Answer {
    match baseline::list(plan, image, list) {
        said if said.number == 22 && list.is_empty() => answer(yard::COMMITTED, 0),
        said => said,
    }
}

/// Highest byte first.
fn bytes_swapped(plan: &[u8], image: &mut [u8], list: &[u8]) -> Answer {
    let mut swapped = list.to_vec();
    swapped.chunks_exact_mut(2).for_each(<[u8]>::reverse);
    baseline::list(plan, image, &swapped)
}

/// Whether an enabled interaction holds down those below it.
type Holds = fn(&Stored, &Plan, usize) -> bool;

/// The lane and marks after a list, or the index at which it stops, by another rule of holding down.
fn walk(plan: &Plan, mut stored: Stored, entries: &[usize], holds: Holds) -> Result<Stored, usize> {
    for (index, &entry) in entries.iter().enumerate() {
        let enabled = stored.lane.enabled(plan);
        if !enabled.contains(&entry) {
            return Err(index);
        }
        let mut above = enabled.iter().filter(|&&i| plan.below(entry, i));
        let is_held = above.any(|&i| holds(&stored, plan, i));
        match stored.lane.after(plan, entry) {
            Some(after) if !is_held && after.verdict(plan) != 0 => stored.lane = after,
            _ => return Err(index),
        }
    }
    stored.marked.clear();
    let is_good = stored.lane.good(plan);
    is_good.then_some(stored).ok_or(entries.len())
}

/// The C engine's call, with another rule of holding down where the list is handed in at all.
fn ranked_by(plan: &[u8], image: &mut [u8], list: &[u8], holds: Holds) -> Answer {
    let said = right(plan, image, list).0;
    if said.kind == yard::REFUSED {
        return said;
    }
    let plan = Plan::read(plan).expect("the plan passed the check");
    let stored = image::read(&plan, image).expect("the image passed the check");
    let entries = list::entries(list).expect("the list passed the check");
    match walk(&plan, stored, &entries, holds) {
        Ok(stored) => {
            image.copy_from_slice(&image::write(&plan, &stored));
            answer(yard::COMMITTED, entries.len())
        }
        Err(index) => answer(yard::CANCELLED, index),
    }
}

fn leads_on(stored: &Stored, plan: &Plan, interaction: usize) -> bool {
    let after = stored.lane.after(plan, interaction);
    after.is_some_and(|end| end.verdict(plan) != 0)
}

/// As it should be.
fn held_rightly(plan: &[u8], image: &mut [u8], list: &[u8]) -> Answer {
    ranked_by(plan, image, list, leads_on)
}

/// Held down by good moves alone.
fn held_by_good(plan: &[u8], image: &mut [u8], list: &[u8]) -> Answer {
    ranked_by(plan, image, list, |stored, plan, i| {
        stored.lane.ends_good(plan, i)
    })
}

/// Held down by every enabled move.
fn held_by_enabled(plan: &[u8], image: &mut [u8], list: &[u8]) -> Answer {
    ranked_by(plan, image, list, |_, _, _| true)
}

/// A marked move holds none down.
fn marks_count(plan: &[u8], image: &mut [u8], list: &[u8]) -> Answer {
    ranked_by(plan, image, list, |stored, plan, i| {
        leads_on(stored, plan, i) && !stored.marked.contains(&i)
    })
}

fn engine(name: &'static str, list: Hand) -> Engine {
    Engine {
        name,
        list,
        ..BASELINE
    }
}

#[test]
fn each_engine_that_hands_in_lists_wrongly_is_found_out() {
    for engine in [
        engine("the first part kept", keeps_the_first_part),
        engine("marks cleared by a cancelled list", clears_marks),
        engine("marks kept by a committed list", keeps_marks),
        engine("verdict 1 at the end", ends_at_verdict_1),
        engine("the end as the last entry", end_as_last_entry),
        engine("an index from 1", index_from_1),
        engine("the last move as the number", last_move),
        engine("16 for an entry", refuses_numbers),
        engine("22 before the image's numbers", list_first),
        engine("a length kept in a byte", length_of_a_byte),
        engine("nine moves", nine_moves),
        engine("an odd byte passed over", odd_byte),
        engine("an empty list committed", empty_committed),
        engine("highest byte first", bytes_swapped),
        engine("held down by good moves alone", held_by_good),
        engine("held down by every enabled move", held_by_enabled),
        engine("a marked move holds none down", marks_count),
    ] {
        assert_found_out(engine);
    }
}

/// So that the three above are found out by their rule alone.
#[test]
fn an_engine_that_holds_down_rightly_is_not_found_out() {
    let comparer = Comparer::with(2, engine("as it should be", held_rightly));
    assert!(Session::new(2, comparer).compare(20_000).is_ok());
}
