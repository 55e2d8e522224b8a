//! An engine by which an enabled interaction holds down those below it, marked or not: it is found out, in the library's place and as an older build.

use reference::image::{self, Stored};
use reference::lane::{offered, Moves};
use reference::plan::Plan;
use yard::Answer;

use crate::checked::Comparer;
use crate::engines::{Engine, BASELINE};
use crate::sequences::Session;

/// The C engine, with tries of moves below enabled ones refused, and settling among the others alone.
const RANKS_FIRST: Engine = Engine {
    name: "ranks first",
    attempt,
    settle,
    ..BASELINE
};

/// The enabled interactions below no enabled one, in a lawful lane.
fn eligible(plan: &[u8], image: &[u8]) -> Option<Moves> {
    let plan = Plan::read(plan).ok()?;
    let Stored { lane, .. } = image::read(&plan, image).ok()?;
    Some(offered(&plan, &lane.enabled(&plan), &Moves::new()))
}

fn attempt(plan: &[u8], image: &mut [u8], number: u32) -> Answer {
    let mut copy = image.to_vec();
    let answer = (BASELINE.attempt)(plan, &mut copy, number);
    let made = matches!(answer.kind, yard::COMMITTED | yard::CANCELLED);
    let held = eligible(plan, image).is_some_and(|moves| !moves.contains(&(number as usize)));
    if made && held {
        return Answer {
            kind: yard::REFUSED,
            number: 18,
        };
    }
    image.copy_from_slice(&copy);
    answer
}

/// Tries the eligible moves, the lowest number first.
fn settle(plan: &[u8], image: &mut [u8]) -> Answer {
    for number in eligible(plan, image).unwrap_or_default() {
        let answer = attempt(plan, image, number as u32);
        if answer.kind == yard::COMMITTED {
            return answer;
        }
    }
    match (BASELINE.settle)(plan, &mut image.to_vec()) {
        Answer {
            kind: yard::COMMITTED,
            ..
        } => Answer {
            kind: yard::PENNED,
            number: 0,
        },
        answer => answer,
    }
}

#[test]
fn an_engine_that_ranks_first_is_found_out() {
    for comparer in [
        Comparer::with(2, RANKS_FIRST),
        Comparer::with(2, BASELINE).and_older(RANKS_FIRST),
    ] {
        let found = Session::new(2, comparer).compare(5_000).err();
        let name = found.map(|difference| difference.said.0);
        assert_eq!(name, Some("ranks first"));
    }
}
