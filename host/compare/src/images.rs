//! Images damaged on purpose or at random, and lawful images that no call wrote.

use reference::draft::Draft;
use reference::image::{self, Stored};
use reference::lane::{outranked, Lane, Moves};
use reference::plan::Plan;

use crate::generate;
use crate::rng::Rng;

/// The image with one to three faults; a few remain lawful.
pub fn damaged(rng: &mut Rng, image: &[u8], draft: &Draft, other: &[u8]) -> Vec<u8> {
    let mut bytes = image.to_vec();
    for _ in 0..rng.pick(&[1, 1, 1, 2, 3]) {
        damage_once(rng, &mut bytes, draft);
    }
    match rng.below(20) {
        0..=2 => resize(rng, &mut bytes),
        3 => bytes = other.to_vec(),
        _ => {}
    }
    bytes
}

/// Changes one byte or mark of the 312, or the values.
fn damage_once(rng: &mut Rng, bytes: &mut [u8], draft: &Draft) {
    let component = rng.below(draft.components.len());
    match rng.below(15) {
        0 => bytes[rng.below(16)] ^= 1 << rng.below(8),
        1 => bytes[8] = rng.below(draft.oracle.len() + 2) as u8,
        2 | 3 => added_state(rng, bytes, draft),
        4 => bytes[24 + component] = rng.below(17) as u8,
        5 => bytes[40 + component] = port(rng),
        6 => bytes[rng.between(24, 55)] ^= 1 << rng.below(8),
        7 => bytes[rng.between(56, 311)] ^= 1 << rng.below(8),
        8 => bytes[rng.between(9, 15)] = rng.byte(),
        9 => bytes[16..24].fill(rng.byte()),
        10..=12 => toggle_mark(rng, bytes, draft.interactions.len() + 1),
        13 => values(rng, bytes, draft),
        _ => bytes[rng.below(312)] = rng.byte(),
    }
}

/// Gives every variable of the plan another value.
fn values(rng: &mut Rng, bytes: &mut [u8], draft: &Draft) {
    for n in 0..draft.variables.len() {
        bytes[56 + 4 * n..][..4].copy_from_slice(&generate::value(rng).to_le_bytes());
    }
}

/// Gives an added oracle, used or not, another state.
fn added_state(rng: &mut Rng, bytes: &mut [u8], draft: &Draft) {
    let k = rng.below(3);
    let states = draft.added.get(k).map_or(0, Vec::len);
    bytes[9 + k] = rng.below(states + 2) as u8;
}

fn port(rng: &mut Rng) -> u8 {
    match rng.below(20) {
        17 => 128,
        18 => 254,
        19 => 255,
        port => port as u8,
    }
}

/// Flips a mark, most often one of the plan's interactions.
fn toggle_mark(rng: &mut Rng, bytes: &mut [u8], interactions: usize) {
    let mark = if rng.chance(90) {
        rng.below(interactions).min(63)
    } else {
        rng.below(64)
    };
    bytes[16 + mark / 8] ^= 1 << (mark % 8);
}

fn resize(rng: &mut Rng, bytes: &mut Vec<u8>) {
    let length = match rng.below(4) {
        0 => rng.below(312),
        1 => rng.pick(&[0, 1, 16, 24, 56]),
        2 => rng.pick(&[313, 320, 624]),
        _ => 311,
    };
    bytes.resize(length, 0);
}

/// The image with another state, each entry within its range, and few marks.
pub fn redressed(rng: &mut Rng, image: &[u8], draft: &Draft) -> Vec<u8> {
    let mut bytes = image.to_vec();
    for (c, component) in draft.components.iter().enumerate() {
        bytes[24 + c] = rng.below(component.locations.into()) as u8;
        bytes[40 + c] = if rng.chance(20) {
            255
        } else {
            rng.below(component.ports.into()) as u8
        };
    }
    values(rng, &mut bytes, draft);
    for (n, oracle) in [&draft.oracle].into_iter().chain(&draft.added).enumerate() {
        bytes[8 + n] = rng.below(oracle.len()) as u8;
    }
    bytes[16..24].fill(0);
    if rng.chance(30) {
        toggle_mark(rng, &mut bytes, draft.interactions.len());
    }
    bytes
}

/// The image with other marks, where its state is lawful: all of them true, one of these taken away, or one of an enabled interaction added.
pub fn marked(rng: &mut Rng, image: &[u8], draft: &Draft) -> Vec<u8> {
    let mut bytes = image.to_vec();
    let plan = Plan::read(&draft.bytes()).expect("a generated plan is lawful");
    let Ok(Stored { lane, .. }) = image::read_unjudged(&plan, image) else {
        return bytes;
    };
    let mut marked = true_marks(rng, &plan, &lane);
    if !marked.is_empty() && rng.chance(35) {
        let marks = Vec::from_iter(marked.iter().copied());
        marked.remove(&rng.pick(&marks));
    } else if !marked.is_empty() && rng.chance(15) {
        let enabled = Vec::from_iter(lane.enabled(&plan));
        marked.insert(rng.pick(&enabled));
    }
    bytes[16..24].copy_from_slice(&image::bits(&marked).to_le_bytes());
    bytes
}

/// Moves that end bad, each with all enabled ones above it.
fn true_marks(rng: &mut Rng, plan: &Plan, lane: &Lane) -> Moves {
    let enabled = lane.enabled(plan);
    let mut bad = enabled.clone();
    bad.retain(|&i| !lane.ends_good(plan, i));
    let mut marked = Moves::new();
    let enough = rng.pick(&[0, 15, 40]);
    loop {
        let next = bad
            .difference(&marked)
            .filter(|&&i| !outranked(plan, &enabled, &marked, i));
        let next = Vec::from_iter(next.copied());
        if next.is_empty() || rng.chance(enough) {
            return marked;
        }
        marked.insert(rng.pick(&next));
    }
}
