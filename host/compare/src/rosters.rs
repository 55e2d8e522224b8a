//! Random rosters: lawful ones with waits near both ends, and ones that are refused with 23.

use reference::image::IMAGE_BYTES;
use reference::roster::{Record, MOST_LANES};

use crate::damage;
use crate::rng::Rng;

/// A roster, and the images of its lanes end to end, lawful or not.
#[derive(Clone)]
pub struct Lineup {
    pub roster: Vec<Record>,
    pub images: Vec<u8>,
}

/// The ways to break the rule of 23.
const WAYS: [fn(&mut Lineup, &mut Rng); 9] = [
    no_lanes,
    too_many,
    far_too_many,
    swapped,
    from_1,
    one_number,
    byte_less,
    byte_more,
    other_length,
];

/// A wait: most often near an end, so that there are ties.
pub fn wait(rng: &mut Rng) -> u16 {
    match rng.below(12) {
        0..=4 => rng.below(4) as u16,
        5..=8 => u16::MAX - rng.below(3) as u16,
        9 => rng.pick(&[255, 256, 32_767, 32_768]),
        10 => 32_768 + rng.below(4) as u16,
        _ => rng.next() as u16,
    }
}

/// The flag of a lane that is held or not.
pub fn held(rng: &mut Rng) -> u8 {
    match rng.chance(60) {
        true => 0,
        false => rng.pick(&[1, 1, 2, 128, 255]),
    }
}

/// A lawful roster of so many lanes; now and then all are held.
pub fn lawful(rng: &mut Rng, lanes: usize) -> Vec<Record> {
    let waits = [wait(rng), wait(rng)];
    let alike = rng.chance(40);
    let all_held = rng.chance(8);
    let record = |number| Record {
        number,
        held: match all_held {
            true => rng.pick(&[1, 2, 255]),
            false => held(rng),
        },
        wait: match alike {
            true => rng.pick(&waits),
            false => wait(rng),
        },
    };
    (0..lanes as u8).map(record).collect()
}

impl Lineup {
    /// Breaks the rule of 23 in one way, or now and then in two.
    pub fn spoil(&mut self, rng: &mut Rng) {
        for _ in 0..rng.pick(&[1, 1, 1, 1, 2]) {
            rng.pick(&WAYS)(self, rng);
        }
    }

    /// Adds records up to this count; past 255 the numbers come round.
    fn add_records(&mut self, rng: &mut Rng, count: usize) {
        while self.roster.len() < count {
            let number = self.roster.len() as u8;
            let (held, wait) = (held(rng), wait(rng));
            self.roster.push(Record { number, held, wait });
        }
    }
}

fn no_lanes(lineup: &mut Lineup, rng: &mut Rng) {
    lineup.roster.clear();
    if rng.chance(70) {
        lineup.images.clear();
    }
}

/// Nine lanes, each with an image.
fn too_many(lineup: &mut Lineup, rng: &mut Rng) {
    lineup.add_records(rng, MOST_LANES + 1);
    lineup.images.extend([0; IMAGE_BYTES]);
    let images = lineup.images.iter().copied().cycle();
    lineup.images = images.take(9 * IMAGE_BYTES).collect();
}

/// More than a byte can count, with images for what is left of them in a byte.
fn far_too_many(lineup: &mut Lineup, rng: &mut Rng) {
    let left = (lineup.images.len() / IMAGE_BYTES).clamp(1, MOST_LANES);
    lineup.images.resize(left * IMAGE_BYTES, 0);
    lineup.add_records(rng, 256 + left);
}

fn swapped(lineup: &mut Lineup, rng: &mut Rng) {
    if let Some(last) = lineup.roster.len().checked_sub(1) {
        let lanes = [rng.below(last + 1), rng.below(last + 1)];
        lineup.roster.swap(lanes[0], lanes[1]);
    }
}

fn from_1(lineup: &mut Lineup, _: &mut Rng) {
    for record in &mut lineup.roster {
        record.number = record.number.wrapping_add(1);
    }
}

fn one_number(lineup: &mut Lineup, rng: &mut Rng) {
    if let Some(Record { number, .. }) = damage::any(rng, &mut lineup.roster) {
        *number = match rng.below(3) {
            0 => rng.below(9) as u8,
            1 => *number | 1 << rng.between(3, 7),
            _ => rng.byte(),
        };
    }
}

fn byte_less(lineup: &mut Lineup, _: &mut Rng) {
    lineup.images.pop();
}

fn byte_more(lineup: &mut Lineup, rng: &mut Rng) {
    lineup.images.push(rng.byte());
}

/// The images of another number of lanes.
fn other_length(lineup: &mut Lineup, rng: &mut Rng) {
    let lanes = match rng.below(3) {
        0 => lineup.roster.len().saturating_sub(1),
        1 => lineup.roster.len() + 1,
        _ => rng.below(10),
    };
    lineup.images.resize(lanes.min(9) * IMAGE_BYTES, 0);
}

#[cfg(test)]
mod tests {
    use super::*;
    use reference::roster::is_lawful;

    #[test]
    fn spoilt_rosters_are_refused_but_for_a_few() {
        let mut rng = Rng::new(3);
        let mut lawful_ones = 0;
        for _ in 0..2000 {
            let lanes = rng.between(1, MOST_LANES);
            let mut lineup = Lineup {
                roster: lawful(&mut rng, lanes),
                images: vec![0; lanes * IMAGE_BYTES],
            };
            assert!(is_lawful(&lineup.roster, &lineup.images));
            lineup.spoil(&mut rng);
            lawful_ones += usize::from(is_lawful(&lineup.roster, &lineup.images));
            assert!(lineup.roster.len() <= 264 && lineup.images.len() <= 9 * IMAGE_BYTES + 1);
        }
        assert!((1..400).contains(&lawful_ones), "{lawful_ones}");
    }
}
