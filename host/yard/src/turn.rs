//! The turns of a box that serves several lanes: a lane's record, and what a turn is answered with.

use std::mem::{align_of, offset_of, size_of};

use crate::{answer, Answer, IDLE, REFUSED};

/// A lane's record in a roster, `struct yard_lane` of yard.h.
#[repr(C)]
#[derive(Clone, Copy, Debug, Default, PartialEq, Eq)]
pub struct Lane {
    /// Its place in the roster, from 0.
    pub number: u8,
    /// 0 is free; with any other byte it is held.
    pub held: u8,
    /// Turns waited.
    pub wait: u16,
}

const _: () = assert!(size_of::<Lane>() == 4 && align_of::<Lane>() == 2);
const _: () = assert!(offset_of!(Lane, number) == 0);
const _: () = assert!(offset_of!(Lane, held) == 1);
const _: () = assert!(offset_of!(Lane, wait) == 2);

/// What a turn is answered with. Roster and images change only where a lane had the turn.
#[derive(Clone, Copy, Debug, PartialEq, Eq)]
pub enum Turn {
    /// For the plan, with 1 to 10 or 20, or for the roster, with 23.
    Refused(u32),
    /// Every lane is held.
    Idle,
    /// The lane that had the turn, and what its settling was answered with: a refusal is one of 12 to 14.
    Served { lane: u32, answer: Answer },
}

/// One number of a turn taken apart: the lane times 16777216 plus an answer. No two numbers are the same turn.
pub fn turn_of(packed: u32) -> Turn {
    let lane = packed >> 24;
    let answer = answer(packed & 0xff_ffff);
    match (lane, answer.kind, answer.number) {
        (0, IDLE, 0) => Turn::Idle,
        (0, REFUSED, 12..=14) => Turn::Served { lane, answer },
        (0, REFUSED, number) => Turn::Refused(number),
        _ => Turn::Served { lane, answer },
    }
}

#[cfg(test)]
mod tests {
    use super::*;
    use crate::{start, turn, COMMITTED, IMAGE_BYTES, PENNED, STALLED};

    const SAMPLE: &[u8] = include_bytes!("../../../plans/sample.plan");

    fn served(lane: u32, kind: u32, number: u32) -> Turn {
        let answer = Answer { kind, number };
        Turn::Served { lane, answer }
    }

    #[test]
    fn a_number_is_taken_apart() {
        for (packed, turn) in [
            (0x0001_0005, served(0, COMMITTED, 5)),
            (0x0701_003f, served(7, COMMITTED, 63)),
            (0x0203_0000, served(2, STALLED, 0)),
            (0x0004_0000, served(0, PENNED, 0)),
            (0x0005_000c, served(0, REFUSED, 12)),
            (0x0005_000e, served(0, REFUSED, 14)),
            (0x0305_000d, served(3, REFUSED, 13)),
            (0x0005_000a, Turn::Refused(10)),
            (0x0005_0014, Turn::Refused(20)),
            (0x0005_0017, Turn::Refused(23)),
            (458_752, Turn::Idle),
        ] {
            assert_eq!(turn_of(packed), turn, "{packed:#x}");
        }
    }

    #[test]
    fn an_answer_that_no_turn_has_is_none_of_the_others() {
        for packed in [0x0107_0000, 0x0007_0001, 0x0105_0017, 0xff05_0001, 0] {
            let (lane, answer) = (packed >> 24, answer(packed & 0xff_ffff));
            assert_eq!(turn_of(packed), Turn::Served { lane, answer });
        }
    }

    fn lane(number: u8, held: u8, wait: u16) -> Lane {
        Lane { number, held, wait }
    }

    #[test]
    fn a_turn_of_the_library_reads_and_writes_the_records() {
        let mut images = [0; 2 * IMAGE_BYTES];
        for image in images.chunks_exact_mut(IMAGE_BYTES) {
            start(SAMPLE, image);
        }
        let mut roster = [lane(0, 0, 258), lane(1, 0, 513)];
        assert_eq!(
            turn(SAMPLE, &mut roster, &mut images),
            served(1, COMMITTED, 1)
        );
        assert_eq!(roster, [lane(0, 0, 259), lane(1, 0, 0)]);
        images[0] = 0;
        assert_eq!(
            turn(SAMPLE, &mut roster, &mut images),
            served(0, REFUSED, 12)
        );
        assert_eq!(roster, [lane(0, 0, 0), lane(1, 0, 1)]);
        roster = [lane(0, 1, 7), lane(1, 255, 9)];
        assert_eq!(turn(SAMPLE, &mut roster, &mut images), Turn::Idle);
        assert_eq!(turn(SAMPLE, &mut [], &mut []), Turn::Refused(23));
        assert_eq!(turn(&[], &mut roster, &mut images), Turn::Refused(1));
        assert_eq!(roster, [lane(0, 1, 7), lane(1, 255, 9)]);
    }
}
