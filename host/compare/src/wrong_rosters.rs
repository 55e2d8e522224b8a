//! Engines that judge the roster of a turn wrongly, or change it where they refuse: each is found out, in the library's place and as an older build.

use reference::image::IMAGE_BYTES;
use reference::roster::place;
use yard::{Lane, Turn};

use crate::baseline;
use crate::wrong_logs::assert_found_out;
use crate::wrong_turns::{engine, grow, is_free};

fn is_roster_ok(roster: &[Lane], images: &[u8]) -> bool {
    let numbers = roster.iter().map(|lane| usize::from(lane.number));
    (1..=8).contains(&roster.len())
        && numbers.eq(0..roster.len())
        && images.len() == place(roster.len()).start
}

fn roster_first(p: &[u8], r: &mut [Lane], b: &mut [u8]) -> Turn {
    match is_roster_ok(r, b) {
        true => baseline::turn(p, r, b),
        false => Turn::Refused(23),
    }
}

/// Idle before 23, and before the plan's numbers.
fn idle_first(p: &[u8], r: &mut [Lane], b: &mut [u8]) -> Turn {
    match !r.is_empty() && !r.iter().any(is_free) {
        true => Turn::Idle,
        false => baseline::turn(p, r, b),
    }
}

/// The waits move on where the turn is refused with such a number.
fn moves_on(p: &[u8], r: &mut [Lane], b: &mut [u8], is_meant: fn(u32) -> bool) -> Turn {
    let turn = baseline::turn(p, r, b);
    if matches!(turn, Turn::Refused(number) if is_meant(number)) {
        grow(r, |_| true);
    }
    turn
}

fn bad_roster_moves_on(p: &[u8], r: &mut [Lane], b: &mut [u8]) -> Turn {
    moves_on(p, r, b, |number| number == 23)
}

fn bad_plan_moves_on(p: &[u8], r: &mut [Lane], b: &mut [u8]) -> Turn {
    moves_on(p, r, b, |number| number != 23)
}

/// 11 for a buffer of another length.
fn eleven(p: &[u8], r: &mut [Lane], b: &mut [u8]) -> Turn {
    match baseline::turn(p, r, b) {
        Turn::Refused(23) if b.len() != place(r.len()).start => Turn::Refused(11),
        turn => turn,
    }
}

fn no_lanes_idle(p: &[u8], r: &mut [Lane], b: &mut [u8]) -> Turn {
    match baseline::turn(p, r, b) {
        Turn::Refused(23) if r.is_empty() && b.is_empty() => Turn::Idle,
        turn => turn,
    }
}

/// The first eight of nine lanes have turns.
fn nine_lanes(p: &[u8], r: &mut [Lane], b: &mut [u8]) -> Turn {
    match (r.len(), b.len() / IMAGE_BYTES) {
        (9, 9) => baseline::turn(p, &mut r[..8], &mut b[..8 * IMAGE_BYTES]),
        _ => baseline::turn(p, r, b),
    }
}

fn lanes_counted_in_a_byte(p: &[u8], r: &mut [Lane], b: &mut [u8]) -> Turn {
    let lanes = r.len() % 256;
    baseline::turn(p, &mut r[..lanes], b)
}

/// The lanes are numbered by their places, whatever their numbers.
fn numbers_not_asked(p: &[u8], r: &mut [Lane], b: &mut [u8]) -> Turn {
    let numbers = Vec::from_iter(r.iter().map(|lane| lane.number));
    for (lane, number) in r.iter_mut().zip(0..=255) {
        lane.number = number;
    }
    let turn = baseline::turn(p, r, b);
    for (lane, number) in r.iter_mut().zip(numbers) {
        lane.number = number;
    }
    turn
}

/// Numbers may run from anywhere.
fn numbers_from_anywhere(p: &[u8], r: &mut [Lane], b: &mut [u8]) -> Turn {
    let first = r.first().map_or(0, |lane| usize::from(lane.number));
    let numbers = r.iter().map(|lane| usize::from(lane.number));
    match numbers.eq(first..first + r.len()) {
        true => numbers_not_asked(p, r, b),
        false => baseline::turn(p, r, b),
    }
}

/// Numbers in any order.
fn numbers_in_any_order(p: &[u8], r: &mut [Lane], b: &mut [u8]) -> Turn {
    let is_there = |n: usize| r.iter().any(|lane| usize::from(lane.number) == n);
    match (0..r.len()).all(is_there) {
        true => numbers_not_asked(p, r, b),
        false => baseline::turn(p, r, b),
    }
}

/// What lies behind the images is passed over.
fn longer_buffer(p: &[u8], r: &mut [Lane], b: &mut [u8]) -> Turn {
    let length = b.len().min(place(r.len()).start);
    baseline::turn(p, r, &mut b[..length])
}

/// Whole images are counted, and a part of one is not.
fn part_of_an_image(p: &[u8], r: &mut [Lane], b: &mut [u8]) -> Turn {
    let length = b.len() / IMAGE_BYTES * IMAGE_BYTES;
    baseline::turn(p, r, &mut b[..length])
}

#[test]
fn each_engine_that_judges_rosters_wrongly_is_found_out() {
    for engine in [
        engine("23 before the plan's numbers", roster_first),
        engine("23 moves waits on", bad_roster_moves_on),
        engine("a refused plan moves waits on", bad_plan_moves_on),
        engine("idle before all else", idle_first),
        engine("11 for 23", eleven),
        engine("no lanes are idle", no_lanes_idle),
        engine("nine lanes", nine_lanes),
        engine("lanes counted in a byte", lanes_counted_in_a_byte),
        engine("numbers not asked", numbers_not_asked),
        engine("numbers from anywhere", numbers_from_anywhere),
        engine("numbers in any order", numbers_in_any_order),
        engine("a longer buffer", longer_buffer),
        engine("part of an image behind", part_of_an_image),
    ] {
        assert_found_out(engine);
    }
}
