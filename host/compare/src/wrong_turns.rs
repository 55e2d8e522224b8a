//! Engines with a fault planted in the turns of a box, whose lane it is, its settling or the waits: each is found out, in the library's place and as an
//! older build.

use reference::roster::place;
use yard::{Answer, Lane, Turn};

use crate::baseline;
use crate::checked::Comparer;
use crate::engines::{Engine, BASELINE};
use crate::sequences::Session;
use crate::wrong_logs::assert_found_out;

type Give = fn(&[u8], &mut [Lane], &mut [u8]) -> Turn;

/// Whose turn it is; none where all are held.
type Next = fn(&[Lane]) -> Option<usize>;

/// What becomes of the waits where a lane had the turn, with its answer.
type MoveOn = fn(&mut [Lane], usize, Answer);

/// The C engine's answer, with nothing changed.
fn said(plan: &[u8], roster: &[Lane], images: &[u8]) -> Turn {
    baseline::turn(plan, &mut roster.to_vec(), &mut images.to_vec())
}

/// A turn by other rules, where plan and roster are lawful.
fn by(plan: &[u8], roster: &mut [Lane], images: &mut [u8], next: Next, move_on: MoveOn) -> Turn {
    if let Turn::Refused(number) = said(plan, roster, images) {
        return Turn::Refused(number);
    }
    let Some(lane) = next(roster) else {
        return Turn::Idle;
    };
    let answer = baseline::settle(plan, &mut images[place(lane)]);
    move_on(roster, lane, answer);
    Turn::Served {
        lane: lane as u32,
        answer,
    }
}

/// The first of the lanes that a test admits with the greatest key.
fn first<K: Ord>(
    roster: &[Lane],
    admits: impl Fn(&Lane) -> bool,
    key: impl Fn(&Lane) -> K,
) -> Option<usize> {
    let admitted = roster.iter().enumerate().filter(|(_, lane)| admits(lane));
    // The last of equals is the greatest.
    let greatest = admitted.rev().max_by_key(|(_, lane)| key(lane));
    greatest.map(|(n, _)| n)
}

pub(crate) fn is_free(lane: &Lane) -> bool {
    lane.held == 0
}

fn right_next(roster: &[Lane]) -> Option<usize> {
    first(roster, is_free, |lane| lane.wait)
}

/// Grows the waits of the lanes that a test admits.
pub(crate) fn grow(roster: &mut [Lane], admits: impl Fn(&Lane) -> bool) {
    for lane in roster.iter_mut().filter(|lane| admits(lane)) {
        lane.wait = lane.wait.saturating_add(1);
    }
}

fn right_move_on(roster: &mut [Lane], served: usize, _: Answer) {
    grow(roster, |_| true);
    roster[served].wait = 0;
}

/// As it should be.
fn rightly(p: &[u8], r: &mut [Lane], b: &mut [u8]) -> Turn {
    by(p, r, b, right_next, right_move_on)
}

fn highest_on_a_tie(p: &[u8], r: &mut [Lane], b: &mut [u8]) -> Turn {
    let next = |r: &[Lane]| first(r, is_free, |lane| (lane.wait, lane.number));
    by(p, r, b, next, right_move_on)
}

fn held_served(p: &[u8], r: &mut [Lane], b: &mut [u8]) -> Turn {
    by(p, r, b, |r| first(r, |_| true, |l| l.wait), right_move_on)
}

fn held_by_1_alone(p: &[u8], r: &mut [Lane], b: &mut [u8]) -> Turn {
    let next = |r: &[Lane]| first(r, |lane| lane.held != 1, |lane| lane.wait);
    by(p, r, b, next, right_move_on)
}

fn held_by_the_lowest_bit(p: &[u8], r: &mut [Lane], b: &mut [u8]) -> Turn {
    let next = |r: &[Lane]| first(r, |lane| lane.held % 2 == 0, |lane| lane.wait);
    by(p, r, b, next, right_move_on)
}

fn lowest_number(p: &[u8], r: &mut [Lane], b: &mut [u8]) -> Turn {
    by(p, r, b, |r| first(r, is_free, |_| 0), right_move_on)
}

fn shortest_wait(p: &[u8], r: &mut [Lane], b: &mut [u8]) -> Turn {
    by(p, r, b, |r| first(r, is_free, |l| !l.wait), right_move_on)
}

fn signed_waits(p: &[u8], r: &mut [Lane], b: &mut [u8]) -> Turn {
    let next = |r: &[Lane]| first(r, is_free, |lane| lane.wait as i16);
    by(p, r, b, next, right_move_on)
}

/// By the lowest byte of a wait alone.
fn waits_of_a_byte(p: &[u8], r: &mut [Lane], b: &mut [u8]) -> Turn {
    let next = |r: &[Lane]| first(r, is_free, |lane| lane.wait as u8);
    by(p, r, b, next, right_move_on)
}

fn waits_wrap(p: &[u8], r: &mut [Lane], b: &mut [u8]) -> Turn {
    by(p, r, b, right_next, |roster, served, _| {
        for lane in roster.iter_mut() {
            lane.wait = lane.wait.wrapping_add(1);
        }
        roster[served].wait = 0;
    })
}

fn waits_stop_early(p: &[u8], r: &mut [Lane], b: &mut [u8]) -> Turn {
    by(p, r, b, right_next, |roster, served, _| {
        grow(roster, |lane| lane.wait < 65_534);
        roster[served].wait = 0;
    })
}

fn not_cleared(p: &[u8], r: &mut [Lane], b: &mut [u8]) -> Turn {
    by(p, r, b, right_next, |roster, served, _| {
        let wait = roster[served].wait;
        grow(roster, |_| true);
        roster[served].wait = wait;
    })
}

/// The lane that had the turn waits from 1 on.
fn cleared_first(p: &[u8], r: &mut [Lane], b: &mut [u8]) -> Turn {
    by(p, r, b, right_next, |roster, served, _| {
        roster[served].wait = 0;
        grow(roster, |_| true);
    })
}

fn refused_keeps_its_wait(p: &[u8], r: &mut [Lane], b: &mut [u8]) -> Turn {
    by(p, r, b, right_next, |roster, served, answer| {
        let wait = roster[served].wait;
        right_move_on(roster, served, answer);
        if answer.kind == yard::REFUSED {
            roster[served].wait = wait;
        }
    })
}

fn refused_moves_nothing_on(p: &[u8], r: &mut [Lane], b: &mut [u8]) -> Turn {
    by(p, r, b, right_next, |roster, served, answer| {
        if answer.kind != yard::REFUSED {
            right_move_on(roster, served, answer);
        }
    })
}

fn held_do_not_grow(p: &[u8], r: &mut [Lane], b: &mut [u8]) -> Turn {
    by(p, r, b, right_next, |roster, served, _| {
        grow(roster, is_free);
        roster[served].wait = 0;
    })
}

fn freed_or_held(p: &[u8], r: &mut [Lane], b: &mut [u8]) -> Turn {
    by(p, r, b, right_next, |roster, served, answer| {
        right_move_on(roster, served, answer);
        roster
            .iter_mut()
            .for_each(|lane| lane.held = lane.held.min(1));
    })
}

/// Settles the image before the lane's own, or the last one.
fn wrong_buffer(p: &[u8], r: &mut [Lane], b: &mut [u8]) -> Turn {
    let Turn::Served { lane, .. } = said(p, r, b) else {
        return baseline::turn(p, r, b);
    };
    let other = (lane as usize + r.len() - 1) % r.len();
    let answer = baseline::settle(p, &mut b[place(other)]);
    right_move_on(r, lane as usize, answer);
    Turn::Served { lane, answer }
}

/// Every lane that is not held is settled.
fn all_settled(p: &[u8], r: &mut [Lane], b: &mut [u8]) -> Turn {
    let turn = baseline::turn(p, r, b);
    if let Turn::Served { lane, .. } = turn {
        let others = r.iter().filter(|other| u32::from(other.number) != lane);
        for other in others.filter(|other| is_free(other)) {
            baseline::settle(p, &mut b[place(other.number.into())]);
        }
    }
    turn
}

/// A lane that is refused is passed over, for one that is not.
fn refused_passed_over(p: &[u8], r: &mut [Lane], b: &mut [u8]) -> Turn {
    let mut tried = r.to_vec();
    while let Turn::Served { lane, answer } = said(p, &tried, b) {
        if answer.kind != yard::REFUSED {
            let answer = baseline::settle(p, &mut b[place(lane as usize)]);
            right_move_on(r, lane as usize, answer);
            return Turn::Served { lane, answer };
        }
        tried[lane as usize].held = 1;
    }
    baseline::turn(p, r, b)
}

/// The image of a refused lane loses its marks.
fn refused_image_changed(p: &[u8], r: &mut [Lane], b: &mut [u8]) -> Turn {
    let turn = baseline::turn(p, r, b);
    if let Turn::Served { lane, answer } = turn {
        if answer.kind == yard::REFUSED {
            b[place(lane as usize)][16..24].fill(0);
        }
    }
    turn
}

/// Lane 0 whoever had the turn.
fn lane_not_named(p: &[u8], r: &mut [Lane], b: &mut [u8]) -> Turn {
    match baseline::turn(p, r, b) {
        Turn::Served { answer, .. } => Turn::Served { lane: 0, answer },
        turn => turn,
    }
}

fn idle_moves_on(p: &[u8], r: &mut [Lane], b: &mut [u8]) -> Turn {
    let turn = baseline::turn(p, r, b);
    if turn == Turn::Idle {
        grow(r, |_| true);
    }
    turn
}

/// Stalled where all are held.
fn idle_is_stalled(p: &[u8], r: &mut [Lane], b: &mut [u8]) -> Turn {
    match baseline::turn(p, r, b) {
        Turn::Idle => yard::turn_of(yard::STALLED << 16),
        turn => turn,
    }
}

/// The C engine with other turns.
pub(crate) fn engine(name: &'static str, turn: Give) -> Engine {
    Engine {
        name,
        turn,
        ..BASELINE
    }
}

#[test]
fn each_engine_that_gives_the_turn_to_another_lane_is_found_out() {
    for engine in [
        engine("the highest number on a tie", highest_on_a_tie),
        engine("a held lane served", held_served),
        engine("held by 1 alone", held_by_1_alone),
        engine("held by the lowest bit", held_by_the_lowest_bit),
        engine("the lowest number always", lowest_number),
        engine("the shortest wait", shortest_wait),
        engine("waits with a sign", signed_waits),
        engine("the lowest byte of a wait", waits_of_a_byte),
        engine("a refused lane passed over", refused_passed_over),
    ] {
        assert_found_out(engine);
    }
}

#[test]
fn each_engine_that_moves_waits_on_wrongly_is_found_out() {
    for engine in [
        engine("waits that wrap", waits_wrap),
        engine("waits that stop at 65534", waits_stop_early),
        engine("the wait of the served lane kept", not_cleared),
        engine("the served lane waits from 1 on", cleared_first),
        engine("the wait of a refused lane kept", refused_keeps_its_wait),
        engine(
            "no wait moves on by a refused lane",
            refused_moves_nothing_on,
        ),
        engine("the waits of held lanes kept", held_do_not_grow),
        engine("idle moves waits on", idle_moves_on),
        engine("held bytes rewritten", freed_or_held),
    ] {
        assert_found_out(engine);
    }
}

#[test]
fn each_engine_that_serves_or_answers_wrongly_is_found_out() {
    for engine in [
        engine("the image of another lane", wrong_buffer),
        engine("all lanes settled", all_settled),
        engine("the image of a refused lane changed", refused_image_changed),
        engine("the lane not named", lane_not_named),
        engine("stalled for idle", idle_is_stalled),
    ] {
        assert_found_out(engine);
    }
}

/// So that those that go by other rules are found out by these alone.
#[test]
fn an_engine_that_gives_turns_rightly_is_not_found_out() {
    let comparer = Comparer::with(2, engine("as it should be", rightly));
    assert!(Session::new(2, comparer).compare(20_000).is_ok());
}
