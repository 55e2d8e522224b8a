//! Job 6 of 02: a list of moves is committed whole, or changes nothing and says where it stops.

use reference::answer::{Answer, Refusal};
use reference::calls;
use reference::draft::Draft;

use crate::sample::*;
use crate::verdicts::*;

const BAD_LIST: Answer = Answer::Refused(Refusal::BadList);

/// The answer to a list handed in on an image; where it is not committed no byte differs.
fn handed_in(plan: &Draft, image: &mut Image, bytes: &[u8]) -> Answer {
    let before = *image;
    let answer = calls::list(&plan.bytes(), image, bytes);
    assert!(matches!(answer, Answer::Committed(_)) || *image == before);
    answer
}

/// The same on the starting image, with entries.
fn from_the_start(plan: &Draft, moves: &[u16]) -> Answer {
    handed_in(plan, &mut started(plan), &log_of(moves))
}

#[test]
fn a_list_through_verdict_1_is_committed_whole() {
    let plan = two_halves();
    let mut image = started(&plan);
    assert_eq!(list(&plan, &mut image, &[0, 1]), Answer::Committed(2));
    let mut expected = started(&plan);
    expected[24] = GOOD;
    expected[40] = 1;
    assert_eq!(image, expected);
}

#[test]
fn a_list_that_ends_at_verdict_1_is_cancelled_at_its_number_of_entries() {
    let plan = two_halves();
    assert_eq!(from_the_start(&plan, &[0]), Answer::Cancelled(1));
    let plan = lane(&[(START, FALSE), (FALSE, FALSE)], &[]);
    assert_eq!(from_the_start(&plan, &[0, 1, 1]), Answer::Cancelled(3));
}

#[test]
fn an_entry_of_verdict_0_is_not_allowed() {
    let plan = lane(&[(START, FALSE), (FALSE, BAD), (BAD, GOOD)], &[]);
    assert_eq!(from_the_start(&plan, &[0, 1, 2]), Answer::Cancelled(1));
    let plan = lane(&[(START, BAD), (BAD, GOOD)], &[]);
    assert_eq!(from_the_start(&plan, &[0, 1]), Answer::Cancelled(0));
}

#[test]
fn an_entry_that_is_not_enabled_there_is_not_allowed() {
    let plan = two_halves();
    assert_eq!(from_the_start(&plan, &[1]), Answer::Cancelled(0));
    assert_eq!(from_the_start(&plan, &[0, 0]), Answer::Cancelled(1));
    assert_eq!(from_the_start(&plan, &[0, 1, 1]), Answer::Cancelled(2));
}

#[test]
fn a_number_that_the_plan_lacks_is_an_entry_not_allowed() {
    for number in [2, 64, 255, 256, 257, 32_768, 65_535] {
        let plan = two_halves();
        assert_eq!(from_the_start(&plan, &[number]), Answer::Cancelled(0));
        assert_eq!(from_the_start(&plan, &[0, number]), Answer::Cancelled(1));
        let moves = [0, 1, number, 1];
        assert_eq!(from_the_start(&plan, &moves), Answer::Cancelled(2));
    }
}

#[test]
fn an_entry_has_its_lowest_byte_first() {
    let plan = lane(&[(START, START), (START, GOOD)], &[]);
    let answer = |bytes: &[u8]| handed_in(&plan, &mut started(&plan), bytes);
    assert_eq!(answer(&[1, 0]), Answer::Committed(1));
    assert_eq!(answer(&[0, 1]), Answer::Cancelled(0));
}

#[test]
fn r22_an_empty_list_an_odd_one_and_one_of_nine_moves() {
    let plan = lane(&[(START, START)], &[]);
    let answer = |bytes: &[u8]| handed_in(&plan, &mut started(&plan), bytes);
    for length in 0..600 {
        let expected = match length {
            2..=16 if length % 2 == 0 => Answer::Committed(length / 2),
            _ => BAD_LIST,
        };
        assert_eq!(answer(&vec![0; length]), expected, "{length}");
    }
}

#[test]
fn r22_comes_before_an_entry_that_is_not_allowed() {
    let plan = two_halves();
    let mut image = started(&plan);
    for bytes in [&[255; 3][..], &[255; 18]] {
        assert_eq!(handed_in(&plan, &mut image, bytes), BAD_LIST);
    }
}

#[test]
fn r22_comes_after_14() {
    let plan = two_halves();
    let mut image = started(&plan);
    image[16] = 0b10;
    let refused = Answer::Refused(Refusal::FalseMark);
    for bytes in [&[][..], &[0], &[0; 18], &[0, 0, 1, 0]] {
        assert_eq!(handed_in(&plan, &mut image, bytes), refused);
    }
}

#[test]
fn marks_are_cleared_by_a_committed_list_and_kept_by_any_other() {
    let plan = two_halves();
    let mut image = started(&plan);
    assert_eq!(attempt(&plan, &mut image, 0), Answer::Cancelled(0));
    for bytes in [&[][..], &[0], &[0, 0], &[1, 0]] {
        handed_in(&plan, &mut image, bytes);
        assert_eq!(marks(&image), 1);
    }
    assert_eq!(list(&plan, &mut image, &[0, 1]), Answer::Committed(2));
    assert_eq!(marks(&image), 0);
}

/// A move to verdict 1 above another one.
fn below_a_half() -> Draft {
    lane(&[(START, FALSE), (START, GOOD)], &[0, 0b01])
}

#[test]
fn a_move_to_verdict_1_above_holds_an_entry_down_marked_or_not() {
    let plan = below_a_half();
    let mut image = started(&plan);
    assert_eq!(list(&plan, &mut image, &[1]), Answer::Cancelled(0));
    assert_eq!(attempt(&plan, &mut image, 0), Answer::Cancelled(0));
    assert_eq!(list(&plan, &mut image, &[1]), Answer::Cancelled(0));
    // A try goes past the mark.
    assert_eq!(attempt(&plan, &mut image, 1), Answer::Committed(1));
}

#[test]
fn a_good_move_above_holds_an_entry_down_inside_the_list_too() {
    let arcs = [(START, FALSE), (FALSE, GOOD), (FALSE, START)];
    let plan = lane(&arcs, &[0, 0b100, 0]);
    assert_eq!(from_the_start(&plan, &[0, 1]), Answer::Cancelled(1));
    assert_eq!(from_the_start(&plan, &[0, 2]), Answer::Committed(2));
}

/// Each two moves from the start under either rank, by the words of job 6.
#[test]
fn each_entry_is_judged_by_its_verdict_and_those_above() {
    let ends = [None, Some(GOOD), Some(BAD), Some(FALSE)];
    let leads_on = |end: Option<u8>| end.is_some_and(|end| end != BAD);
    let mut met = [0; 4];
    for (low, high) in ends.iter().flat_map(|&l| ends.map(|h| (l, h))) {
        // A move that is not enabled begins elsewhere.
        let arc = |end: Option<u8>| end.map_or((GOOD, GOOD), |end| (START, end));
        let plan = lane(&[arc(low), arc(high)], &[0b10, 0]);
        let expected = if !leads_on(low) || leads_on(high) {
            Answer::Cancelled(0)
        } else if low == Some(FALSE) {
            Answer::Cancelled(1)
        } else {
            Answer::Committed(1)
        };
        assert_eq!(from_the_start(&plan, &[0]), expected, "{low:?}, {high:?}");
        met[expected.kind() as usize] += 1;
    }
    assert_eq!(met, [0, 2, 14, 0]);
}

#[test]
fn a_list_of_good_moves_leaves_what_tries_of_them_leave() {
    let plan = sample();
    let moves = [1, 0, 2, 1, 0, 2, 1, 0];
    let (mut whole, mut tried) = (started(&plan), started(&plan));
    assert_eq!(list(&plan, &mut whole, &moves), Answer::Committed(8));
    for number in moves {
        let committed = Answer::Committed(number.into());
        assert_eq!(attempt(&plan, &mut tried, number.into()), committed);
    }
    assert_eq!(whole, tried);
}

#[test]
fn each_oracle_reads_every_entry() {
    let mut plan = two_halves();
    let counting = (0..5).map(|n| state(2, &[n + 1; 4]));
    let last = state(1, &[5; 4]);
    plan.added = vec![counting.chain([last]).collect()];
    let mut image = started(&plan);
    assert_eq!(list(&plan, &mut image, &[0, 1]), Answer::Committed(2));
    assert_eq!(image[8..12], [0, 3, 0, 0]);
}

#[test]
fn an_added_oracle_alone_forbids_an_entry_or_the_end() {
    let by_entries = |verdicts: &[u8]| {
        let last = verdicts.len() as u8 - 1;
        let states = (0..).zip(verdicts);
        let states = states.map(|(n, &verdict)| state(verdict, &[last.min(n + 1); 4]));
        let mut plan = two_halves();
        plan.added = vec![states.collect()];
        plan
    };
    let of = |verdicts: &[u8]| from_the_start(&by_entries(verdicts), &[0, 1]);
    // The first state reads the start.
    assert_eq!(of(&[2, 2, 1, 2]), Answer::Committed(2));
    assert_eq!(of(&[2, 2, 2, 1]), Answer::Cancelled(2));
    assert_eq!(of(&[2, 2, 2, 0]), Answer::Cancelled(1));
    assert_eq!(of(&[2, 2, 0]), Answer::Cancelled(0));
}
