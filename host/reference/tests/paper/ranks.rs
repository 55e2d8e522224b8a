//! Job 3 of 02: a marked interaction holds none down, and settling ranks among the moves that end good.

use reference::answer::{Answer, Refusal};
use reference::draft::{Draft, Transition};

use crate::sample::*;
use End::*;

/// What a move from the start leads to; without a transition there it is not enabled.
#[derive(Clone, Copy, Debug, PartialEq, Eq)]
pub enum End {
    Good,
    Bad,
    NotEnabled,
}

const ENDS: [End; 3] = [Good, Bad, NotEnabled];

/// A lane whose moves end so from the start, with the ranks of each as bits.
pub fn fork(ends: &[End], ranks: &[u64]) -> Draft {
    let mut plan = sample();
    let to = |port: u8, end| match end {
        Good => Some(transition(0, port, 1, EMPTY)),
        Bad => Some(transition(0, port, 2, EMPTY)),
        NotEnabled => None,
    };
    let moves = (0..).zip(ends);
    plan.components[0].ports = ends.len() as u8;
    plan.transitions = Vec::<Transition>::from_iter(moves.filter_map(|(port, &end)| to(port, end)));
    plan.interactions = (0..ends.len() as u8).map(interaction).collect();
    for (interaction, &rank) in plan.interactions.iter_mut().zip(ranks) {
        interaction.rank = rank;
    }
    plan.propositions[0] = add(&mut plan, &[0x4002]);
    plan
}

/// The starting image with these marks.
fn marked(plan: &Draft, marks: u64) -> Image {
    let mut image = started(plan);
    image[16..24].copy_from_slice(&marks.to_le_bytes());
    image
}

fn settled(ends: &[End], ranks: &[u64]) -> (Answer, u64) {
    let plan = fork(ends, ranks);
    let mut image = started(&plan);
    (settle(&plan, &mut image), marks(&image))
}

#[test]
fn each_of_a_chain_is_offered_once_those_above_are_marked() {
    let plan = fork(&[Bad, Bad, Good], &[0, 0b001, 0b011]);
    let mut image = started(&plan);
    let outranked = Answer::Refused(Refusal::Outranked);
    for bad in [0, 1] {
        assert_eq!(offered(&plan, &image), (Answer::Accepted, 1 << bad));
        assert_eq!(attempt(&plan, &mut image, 2), outranked);
        let cancelled = Answer::Cancelled(bad as usize);
        assert_eq!(attempt(&plan, &mut image, bad), cancelled);
    }
    assert_eq!(offered(&plan, &image), (Answer::Accepted, 0b100));
    assert_eq!(attempt(&plan, &mut image, 2), Answer::Committed(2));
}

#[test]
fn one_unmarked_move_above_is_enough_to_hold_down() {
    let plan = fork(&[Bad, Good, Good], &[0, 0, 0b011]);
    let mut image = started(&plan);
    assert_eq!(attempt(&plan, &mut image, 0), Answer::Cancelled(0));
    assert_eq!(offered(&plan, &image), (Answer::Accepted, 0b010));
    let outranked = Answer::Refused(Refusal::Outranked);
    assert_eq!(attempt(&plan, &mut image, 2), outranked);
}

#[test]
fn a_mark_needs_a_mark_on_each_enabled_move_above() {
    let plan = fork(&[Bad, Bad, NotEnabled, Bad], &[0, 0b0001, 0, 0b0111]);
    let of = |marks| offered(&plan, &marked(&plan, marks));
    let refused = (Answer::Refused(Refusal::FalseMark), 0);
    for marks in [0b0010, 0b1000, 0b1001, 0b1010] {
        assert_eq!(of(marks), refused, "{marks:#b}");
    }
    let accepted = [(0, 1), (0b0001, 0b0010), (0b0011, 0b1000), (0b1011, 0)];
    for (marks, bits) in accepted {
        assert_eq!(of(marks), (Answer::Accepted, bits), "{marks:#b}");
    }
}

#[test]
fn a_mark_on_a_good_move_is_false_though_all_above_are_marked() {
    let plan = fork(&[Bad, Good], &[0, 0b01]);
    let refused = (Answer::Refused(Refusal::FalseMark), 0);
    assert_eq!(offered(&plan, &marked(&plan, 0b11)), refused);
}

#[test]
fn penned_marks_outranked_moves_too() {
    let ranks = [0b110, 0b100, 0, 0];
    assert_eq!(settled(&[Bad; 4], &ranks), (Answer::Penned, 0b1111));
    let ends = [Bad, NotEnabled, Bad, Bad];
    assert_eq!(settled(&ends, &ranks), (Answer::Penned, 0b1101));
}

#[test]
fn settling_passes_over_a_good_move_with_a_good_one_above() {
    let committed = |number| (Answer::Committed(number), 0);
    assert_eq!(settled(&[Good, Good], &[0b10, 0]), committed(1));
    // The one between them is bad.
    let ranks = [0b110, 0b100, 0];
    assert_eq!(settled(&[Good, Bad, Good], &ranks), committed(2));
    // Of those with none above, the lowest number.
    let ranks = [0b1000, 0, 0, 0];
    assert_eq!(settled(&[Good; 4], &ranks), committed(1));
}

#[test]
fn settling_commits_a_move_below_bad_ones_alone() {
    let committed = |number| (Answer::Committed(number), 0);
    assert_eq!(settled(&[Good, Bad], &[0b10, 0]), committed(0));
    let ranks = [0b110, 0b100, 0];
    assert_eq!(settled(&[Good, Bad, Bad], &ranks), committed(0));
    assert_eq!(settled(&[Good, NotEnabled, Bad], &ranks), committed(0));
    assert_eq!(settled(&[Bad, Good, Bad], &ranks), committed(1));
}

#[test]
fn nothing_enabled_is_stalled_whatever_the_ranks() {
    let stalled = (Answer::Stalled, 0);
    assert_eq!(settled(&[NotEnabled; 3], &[0b110, 0b100, 0]), stalled);
}

/// Visits three moves with all their ends under every strict order.
pub fn every_fork(mut visit: impl FnMut(&Draft, &[End; 3], &[u64; 3])) {
    for rows in 0..1_u64 << 9 {
        let ranks = [0, 3, 6].map(|at| rows >> at & 0b111);
        for ends in (0..27).map(|n| [1, 3, 9].map(|digit| ENDS[n / digit % 3])) {
            let plan = fork(&ends, &ranks);
            if check(&plan) == Answer::Accepted {
                visit(&plan, &ends, &ranks);
            }
        }
    }
}

#[test]
fn settling_does_not_depend_on_the_marks() {
    let (mut forks, mut with_marks) = (0, 0);
    every_fork(|plan, _, _| {
        let mut without = started(plan);
        let answer = settle(plan, &mut without);
        forks += 1;
        for marks in 1..8 {
            let mut image = marked(plan, marks);
            if offered(plan, &image).0 == Answer::Accepted {
                assert_eq!(settle(plan, &mut image), answer);
                assert_eq!(image, without);
                with_marks += 1;
            }
        }
    });
    // There are 19 strict orders of three.
    assert_eq!(forks, 19 * 27);
    assert!(with_marks > 200, "{with_marks}");
}

/// Before the move that settling commits, the enabled bad ones above it are tried, from the top.
#[test]
fn tries_from_the_top_commit_what_settling_does() {
    let mut below = 0;
    every_fork(|plan, ends, ranks| {
        let mut image = started(plan);
        let Answer::Committed(chosen) = settle(plan, &mut image.clone()) else {
            return;
        };
        let mut above: Vec<usize> = (0..3).filter(|i| ranks[chosen] >> i & 1 == 1).collect();
        above.retain(|&i| ends[i] != NotEnabled);
        above.sort_by_key(|&i| ranks[i].count_ones());
        for &bad in &above {
            let cancelled = Answer::Cancelled(bad);
            assert_eq!(attempt(plan, &mut image, bad as u32), cancelled);
        }
        let committed = Answer::Committed(chosen);
        assert_eq!(attempt(plan, &mut image, chosen as u32), committed);
        below += usize::from(!above.is_empty());
    });
    assert!(below > 50, "{below}");
}
