//! The added oracles of 02: their bytes, their part in the verdict, and their refusals.

use reference::answer::{Answer, Refusal};
use reference::book::{Book, Call};
use reference::calls;
use reference::draft::{Draft, OracleState};
use reference::lane::Lane;
use reference::plan::Plan;

use crate::sample::*;

/// An oracle of the sample to which so many events are good, and no more.
fn events(count: u8) -> Vec<OracleState> {
    let good = (0..=count).map(|n| state(2, &[n + 1; 2]));
    good.chain([state(0, &[count + 1; 2])]).collect()
}

/// An oracle to which everything is good.
fn harmless() -> Vec<OracleState> {
    vec![state(3, &[0, 0])]
}

/// The sample with these oracles added.
fn with(added: &[Vec<OracleState>]) -> Draft {
    let mut plan = sample();
    plan.added = added.to_vec();
    plan
}

fn refused(refusal: Refusal) -> Answer {
    Answer::Refused(refusal)
}

/// Asserts the refusal of the sample with two added oracles after a change to its records.
fn assert_draft(refusal: Refusal, change: impl Fn(&mut Draft)) {
    let mut plan = with(&[harmless(), events(2)]);
    assert_eq!(check(&plan), Answer::Accepted);
    change(&mut plan);
    assert_plan_refused(&plan.bytes(), refusal);
}

/// Asserts the refusal of the sample with one oracle of four states after the bytes from 42 on are set.
fn assert_counts(refusal: Refusal, counts: [u8; 4]) {
    let mut plan = with(&[events(2)]).bytes();
    assert_eq!(plan[42..46], [1, 4, 0, 0]);
    plan[42..46].copy_from_slice(&counts);
    assert_plan_refused(&plan, refusal);
}

/// The answer to an offered call after one byte of the starting image is set.
fn with_image_byte(plan: &Draft, at: usize, byte: u8) -> Answer {
    let mut image = started(plan);
    image[at] = byte;
    offered(plan, &image).0
}

#[test]
fn counts_and_tables_stand_where_02_puts_them() {
    let plan = with(&[events(1), harmless(), events(0)]).bytes();
    assert_eq!(plan[42..48], [3, 3, 1, 2, 0, 0]);
    assert_eq!(plan[38..42], [208, 0, 232, 0]);
    let tables = [
        2, 0, 1, 0, 1, 1, 2, 1, 1, 2, 2, 2, 0, 2, 2, 3, 0, 0, 2, 1, 1, 0, 1, 1,
    ];
    assert_eq!(plan[208..232], tables);
    assert_eq!(plan.len(), 234 + 18);
    assert_eq!(calls::check(&plan), Answer::Accepted);
}

#[test]
fn each_oracle_begins_in_its_state_and_reads_the_starting_event() {
    let mut plan = with(&[events(5), harmless(), events(3)]);
    plan.oracle = vec![state(2, &[1, 1]), state(2, &[2, 2]), state(2, &[0, 0])];
    plan.first = 1;
    assert_eq!(started(&plan)[8..12], [2, 1, 0, 1]);
}

#[test]
fn all_oracles_read_the_same_letter() {
    let by_letter = || vec![state(2, &[0, 1]), state(2, &[0, 1])];
    let mut plan = with(&[by_letter(), by_letter(), by_letter()]);
    plan.oracle = by_letter();
    let mut image = started(&plan);
    assert_eq!(image[8..12], [0; 4]);
    assert_eq!(attempt(&plan, &mut image, 0), Answer::Committed(0));
    assert_eq!(image[8..12], [1; 4]);
}

#[test]
fn a_commit_writes_every_oracle_state() {
    let plan = with(&[events(9), events(7)]);
    let mut image = started(&plan);
    assert_eq!(image[8..12], [0, 1, 1, 0]);
    assert_eq!(settle(&plan, &mut image), Answer::Committed(1));
    assert_eq!(image[8..12], [0, 2, 2, 0]);
    assert_eq!(attempt(&plan, &mut image, 0), Answer::Committed(0));
    assert_eq!(image[8..12], [0, 3, 3, 0]);
}

#[test]
fn any_added_oracle_cancels_a_move_that_the_others_let_pass() {
    for k in 0..3 {
        let mut added = vec![harmless(), harmless(), harmless()];
        added[k] = events(1);
        let plan = with(&added);
        let mut image = started(&plan);
        let mut cancelled = image;
        cancelled[16] = 2;
        assert_eq!(attempt(&plan, &mut image, 1), Answer::Cancelled(1));
        assert_eq!(image, cancelled);
        assert_eq!(attempt(&plan, &mut image, 1), refused(Refusal::Marked));
    }
}

#[test]
fn the_first_oracle_cancels_a_move_that_the_added_ones_let_pass() {
    let plan = with(&[harmless(), events(5)]);
    let mut image = started(&plan);
    let mut cancelled = image;
    cancelled[16] = 1;
    assert_eq!(attempt(&plan, &mut image, 0), Answer::Cancelled(0));
    assert_eq!(image, cancelled);
}

#[test]
fn settling_goes_by_every_oracle() {
    let plan = with(&[events(2)]);
    let mut image = started(&plan);
    assert_eq!(settle(&plan, &mut image), Answer::Committed(1));
    let mut penned = image;
    penned[16] = 1;
    assert_eq!(settle(&plan, &mut image), Answer::Penned);
    assert_eq!(image, penned);
}

#[test]
fn the_verdict_is_the_lowest_of_all() {
    let verdict = |first: u8, added: &[u8]| {
        let lasting = |&verdict: &u8| vec![state(verdict, &[0, 0])];
        let mut plan = with(&added.iter().map(lasting).collect::<Vec<_>>());
        plan.oracle = lasting(&first);
        let plan = Plan::read(&plan.bytes()).unwrap();
        Lane::start(&plan).verdict(&plan)
    };
    assert_eq!(verdict(3, &[]), 3);
    assert_eq!(verdict(3, &[3, 3, 3]), 3);
    assert_eq!(verdict(2, &[3]), 2);
    assert_eq!(verdict(3, &[3, 2]), 2);
    assert_eq!(verdict(3, &[3, 2, 0]), 0);
    assert_eq!(verdict(2, &[0, 3]), 0);
    assert_eq!(verdict(0, &[3, 3]), 0);
    assert_eq!(verdict(1, &[3, 2]), 1);
    assert_eq!(verdict(2, &[3, 1]), 1);
    assert_eq!(verdict(1, &[0]), 0);
}

#[test]
fn adding_an_oracle_turns_no_bad_move_good() {
    let good = |plan: &Draft, moves: &[usize]| {
        let plan = Plan::read(&plan.bytes()).unwrap();
        let after = |lane: Lane, &i: &usize| lane.after(&plan, i).unwrap();
        moves.iter().fold(Lane::start(&plan), after).good(&plan)
    };
    for moves in [&[][..], &[0], &[1], &[1, 0], &[1, 0, 2], &[1, 0, 2, 0]] {
        for count in 0..6 {
            for added in [vec![events(count)], vec![harmless(), events(count)]] {
                assert!(good(&sample(), moves) || !good(&with(&added), moves));
            }
        }
    }
}

#[test]
fn r01_before_a_count() {
    let mut plan = with(&[harmless()]).bytes();
    plan[42] = 4;
    plan[47] = 1;
    assert_plan_refused(&plan, Refusal::Head);
}

#[test]
fn r02_more_than_three_added() {
    assert_counts(Refusal::Count, [4, 4, 1, 1]);
    assert_counts(Refusal::Count, [255, 4, 1, 1]);
    let plan = with(&[harmless(), harmless(), harmless(), harmless()]);
    assert_eq!(check(&plan), refused(Refusal::Count));
}

#[test]
fn r02_states_of_an_added_oracle_out_of_range() {
    assert_counts(Refusal::Count, [1, 0, 0, 0]);
    assert_counts(Refusal::Count, [1, 33, 0, 0]);
    assert_counts(Refusal::Count, [2, 4, 0, 0]);
    assert_counts(Refusal::Count, [3, 4, 1, 33]);
    assert_eq!(check(&with(&[vec![]])), refused(Refusal::Count));
}

#[test]
fn r02_states_of_an_unused_oracle() {
    assert_counts(Refusal::Count, [1, 4, 1, 0]);
    assert_counts(Refusal::Count, [1, 4, 0, 1]);
    assert_counts(Refusal::Count, [0, 4, 0, 0]);
}

#[test]
fn r03_tables_of_another_length_than_the_counts_give() {
    assert_counts(Refusal::Layout, [0, 0, 0, 0]);
    assert_counts(Refusal::Layout, [1, 3, 0, 0]);
    assert_counts(Refusal::Layout, [1, 5, 0, 0]);
    assert_counts(Refusal::Layout, [2, 4, 1, 0]);
    assert_counts(Refusal::Layout, [3, 4, 32, 32]);
}

#[test]
fn added_states_32_and_33() {
    let with_states = |count: u8| with(&[vec![state(2, &[count - 1, 0]); count.into()]]);
    assert_eq!(check(&with_states(32)), Answer::Accepted);
    assert_eq!(check(&with_states(33)), refused(Refusal::Count));
}

#[test]
fn longest_plan_is_accepted() {
    let mut plan = sample();
    plan.components.resize(16, plan.components[0]);
    plan.interactions.resize(64, interaction(2));
    plan.variables.resize(64, plan.variables[0]);
    plan.transitions.resize(256, transition(2, 2, 0, EMPTY));
    plan.propositions.resize(4, plan.propositions[0]);
    plan.oracle = vec![state(2, &Vec::from_iter(16..32)); 32];
    plan.added = vec![plan.oracle.clone(); 3];
    plan.code.resize(4096, 0);
    assert_eq!(plan.bytes().len(), 16_128);
    assert_eq!(started(&plan)[8..12], [16; 4]);
}

#[test]
fn r15_an_added_oracle_alone_calls_the_start_bad() {
    for added in [vec![events(0)], vec![harmless(), harmless(), events(0)]] {
        let mut image = [0xa5; 312];
        let plan = with(&added);
        assert_eq!(check(&plan), Answer::Accepted);
        let answer = calls::start(&plan.bytes(), &mut image);
        assert_eq!(answer, refused(Refusal::BadStart));
        assert_eq!(image, [0xa5; 312]);
    }
}

#[test]
fn r20_verdict_past_3() {
    for verdict in [4, 255] {
        assert_draft(Refusal::AddedOracle, |plan| {
            plan.added[0][0].verdict = verdict
        });
        assert_draft(Refusal::AddedOracle, |plan| {
            plan.added[1][0].verdict = verdict
        });
    }
}

#[test]
fn r20_next_state_not_below_its_own_count() {
    assert_draft(Refusal::AddedOracle, |plan| plan.added[0][0].next[1] = 1);
    assert_draft(Refusal::AddedOracle, |plan| plan.added[1][0].next[0] = 4);
}

#[test]
fn r20_bad_state_with_a_good_follower() {
    assert_draft(Refusal::AddedOracle, |plan| plan.added[1][3].next[1] = 0);
}

#[test]
fn r20_true_for_good_with_another_follower() {
    assert_draft(Refusal::AddedOracle, |plan| plan.added[1][0].verdict = 3);
    assert_draft(Refusal::AddedOracle, |plan| plan.added[1][2].verdict = 3);
}

#[test]
fn r20_comes_after_9_and_before_10() {
    let spoil_added = |plan: &mut Draft| plan.added[1][0].verdict = 4;
    assert_draft(Refusal::AddedOracle, |plan| {
        spoil_added(plan);
        plan.propositions[0] = EMPTY;
    });
    assert_draft(Refusal::Oracle, |plan| {
        spoil_added(plan);
        plan.oracle[0].verdict = 4;
    });
    assert_draft(Refusal::Code, |plan| plan.propositions[0] = EMPTY);
    assert_eq!(Refusal::AddedOracle as u32, 20);
}

#[test]
fn r13_a_used_state_out_of_range_or_bad_and_an_unused_one_filled() {
    let plan = with(&[harmless(), events(2)]);
    for (at, byte) in [(9, 1), (9, 255), (10, 3), (10, 4), (11, 1)] {
        let answer = with_image_byte(&plan, at, byte);
        assert_eq!(answer, refused(Refusal::State), "{byte} at {at}");
    }
    assert_eq!(with_image_byte(&plan, 10, 2), Answer::Accepted);
}

#[test]
fn r13_an_image_of_the_plan_before_an_oracle_was_added_or_taken() {
    let more = with(&[events(2)]);
    let answer = offered(&sample(), &started(&more)).0;
    assert_eq!(answer, refused(Refusal::State));
    assert_eq!(offered(&more, &started(&sample())).0, Answer::Accepted);
}

#[test]
fn r14_goes_by_every_oracle() {
    let mut image = started(&sample());
    image[16] = 2;
    image[9] = 1;
    let plan = with(&[events(1)]);
    assert_eq!(offered(&plan, &image), (Answer::Accepted, 1));
    assert_eq!(
        offered(&with(&[events(2)]), &image).0,
        refused(Refusal::FalseMark)
    );
}

#[test]
fn book_follows_the_image_with_added_oracles() {
    let plan = with(&[harmless(), events(4), events(3)]);
    let mut book = Book::new(Plan::read(&plan.bytes()).unwrap());
    let mut image = started(&plan);
    assert_eq!(book.image(), image);
    for number in [0, 1, 1, 0, 2, 2] {
        let expected = attempt(&plan, &mut image, number);
        assert_eq!(book.call(Call::Try(number)), (expected, 0));
        assert_eq!(book.image(), image);
        assert_eq!(book.call(Call::Offered), offered(&plan, &image));
    }
    assert_eq!(book.call(Call::Settle).0, settle(&plan, &mut image));
    assert_eq!(settle(&plan, &mut image), Answer::Penned);
}
