//! What each plan is there to show.

use planner::drive::{drive, Disabler};
use planner::lane::Lane;
use planner::plan::Plan;
use planner::plans::{
    chain, chains, maximal, philosophers, robots, sample, split_skip, sums, tasks, wet_bales,
};
use planner::rng::Rng;
use reference::calls;
use reference::sums::{counted, Past};
use yard::{Answer, CANCELLED, COMMITTED, IMAGE_BYTES, PENNED, REFUSED};

fn lane(plan: Plan) -> Lane {
    Lane::start(plan.bytes()).unwrap()
}

fn answer(kind: u32, number: u32) -> Answer {
    Answer { kind, number }
}

fn commit(lane: &mut Lane, moves: &[u32]) {
    for i in moves {
        assert_eq!(lane.attempt(*i), answer(COMMITTED, *i));
    }
}

fn settled(lane: &mut Lane, moves: usize) -> Vec<u32> {
    let one = |_| {
        let answer = lane.settle();
        assert_eq!(answer.kind, COMMITTED);
        answer.number
    };
    (0..moves).map(one).collect()
}

#[test]
fn sample_weighs_only_what_is_tared() {
    let mut lane = lane(sample::plan());
    assert_eq!(lane.offered(), 0b11);
    assert_eq!(lane.attempt(0), answer(CANCELLED, 0));
    assert_eq!(lane.attempt(0), answer(REFUSED, 19));
    assert_eq!(settled(&mut lane, 6), [1, 0, 2, 1, 0, 2]);
}

#[test]
fn the_last_philosopher_may_not_take_a_right_fork() {
    for n in [3, 8] {
        let mut lane = lane(philosophers::plan(n as usize));
        commit(&mut lane, &Vec::from_iter(0..n - 1));
        assert_eq!(lane.attempt(n - 1), answer(CANCELLED, n - 1));
        // The one beside the free fork may take it on the left, and then lay both down.
        let left = n + n - 2;
        assert_eq!(lane.offered(), 1 << left);
        commit(&mut lane, &[left, left + n]);
        assert_eq!(lane.location(n as usize - 2), 0);
    }
}

#[test]
fn philosophers_are_never_penned() {
    let mut lane = lane(philosophers::plan(8));
    let rollbacks = drive(&mut lane, &mut Rng(1), 5000, Disabler::On).unwrap();
    assert!(rollbacks > 0);
}

#[test]
fn tasks_alternate() {
    let mut lane = lane(tasks::plan());
    assert_eq!(lane.attempt(0), answer(CANCELLED, 0));
    // Example 5 of 000: task 2 executes, task 1 executes and fails, task 2 executes twice; the last start is bad.
    commit(&mut lane, &[1, 3, 5, 0, 2, 6, 1, 8, 3, 5]);
    assert_eq!(lane.attempt(1), answer(CANCELLED, 1));
    commit(&mut lane, &[0]);
    let executions_started = lane.value(0);
    assert_eq!(executions_started, 4);
}

#[test]
fn settled_tasks_take_turns() {
    let round = [1, 3, 5, 0, 2, 4];
    assert_eq!(
        settled(&mut lane(tasks::plan()), 12),
        [round, round].concat()
    );
}

#[test]
fn the_top_of_the_chain_goes_first() {
    let mut lane = lane(chain::plan());
    for i in (0..64).rev() {
        assert_eq!(lane.offered(), 1 << i);
        if i > 0 {
            assert_eq!(lane.attempt(i - 1), answer(REFUSED, 18));
        }
        assert_eq!(lane.settle(), answer(COMMITTED, i));
    }
    assert_eq!(lane.offered(), 1 << 63);
}

#[test]
fn the_bottom_of_the_bad_chain_is_tried_last() {
    let mut lane = lane(chains::lowest_good());
    for i in (1..64).rev() {
        assert_eq!(lane.offered(), 1 << i);
        assert_eq!(lane.attempt(i - 1), answer(REFUSED, 18));
        assert_eq!(lane.attempt(i), answer(CANCELLED, i));
    }
    assert_eq!(lane.offered(), 1);
    commit(&mut lane, &[0]);
}

#[test]
fn every_settling_of_the_bad_chain_finds_all_others_enabled_and_bad() {
    let mut lane = lane(chains::lowest_good());
    for _ in 0..3 {
        assert_eq!(settled(&mut lane, 1), [0]);
        let kept = lane.image;
        for i in (1..64).rev() {
            assert_eq!(lane.attempt(i), answer(CANCELLED, i));
        }
        lane.image = kept;
    }
}

#[test]
fn every_settling_of_the_good_chain_commits_the_top_and_leaves_all_enabled() {
    let mut lane = lane(chains::all_good());
    for _ in 0..3 {
        assert_eq!(lane.offered(), 1 << 63);
        assert_eq!(settled(&mut lane, 1), [63]);
    }
    assert_eq!(lane.attempt(0), answer(REFUSED, 18));
}

#[test]
fn a_chain_without_a_good_move_is_penned_with_every_mark() {
    let downwards: Vec<u32> = (0..64).rev().collect();
    let turned: Vec<u32> = (1..64).chain([0]).collect();
    for (plan, from_the_top) in [
        (chains::none_good(), downwards),
        (chains::none_good_turned(), turned),
    ] {
        let mut lane = lane(plan);
        let started = lane.image;
        for i in from_the_top {
            assert_eq!(lane.offered(), 1 << i);
            assert_eq!(lane.attempt(i), answer(CANCELLED, i));
        }
        let crossed_off = lane.image;
        lane.image = started;
        assert_eq!(lane.settle(), answer(PENNED, 0));
        assert_eq!(lane.image, crossed_off);
    }
}

#[test]
fn a_robot_may_not_step_on_another() {
    let mut lane = lane(robots::plan(2));
    commit(&mut lane, &[0, 6, 12]);
    let active = lane.value(12);
    assert_eq!(active, 3);
    // Robot 0 at (0, 0): up is robot 2's place, right is free.
    assert_eq!(lane.attempt(2), answer(CANCELLED, 2));
    commit(&mut lane, &[5]);
    assert_eq!([0, 1, 2].map(|v| lane.value(v)), [1, 0, 999]);
}

#[test]
fn a_robot_stops_after_its_moves() {
    let mut lane = lane(robots::plan(5));
    let moves = settled(&mut lane, 1002);
    assert_eq!((moves[0], moves[1001]), (0, 1));
    assert!(moves[1..1001].iter().all(|i| (2..6).contains(i)));
    assert_eq!(
        (lane.location(0), lane.location(3), lane.value(12)),
        (0, 0, 0)
    );
}

#[test]
fn robots_stay_apart_and_on_the_map() {
    for n in [2, 5, 100] {
        let (mut lane, mut rng) = (lane(robots::plan(n)), Rng(7));
        for _ in 0..2000 {
            drive(&mut lane, &mut rng, 1, Disabler::On).unwrap();
            let [a, b, c] = [0, 3, 6].map(|v| (lane.value(v), lane.value(v + 1)));
            assert!(a != b && a != c && b != c);
            assert!([a, b, c]
                .iter()
                .all(|(x, y)| (0..n).contains(x) && (0..n).contains(y)));
        }
    }
}

#[test]
fn maximal_has_every_count_at_its_limit() {
    let bytes = maximal::plan().bytes();
    let field = |at: usize| u16::from_le_bytes([bytes[at], bytes[at + 1]]);
    let counts = [10, 12, 14, 16, 18, 20, 24].map(field);
    assert_eq!(counts, [16, 64, 256, 64, 4, 32, 4096]);
}

#[test]
fn maximal_moves_with_cancelled_and_outranked_ones() {
    let mut lane = lane(maximal::plan());
    // Bay 12 holds bay 8 down until it has given.
    assert_eq!(lane.attempt(8), answer(REFUSED, 18));
    commit(&mut lane, &[12, 8]);
    let rollbacks = drive(&mut lane, &mut Rng(1), 3000, Disabler::On).unwrap();
    assert!(rollbacks > 50);
    let levels: i32 = (0..16).map(|bay| lane.value(4 * bay)).sum();
    assert_eq!(levels, 64);
}

#[test]
fn maximal_with_oracles_is_the_longest_plan() {
    let bytes = maximal::with_oracles().bytes();
    assert_eq!(bytes[42..46], [3, 32, 32, 32]);
    assert_eq!(
        (bytes.len(), maximal::plan().bytes().len()),
        (16_128, 14_496)
    );
}

#[test]
fn four_oracles_judge_as_the_one_that_they_share_out() {
    let (mut one, mut four) = (lane(maximal::plan()), lane(maximal::with_oracles()));
    let mut rng = Rng(3);
    let mut cancelled = 0;
    for _ in 0..2000 {
        let offered = one.offered();
        assert_eq!(four.offered(), offered);
        let tried = rng.bit(offered);
        let answer = one.attempt(tried);
        assert_eq!(four.attempt(tried), answer);
        assert_eq!(four.image[16..], one.image[16..]);
        cancelled += usize::from(answer.kind == CANCELLED);
    }
    assert!(cancelled > 20);
    let states = [0, 1, 2, 3].map(|n| four.oracle(n));
    assert!(states[0] == one.oracle(0) && states[1..] != [0; 3]);
}

const STORE: u32 = 0;
const WEIGH: u32 = 1;
const DRY: u32 = 2;
const BRING_WET: u32 = 3;
const BRING_DRY: u32 = 4;
const SHIP: u32 = 5;

#[test]
fn a_wet_bale_is_stored_under_the_common_rule_and_not_under_the_depots() {
    let (mut common, mut depot) = (lane(wet_bales::common()), lane(wet_bales::plan()));
    for lane in [&mut common, &mut depot] {
        commit(lane, &[BRING_WET, WEIGH]);
    }
    commit(&mut common, &[STORE]);
    let [stored, weight] = [2, 3].map(|v| common.value(v));
    assert_eq!((stored, weight), (1, 570));
    // The same move is cancelled: its mark is set, and no other byte differs.
    let mut marked = depot.image;
    marked[16] |= 1 << STORE;
    assert_eq!((depot.oracle(0), depot.oracle(1)), (0, 1));
    assert_eq!(depot.attempt(STORE), answer(CANCELLED, STORE));
    assert_eq!(depot.image, marked);
    assert_eq!(depot.offered(), 1 << DRY);
    // Dried and weighed anew, the bale is stored.
    commit(&mut depot, &[DRY, WEIGH, STORE]);
    assert_eq!((depot.value(2), depot.value(3)), (1, 450));
}

#[test]
fn no_bale_is_stored_unweighed_under_either_rule() {
    for plan in [wet_bales::common(), wet_bales::plan()] {
        let mut lane = lane(plan);
        for bring in [BRING_DRY, BRING_WET] {
            commit(&mut lane, &[bring]);
            assert_eq!(lane.attempt(STORE), answer(CANCELLED, STORE));
            commit(&mut lane, &[WEIGH]);
            if bring == BRING_DRY {
                commit(&mut lane, &[STORE, SHIP]);
            }
        }
    }
}

#[test]
fn what_the_depot_lets_pass_the_common_rule_does_too() {
    let (mut common, mut depot) = (lane(wet_bales::common()), lane(wet_bales::plan()));
    let mut rng = Rng(5);
    for _ in 0..2000 {
        let tried = rng.bit(depot.offered());
        match depot.attempt(tried).kind {
            COMMITTED => commit(&mut common, &[tried]),
            _ => assert_eq!(tried, STORE),
        }
    }
    assert_eq!(depot.image[24..], common.image[24..]);
}

#[test]
fn settling_dries_each_wet_bale() {
    let bale = [BRING_WET, WEIGH, DRY, WEIGH, STORE];
    let mut expected = bale.repeat(4);
    expected.extend([BRING_WET, WEIGH, DRY, WEIGH, SHIP, STORE]);
    let mut lane = lane(wet_bales::plan());
    assert_eq!(settled(&mut lane, expected.len()), expected);
}

#[test]
fn the_ledger_takes_deliveries_until_the_yard_is_full_and_then_ships() {
    const DELIVERY: i32 = 145_105_000;
    const STOCK: usize = 24;
    let mut lane = lane(sums::plan());
    assert_eq!(settled(&mut lane, 10), [0, 0, 0, 0, 2, 2, 2, 2, 4, 4]);
    assert_eq!(lane.value(STOCK), 10 * DELIVERY);
    assert_eq!(lane.attempt(4), answer(CANCELLED, 4));
    assert_eq!(settled(&mut lane, 6), [8, 0, 0, 0, 0, 8]);
    let piles: i32 = (0..STOCK).map(|pile| lane.value(pile)).sum();
    assert_eq!((lane.value(STOCK), piles), (6 * DELIVERY, 6 * DELIVERY));
}

#[test]
fn most_words_of_the_ledger_are_sums() {
    let plan = sums::plan().bytes();
    let code = usize::from(u16::from_le_bytes([plan[40], plan[41]]));
    let words = plan[code..].chunks_exact(2);
    let words = words.map(|word| u16::from_le_bytes([word[0], word[1]]));
    let is_sum = |word: &u16| word >> 12 == 1 || matches!(word, 0x6000 | 0x6001);
    let (sums, others): (Vec<u16>, Vec<u16>) = words.partition(is_sum);
    assert!(sums.len() > others.len());
}

#[test]
fn no_sum_of_the_ledger_goes_past_an_end() {
    let plan = sums::plan().bytes();
    let (mut image, mut rng) = ([0; IMAGE_BYTES], Rng(9));
    let (cancelled, past) = counted(|| {
        calls::start(&plan, &mut image);
        let mut one = || {
            let tried = rng.bit(calls::offered(&plan, &image).1);
            calls::attempt(&plan, &mut image, tried).kind()
        };
        (0..2000).filter(|_| one() == CANCELLED).count()
    });
    assert!(cancelled > 50);
    assert_eq!(past, Past::default());
}

const TIP_LEFT: u16 = 0;
const TIP_RIGHT: u16 = 1;
const ARRIVE: u16 = 2;
const LEAVE: u16 = 3;

/// Left and right: what is in the skip, then what the ticket says.
fn halves(lane: &Lane) -> [i32; 4] {
    [0, 1, 2, 3].map(|v| lane.value(v))
}

#[test]
fn settling_and_tries_never_empty_the_skip() {
    let mut lane = lane(split_skip::plan());
    for _ in 0..5 {
        commit(&mut lane, &[ARRIVE.into()]);
        for tip in [TIP_LEFT, TIP_RIGHT].map(u32::from) {
            assert_eq!(lane.attempt(tip), answer(CANCELLED, tip));
        }
        assert_eq!(settled(&mut lane, 3), [LEAVE, ARRIVE, LEAVE].map(u32::from));
        assert_eq!(halves(&lane), [1240, 860, 0, 0]);
    }
}

#[test]
fn a_list_empties_both_halves_through_verdict_1() {
    for moves in [[TIP_LEFT, TIP_RIGHT], [TIP_RIGHT, TIP_LEFT]] {
        let mut lane = lane(split_skip::plan());
        commit(&mut lane, &[ARRIVE.into()]);
        let before = lane.image;
        // One half alone is not yet good.
        assert_eq!(lane.list(&moves[..1]), answer(CANCELLED, 1));
        assert_eq!(lane.image, before);
        assert_eq!(lane.list(&moves), answer(COMMITTED, 2));
        assert_eq!(halves(&lane), [0, 0, 1240, 860]);
        assert_eq!(settled(&mut lane, 1), [LEAVE.into()]);
    }
}

#[test]
fn a_whole_visit_is_one_list() {
    let mut lane = lane(split_skip::plan());
    let visit = [ARRIVE, TIP_LEFT, TIP_RIGHT, LEAVE];
    for _ in 0..3 {
        assert_eq!(lane.list(&visit), answer(COMMITTED, 4));
        assert_eq!(lane.list(&visit.repeat(2)), answer(COMMITTED, 8));
        assert_eq!(halves(&lane), [0, 0, 1240, 860]);
    }
    assert_eq!(lane.list(&visit.repeat(3)), answer(REFUSED, 22));
}

#[test]
fn nothing_else_may_be_done_while_one_half_is_weighed() {
    let mut lane = lane(split_skip::plan());
    commit(&mut lane, &[ARRIVE.into()]);
    for other in [TIP_LEFT, ARRIVE, LEAVE] {
        let moves = [TIP_LEFT, other, TIP_RIGHT];
        assert_eq!(lane.list(&moves), answer(CANCELLED, 1));
    }
}

#[test]
fn a_full_skip_may_leave_by_settling_and_not_by_a_list() {
    let mut lane = lane(split_skip::plan());
    commit(&mut lane, &[ARRIVE.into()]);
    // Tipping lies above leaving, and leads to a verdict other than 0.
    assert_eq!(lane.attempt(LEAVE.into()), answer(REFUSED, 18));
    assert_eq!(lane.list(&[LEAVE]), answer(CANCELLED, 0));
    assert_eq!(settled(&mut lane, 1), [LEAVE.into()]);
}
