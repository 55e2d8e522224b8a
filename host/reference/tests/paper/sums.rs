//! Job 2 of 02: add, subtract and kind 1 stop at the ends of signed 32 bits, and what reads a sum follows.

use reference::answer::{Answer, Refusal};
use reference::calls;
use reference::code::{apply, Operator};
use reference::draft::Draft;
use reference::sums::{self, Past};

use crate::sample::*;

const MAX: i32 = 2147483647;
const MIN: i32 = -2147483648;

// Where the exact result lies.
const WITHIN: [u64; 2] = [0, 0];
const ABOVE: [u64; 2] = [1, 0];
const BELOW: [u64; 2] = [0, 1];

/// An operation with its row in the counts.
type Operation = (fn(i32, i32) -> i32, usize);
const ADD: Operation = (|left, right| apply(Operator::Add, left, right), 0);
const SUBTRACT: Operation = (|left, right| apply(Operator::Subtract, left, right), 1);
const KIND_1: Operation = (sums::extend, 2);

fn counted((operation, _): Operation, left: i32, right: i32) -> (i32, Past) {
    sums::counted(|| operation(left, right))
}

#[rustfmt::skip]
const ROWS: [(Operation, i32, i32, i32, [u64; 2]); 33] = [
    (ADD, MAX - 1, 1, MAX, WITHIN), (ADD, MAX, -1, MAX - 1, WITHIN), (ADD, MAX, MIN, -1, WITHIN),
    (ADD, MAX, 1, MAX, ABOVE), (ADD, 1, MAX, MAX, ABOVE), (ADD, MAX, MAX, MAX, ABOVE),
    (ADD, MIN + 1, -1, MIN, WITHIN), (ADD, MIN, 1, MIN + 1, WITHIN),
    (ADD, MIN, -1, MIN, BELOW), (ADD, -1, MIN, MIN, BELOW), (ADD, MIN, MIN, MIN, BELOW),
    (SUBTRACT, MAX - 1, -1, MAX, WITHIN), (SUBTRACT, MAX, 1, MAX - 1, WITHIN), (SUBTRACT, -1, MIN, MAX, WITHIN),
    (SUBTRACT, MAX, -1, MAX, ABOVE), (SUBTRACT, 0, MIN, MAX, ABOVE), (SUBTRACT, MAX, MIN, MAX, ABOVE),
    (SUBTRACT, MIN + 1, 1, MIN, WITHIN), (SUBTRACT, MIN, -1, MIN + 1, WITHIN), (SUBTRACT, -1, MAX, MIN, WITHIN),
    (SUBTRACT, MIN, 1, MIN, BELOW), (SUBTRACT, -2, MAX, MIN, BELOW), (SUBTRACT, MIN, MAX, MIN, BELOW),
    (KIND_1, 524287, 4094, MAX - 1, WITHIN), (KIND_1, 524287, 4095, MAX, WITHIN),
    (KIND_1, 524288, 0, MAX, ABOVE), (KIND_1, 524288, 4095, MAX, ABOVE), (KIND_1, MAX, 4095, MAX, ABOVE),
    (KIND_1, -524288, 1, MIN + 1, WITHIN), (KIND_1, -524288, 0, MIN, WITHIN),
    // Held before the operand is added as well, these would be above the lower end by the operand.
    (KIND_1, -524289, 4095, MIN, BELOW), (KIND_1, -524289, 1, MIN, BELOW), (KIND_1, MIN, 4095, MIN, BELOW),
];

#[test]
fn sums_are_exact_up_to_the_ends_and_held_there() {
    for (operation, left, right, result, ends) in ROWS {
        let mut past = Past::default();
        past[operation.1] = ends;
        let found = counted(operation, left, right);
        assert_eq!(found, (result, past), "{}: {left}, {right}", operation.1);
    }
}

/// 4096 divides 2^31, and an operand is less: none takes a product past an end or brings one back.
#[test]
fn kind_1_is_past_an_end_exactly_where_its_product_is() {
    for top in [-524289, -524288, -524287, 524287, 524288] {
        let (_, product) = counted(KIND_1, top, 0);
        for operand in 1..4096 {
            assert_eq!(counted(KIND_1, top, operand).1, product);
        }
    }
}

/// The sample with a tare of 2147483647, to which move 1 adds 1; a negative tare is bad.
fn laden() -> Draft {
    let mut plan = sample();
    plan.variables[0].value = MAX;
    plan.transitions[1].action = add(&mut plan, &[0x2000, 0x0001, 0x6000, 0x3000]);
    plan.propositions[0] = add(&mut plan, &[0x2000, 0x0000, 0x6003, 0x6006]);
    plan
}

#[test]
fn an_action_stores_the_held_sum_and_the_event_reads_it() {
    let plan = laden();
    let mut image = started(&plan);
    assert_eq!(attempt(&plan, &mut image, 1), Answer::Committed(1));
    assert_eq!(value(&image, 0), MAX);
}

#[test]
fn a_guard_reads_the_held_sum_and_the_enabled_moves_follow() {
    let mut plan = laden();
    plan.transitions[0].guard = add(&mut plan, &[0x2000, 0x0001, 0x6000, 0x0000, 0x6003]);
    assert_eq!(offered(&plan, &started(&plan)), (Answer::Accepted, 0b11));
}

#[test]
fn a_mark_on_a_move_that_was_bad_while_sums_ran_round_is_false() {
    let plan = laden();
    let mut image = started(&plan);
    image[16] = 0b10;
    let before = image;
    let refused = Answer::Refused(Refusal::FalseMark);
    assert_eq!(offered(&plan, &image), (refused, 0));
    assert_eq!(attempt(&plan, &mut image, 1), refused);
    assert_eq!(settle(&plan, &mut image), refused);
    assert_eq!(image, before);
    assert_eq!(calls::start(&plan.bytes(), &mut image), Answer::Accepted);
    assert_eq!(offered(&plan, &image), (Answer::Accepted, 0b11));
}
