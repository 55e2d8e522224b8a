//! One move: the order of its parts, and what the oracle reads.

use reference::answer::{Answer, Refusal};
use reference::code::{apply, Operator};
use reference::draft::{Component, Draft, Transition};

use crate::sample::*;

/// The sample with an oracle to which everything is good.
fn harmless() -> Draft {
    let mut plan = sample();
    plan.oracle = vec![state(2, &[0, 0])];
    plan
}

#[test]
fn guards_read_the_values_before_the_transfer() {
    let mut plan = harmless();
    plan.interactions[0].transfer = add(&mut plan, &[0x0001, 0x3000]);
    plan.transitions[0].guard = add(&mut plan, &[0x2000]);
    assert_eq!(
        attempt(&plan, &mut started(&plan), 0),
        Answer::Refused(Refusal::NotEnabled)
    );
}

#[test]
fn actions_see_the_transfer() {
    let mut plan = harmless();
    plan.interactions[0].transfer = add(&mut plan, &[0x0005, 0x3000]);
    plan.transitions[0].action = add(&mut plan, &[0x2000, 0x0001, 0x6000, 0x3000]);
    let mut image = started(&plan);
    assert_eq!(attempt(&plan, &mut image, 0), Answer::Committed(0));
    assert_eq!(value(&image, 0), 6);
}

#[test]
fn the_lowest_numbered_transition_whose_guard_holds_is_used() {
    let mut plan = harmless();
    let closed = add(&mut plan, &[0x0000]);
    plan.transitions = [(1, closed), (2, EMPTY), (0, EMPTY)]
        .map(|(destination, guard)| Transition {
            guard,
            ..transition(0, 1, destination, EMPTY)
        })
        .to_vec();
    let mut image = started(&plan);
    assert_eq!(attempt(&plan, &mut image, 0), Answer::Committed(0));
    assert_eq!(image[24], 2);
}

#[test]
fn who_takes_no_part_keeps_location_and_last_port() {
    let mut plan = harmless();
    plan.components.push(Component {
        locations: 2,
        start: 0,
        ports: 1,
        zero: 0,
    });
    plan.transitions.push(Transition {
        component: 1,
        ..transition(0, 0, 1, EMPTY)
    });
    plan.interactions[2].ports = [255; 16];
    plan.interactions[2].ports[1] = 0;
    let mut image = started(&plan);
    assert_eq!(attempt(&plan, &mut image, 2), Answer::Committed(2));
    assert_eq!(
        (image[24..26].to_vec(), image[40..42].to_vec()),
        (vec![0, 1], vec![255, 0])
    );
    assert_eq!(attempt(&plan, &mut image, 1), Answer::Committed(1));
    assert_eq!(
        (image[24..26].to_vec(), image[40..42].to_vec()),
        (vec![1, 1], vec![0, 0])
    );
}

#[test]
fn the_event_is_judged_with_the_new_last_ports() {
    let mut plan = sample();
    plan.propositions[0] = add(&mut plan, &[0x5000]);
    let mut image = started(&plan);
    assert_eq!(attempt(&plan, &mut image, 1), Answer::Cancelled(1));
    assert_eq!(attempt(&plan, &mut image, 0), Answer::Committed(0));
}

#[test]
fn no_last_port_yet_is_true_at_the_start_alone() {
    let mut plan = sample();
    plan.propositions[0] = add(&mut plan, &[0x50ff, 0x6006]);
    let mut image = started(&plan);
    assert_eq!(settle(&plan, &mut image), Answer::Penned);
    assert_eq!(marks(&image), 3);
}

#[test]
fn the_starting_event_moves_the_oracle() {
    let mut plan = sample();
    plan.oracle.push(state(3, &[2, 2]));
    plan.oracle[0].next[0] = 2;
    assert_eq!(started(&plan)[8], 2);
}

#[test]
fn the_letter_has_a_bit_for_each_proposition() {
    let mut plan = sample();
    let (yes, no) = (add(&mut plan, &[0x0007]), add(&mut plan, &[0x0000]));
    plan.propositions = vec![yes, no, yes, yes];
    plan.oracle = vec![state(2, &Vec::from_iter(0..16)); 16];
    assert_eq!(started(&plan)[8], 0b1101);
}

#[test]
fn a_cancelled_move_keeps_the_marks_before_it() {
    let mut plan = sample();
    plan.propositions[0] = add(&mut plan, &[0x50ff, 0x6006]);
    let mut image = started(&plan);
    assert_eq!(attempt(&plan, &mut image, 1), Answer::Cancelled(1));
    assert_eq!(attempt(&plan, &mut image, 0), Answer::Cancelled(0));
    assert_eq!(marks(&image), 3);
}

#[test]
fn kind_1_is_held() {
    let mut plan = harmless();
    plan.transitions[0].action = add(&mut plan, &[0x0fff, 0x1fff, 0x1fff, 0x3000]);
    let mut image = started(&plan);
    assert_eq!(attempt(&plan, &mut image, 0), Answer::Committed(0));
    assert_eq!(value(&image, 0), i32::MAX);
}

#[test]
fn operators_have_the_deeper_value_on_the_left() {
    let of = |left, right| {
        use Operator::*;
        [Add, Subtract, Equal, AtLeast, And, Or, Not, Implies]
            .map(|operator| apply(operator, left, right))
    };
    assert_eq!(of(5, 3), [8, 2, 0, 1, 1, 1, 0, 1]);
    assert_eq!(of(-1, 0), [-1, -1, 0, 0, 0, 1, 1, 0]);
    assert_eq!(of(0, 2), [2, -2, 0, 0, 0, 1, 0, 1]);
    assert_eq!(of(i32::MIN, i32::MIN), [i32::MIN, 0, 1, 1, 1, 1, 0, 1]);
    assert_eq!(of(i32::MIN, 1), [i32::MIN + 1, i32::MIN, 0, 0, 1, 1, 0, 1]);
}

#[test]
fn the_left_operand_of_a_span_is_the_one_pushed_first() {
    let mut plan = harmless();
    plan.transitions[0].action = add(&mut plan, &[0x0005, 0x0003, 0x6001, 0x3000]);
    let mut image = started(&plan);
    assert_eq!(attempt(&plan, &mut image, 0), Answer::Committed(0));
    assert_eq!(value(&image, 0), 2);
}
