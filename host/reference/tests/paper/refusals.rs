//! Each refusal by its causes; 15 to 19 also stand among the cases, and `added` has those of added oracles.

use reference::answer::{Answer, Refusal};
use reference::calls;
use reference::draft::{Component, Draft, Interaction, Span, Variable};

use crate::sample::*;

/// Asserts the refusal of the sample after a change to its records.
fn assert_draft(refusal: Refusal, change: impl Fn(&mut Draft)) {
    let mut draft = sample();
    change(&mut draft);
    assert_plan_refused(&draft.bytes(), refusal);
}

/// Asserts the refusal of the sample after one byte is set.
fn assert_byte(refusal: Refusal, at: usize, byte: u8) {
    let mut plan = sample().bytes();
    plan[at] = byte;
    assert_plan_refused(&plan, refusal);
}

/// Asserts the refusal of the sample's starting image after one byte is set.
fn assert_image_byte(refusal: Refusal, at: usize, byte: u8) {
    let mut image = started(&sample());
    image[at] = byte;
    assert_image_refused(&image, refusal);
}

/// Asserts 10 for words as guard of transition 0.
fn assert_guard(words: &[u16]) {
    assert_plan_refused(&with_guard(words).bytes(), Refusal::Code);
}

/// The answer for words as the action of transition 0.
fn action(words: &[u16]) -> Answer {
    let (mut draft, span) = with_words(words);
    draft.transitions[0].action = span;
    check(&draft)
}

/// The answer for words as the sample's proposition.
fn proposition(words: &[u16]) -> Answer {
    let (mut draft, span) = with_words(words);
    draft.propositions[0] = span;
    check(&draft)
}

/// The sample with a second component of one location, one port and one variable.
fn two_components() -> Draft {
    let mut draft = sample();
    draft.components.push(Component {
        locations: 1,
        start: 0,
        ports: 1,
        zero: 0,
    });
    draft.variables.push(Variable {
        owner: 1,
        zeros: [0; 3],
        value: 0,
    });
    draft
}

#[test]
fn r01_empty_plan() {
    assert_plan_refused(&[], Refusal::Head);
}

#[test]
fn r01_wrong_letters() {
    for at in 0..4 {
        assert_byte(Refusal::Head, at, b'x');
    }
}

#[test]
fn r01_bytes_46_and_47_not_zero() {
    for at in [46, 47] {
        assert_byte(Refusal::Head, at, 1);
    }
}

#[test]
fn r02_a_count_out_of_range() {
    for (at, byte) in [
        (10, 0),
        (10, 17),
        (12, 65),
        (15, 2),
        (16, 0),
        (16, 65),
        (18, 5),
        (20, 0),
        (20, 33),
        (25, 17),
    ] {
        assert_byte(Refusal::Count, at, byte);
    }
}

#[test]
fn r02_first_oracle_state_not_below_s() {
    assert_draft(Refusal::Count, |plan| plan.first = 2);
}

#[test]
fn r03_an_offset_not_where_the_last_section_ended() {
    for at in (26..42).step_by(2) {
        assert_byte(Refusal::Layout, at, 1);
    }
}

#[test]
fn r03_stated_length_wrong() {
    assert_byte(Refusal::Layout, 8, 235);
}

#[test]
fn r03_slice_shorter_or_longer_than_stated() {
    let plan = sample().bytes();
    assert_plan_refused(&plan[..233], Refusal::Layout);
    assert_plan_refused(&plan[..48], Refusal::Layout);
    assert_plan_refused(&[&plan[..], &[0]].concat(), Refusal::Layout);
}

#[test]
fn r04_locations_0_and_17() {
    assert_draft(Refusal::Component, |plan| plan.components[0].locations = 0);
    assert_draft(Refusal::Component, |plan| plan.components[0].locations = 17);
}

#[test]
fn r04_starting_location_out_of_range() {
    assert_draft(Refusal::Component, |plan| plan.components[0].start = 3);
}

#[test]
fn r04_ports_0_and_17() {
    assert_draft(Refusal::Component, |plan| plan.components[0].ports = 0);
    assert_draft(Refusal::Component, |plan| plan.components[0].ports = 17);
}

#[test]
fn r04_last_byte_not_zero() {
    assert_draft(Refusal::Component, |plan| plan.components[0].zero = 1);
}

#[test]
fn r05_owner_is_no_component() {
    assert_draft(Refusal::Variable, |plan| plan.variables[0].owner = 1);
}

#[test]
fn r05_zeros_not_zero() {
    for n in 0..3 {
        assert_draft(Refusal::Variable, |plan| plan.variables[0].zeros[n] = 1);
    }
}

#[test]
fn r06_a_transition_names_what_the_plan_lacks() {
    assert_draft(Refusal::Transition, |plan| {
        plan.transitions[3].component = 1
    });
    assert_draft(Refusal::Transition, |plan| plan.transitions[3].source = 3);
    assert_draft(Refusal::Transition, |plan| plan.transitions[3].port = 3);
    assert_draft(Refusal::Transition, |plan| {
        plan.transitions[3].destination = 3
    });
}

#[test]
fn r07_port_the_component_lacks() {
    assert_draft(Refusal::Interaction, |plan| {
        plan.interactions[2].ports[0] = 3
    });
    assert_draft(Refusal::Interaction, |plan| {
        plan.interactions[2].ports[0] = 254
    });
}

#[test]
fn r07_port_of_a_component_from_c_up() {
    assert_draft(Refusal::Interaction, |plan| {
        plan.interactions[2].ports[1] = 0
    });
    assert_draft(Refusal::Interaction, |plan| {
        plan.interactions[2].ports[15] = 0
    });
}

#[test]
fn r07_nobody_takes_part() {
    assert_draft(Refusal::Interaction, |plan| {
        plan.interactions[2].ports = [255; 16]
    });
}

#[test]
fn r08_rank_bit_at_or_above_i() {
    assert_draft(Refusal::Rank, |plan| plan.interactions[0].rank = 1 << 3);
    assert_draft(Refusal::Rank, |plan| plan.interactions[2].rank = 1 << 63);
}

#[test]
fn r08_below_itself() {
    assert_draft(Refusal::Rank, |plan| plan.interactions[1].rank = 1 << 1);
}

#[test]
fn r08_not_transitive() {
    assert_draft(Refusal::Rank, |plan| {
        plan.interactions[0].rank = 1 << 1;
        plan.interactions[1].rank = 1 << 2;
    });
}

#[test]
fn r08_a_cycle() {
    assert_draft(Refusal::Rank, |plan| {
        plan.interactions[0].rank = 1 << 1;
        plan.interactions[1].rank = 1;
    });
}

#[test]
fn a_chain_of_ranks_is_lawful() {
    let mut plan = sample();
    plan.interactions[0].rank = 0b110;
    plan.interactions[1].rank = 0b100;
    assert_eq!(check(&plan), Answer::Accepted);
}

#[test]
fn r09_verdict_past_3() {
    for verdict in [4, 255] {
        assert_draft(Refusal::Oracle, |plan| plan.oracle[0].verdict = verdict);
    }
}

#[test]
fn r09_next_state_not_below_s() {
    assert_draft(Refusal::Oracle, |plan| plan.oracle[0].next[0] = 2);
}

#[test]
fn r09_bad_state_with_a_good_follower() {
    assert_draft(Refusal::Oracle, |plan| plan.oracle[1].next[1] = 0);
}

#[test]
fn r09_true_for_good_with_another_follower() {
    assert_draft(Refusal::Oracle, |plan| plan.oracle[0].verdict = 3);
    assert_draft(Refusal::Oracle, |plan| {
        plan.oracle.push(state(3, &[2, 0]));
    });
}

#[test]
fn r10_span_past_the_code() {
    assert_draft(Refusal::Code, |plan| plan.propositions[0].length = 6);
    assert_draft(Refusal::Code, |plan| plan.transitions[0].guard.start = 11);
    assert_draft(Refusal::Code, |plan| {
        plan.interactions[0].transfer = Span {
            start: 65535,
            length: 65535,
        }
    });
}

#[test]
fn r10_unknown_kind_or_operator() {
    for word in [0x7000, 0xf000, 0x6008, 0x6fff] {
        assert_guard(&[0x0001, 0x0001, word]);
    }
}

#[test]
fn r10_a_word_on_an_empty_stack() {
    assert_guard(&[0x1000]);
    assert_guard(&[0x6006]);
    assert_guard(&[0x0001, 0x6000]);
    assert_eq!(action(&[0x3000]), Answer::Refused(Refusal::Code));
}

#[test]
fn r10_guard_or_proposition_not_ending_at_depth_1() {
    assert_guard(&[0x0001, 0x0001]);
    assert_eq!(
        proposition(&[0x0001, 0x0001]),
        Answer::Refused(Refusal::Code)
    );
}

#[test]
fn r10_action_not_ending_at_depth_0() {
    assert_eq!(action(&[0x0001]), Answer::Refused(Refusal::Code));
}

#[test]
fn r10_guard_or_proposition_that_stores() {
    assert_guard(&[0x0001, 0x0001, 0x3000]);
    assert_eq!(
        proposition(&[0x0001, 0x0001, 0x3000]),
        Answer::Refused(Refusal::Code)
    );
}

#[test]
fn r10_empty_proposition() {
    assert_draft(Refusal::Code, |plan| plan.propositions[0] = EMPTY);
}

#[test]
fn r10_location_or_port_test_outside_a_proposition() {
    assert_guard(&[0x4000]);
    assert_guard(&[0x5000]);
    assert_eq!(action(&[0x4000, 0x3000]), Answer::Refused(Refusal::Code));
}

#[test]
fn r10_naming_what_the_plan_lacks() {
    assert_guard(&[0x2001]);
    assert_eq!(action(&[0x0001, 0x3001]), Answer::Refused(Refusal::Code));
    for word in [0x4003, 0x40ff, 0x4100, 0x5003, 0x50fe, 0x5100, 0x51ff] {
        assert_eq!(proposition(&[word]), Answer::Refused(Refusal::Code));
    }
}

#[test]
fn no_last_port_yet_may_be_named() {
    assert_eq!(proposition(&[0x50ff]), Answer::Accepted);
}

#[test]
fn r10_variable_of_another_component() {
    let mut plan = two_components();
    plan.code.push(0x2001);
    let guard = Span {
        start: 10,
        length: 1,
    };
    plan.transitions[0].guard = guard;
    assert_plan_refused(&plan.bytes(), Refusal::Code);
    plan.transitions[0].guard = EMPTY;
    plan.interactions[0].guard = guard;
    assert_plan_refused(&plan.bytes(), Refusal::Code);
    plan.interactions[0].ports[1] = 0;
    assert_eq!(check(&plan), Answer::Accepted);
}

#[test]
fn words_outside_every_span_are_not_examined() {
    let (plan, _) = with_words(&[0xffff, 0x6000]);
    assert_eq!(check(&plan), Answer::Accepted);
}

#[test]
fn r11_start_with_an_image_of_another_length() {
    for length in [0, 311, 313] {
        let mut image = vec![7; length];
        let answer = calls::start(&sample().bytes(), &mut image);
        assert_eq!(answer, Answer::Refused(Refusal::ImageLength));
        assert_eq!(image, vec![7; length]);
    }
}

#[test]
fn r12_head_of_another_form_or_plan() {
    for at in (0..8).chain(12..16) {
        assert_image_byte(Refusal::OtherPlan, at, 9);
    }
}

#[test]
fn r13_oracle_state_bad_or_not_below_s() {
    assert_image_byte(Refusal::State, 8, 1);
    assert_image_byte(Refusal::State, 8, 2);
}

#[test]
fn r13_location_or_last_port_out_of_range() {
    assert_image_byte(Refusal::State, 24, 3);
    assert_image_byte(Refusal::State, 40, 3);
    assert_image_byte(Refusal::State, 40, 254);
}

#[test]
fn r13_unused_entry_filled() {
    for at in [9, 10, 11, 25, 39, 60, 311] {
        assert_image_byte(Refusal::State, at, 1);
    }
    assert_image_byte(Refusal::State, 41, 0);
    assert_image_byte(Refusal::State, 55, 254);
}

#[test]
fn r14_mark_at_or_above_i() {
    assert_image_byte(Refusal::FalseMark, 16, 8);
    assert_image_byte(Refusal::FalseMark, 23, 128);
}

#[test]
fn r14_mark_on_a_move_that_is_not_enabled() {
    assert_image_byte(Refusal::FalseMark, 16, 4);
}

#[test]
fn r14_mark_below_an_enabled_move_without_one() {
    let mut plan = sample();
    plan.interactions[0].rank = 1 << 1;
    let mut image = started(&plan);
    image[16] = 1;
    assert_eq!(
        settle(&plan, &mut image),
        Answer::Refused(Refusal::FalseMark)
    );
}

#[test]
fn a_mark_below_a_move_that_is_not_enabled_is_true() {
    let mut plan = sample();
    plan.interactions[0].rank = 1 << 2;
    let mut image = started(&plan);
    image[16] = 1;
    assert_eq!(offered(&plan, &image), (Answer::Accepted, 0b10));
}

#[test]
fn r15_first_oracle_state_bad() {
    let mut plan = sample();
    plan.first = 1;
    let answer = calls::start(&plan.bytes(), &mut [0; 312]);
    assert_eq!(answer, Answer::Refused(Refusal::BadStart));
}

#[test]
fn r16_the_largest_number() {
    let plan = sample();
    assert_eq!(
        attempt(&plan, &mut started(&plan), u32::MAX),
        Answer::Refused(Refusal::NoSuchMove)
    );
}

#[test]
fn r17_interaction_guard_false() {
    let (mut plan, span) = with_words(&[0x0000]);
    plan.interactions[1] = Interaction {
        guard: span,
        ..plan.interactions[1]
    };
    assert_eq!(
        attempt(&plan, &mut started(&plan), 1),
        Answer::Refused(Refusal::NotEnabled)
    );
}

#[test]
fn r18_until_the_move_above_is_marked() {
    let mut plan = sample();
    plan.interactions[1].rank = 1;
    let mut image = started(&plan);
    assert_eq!(
        attempt(&plan, &mut image, 1),
        Answer::Refused(Refusal::Outranked)
    );
    assert_eq!(attempt(&plan, &mut image, 0), Answer::Cancelled(0));
    assert_eq!(offered(&plan, &image), (Answer::Accepted, 0b10));
    assert_eq!(attempt(&plan, &mut image, 1), Answer::Committed(1));
}

#[test]
fn r19_a_penned_lane_has_its_moves_marked() {
    let mut plan = sample();
    plan.interactions[1].rank = 1;
    plan.propositions[0] = add(&mut plan, &[0x50ff, 0x6006]);
    let mut image = started(&plan);
    assert_eq!(settle(&plan, &mut image), Answer::Penned);
    for number in [0, 1] {
        assert_eq!(
            attempt(&plan, &mut image, number),
            Answer::Refused(Refusal::Marked)
        );
    }
}

#[test]
fn the_lowest_refusal_answers() {
    let mut plan = sample();
    plan.variables[0].owner = 9;
    plan.components[0].zero = 9;
    plan.oracle[0].verdict = 4;
    let answer = calls::start(&plan.bytes(), &mut []);
    assert_eq!(answer, Answer::Refused(Refusal::Component));
}
