//! The limits that 01 has run and not proved, and the ends of the other ranges.

use reference::answer::{Answer, Refusal};
use reference::draft::{Component, Draft, Interaction, Span, Variable};

use crate::sample::*;

/// The sample with this many components.
fn components(count: usize) -> Draft {
    let mut plan = sample();
    let spare = Component {
        locations: 1,
        start: 0,
        ports: 1,
        zero: 0,
    };
    plan.components.resize(count, spare);
    plan
}

/// The sample with this many interactions.
fn interactions(count: usize) -> Draft {
    let mut plan = sample();
    plan.interactions.resize(count, interaction(2));
    plan
}

/// A guard of so many words that ends true.
fn long_guard(words: usize) -> Draft {
    let mut guard = vec![0x0001; words];
    guard[1..].fill(0x1001);
    with_guard(&guard)
}

/// A guard that pushes so many ones and adds them up.
fn deep_guard(depth: usize) -> Draft {
    let mut guard = vec![0x0001; depth];
    guard.extend(vec![0x6000; depth - 1]);
    with_guard(&guard)
}

fn refused(refusal: Refusal) -> Answer {
    Answer::Refused(refusal)
}

#[test]
fn components_16_and_17() {
    let most = components(16);
    assert_eq!(check(&most), Answer::Accepted);
    assert_eq!(settle(&most, &mut started(&most)), Answer::Committed(1));
    assert_eq!(check(&components(17)), refused(Refusal::Count));
}

#[test]
fn interactions_64_and_65() {
    let most = interactions(64);
    assert_eq!(check(&most), Answer::Accepted);
    assert_eq!(
        attempt(&most, &mut started(&most), 63),
        refused(Refusal::NotEnabled)
    );
    assert_eq!(
        attempt(&most, &mut started(&most), 64),
        refused(Refusal::NoSuchMove)
    );
    assert_eq!(check(&interactions(65)), refused(Refusal::Count));
}

#[test]
fn interaction_63_has_the_highest_bit_on_offer_and_as_mark() {
    let mut plan = interactions(64);
    plan.interactions[63] = interaction(1);
    let mut image = started(&plan);
    assert_eq!(offered(&plan, &image), (Answer::Accepted, 1 << 63 | 3));
    assert_eq!(attempt(&plan, &mut image, 63), Answer::Cancelled(63));
    assert_eq!(marks(&image), 1 << 63);
}

#[test]
fn span_of_64_and_65_words() {
    let longest = long_guard(64);
    assert_eq!(check(&longest), Answer::Accepted);
    assert_eq!(offered(&longest, &started(&longest)), (Answer::Accepted, 3));
    assert_eq!(check(&long_guard(65)), refused(Refusal::Code));
}

#[test]
fn depth_8_and_9() {
    let deepest = deep_guard(8);
    assert_eq!(check(&deepest), Answer::Accepted);
    assert_eq!(offered(&deepest, &started(&deepest)), (Answer::Accepted, 3));
    assert_eq!(check(&deep_guard(9)), refused(Refusal::Code));
}

#[test]
fn images_of_311_and_313_bytes() {
    let image = started(&sample());
    assert_image_refused(&image[..311], Refusal::ImageLength);
    assert_image_refused(&[&image[..], &[0]].concat(), Refusal::ImageLength);
    assert_image_refused(&[], Refusal::ImageLength);
}

#[test]
fn plan_of_47_bytes() {
    assert_plan_refused(&sample().bytes()[..47], Refusal::Head);
}

#[test]
fn variables_64_and_65() {
    let mut plan = sample();
    let spare = Variable {
        owner: 0,
        zeros: [0; 3],
        value: -1,
    };
    plan.variables.resize(64, spare);
    assert_eq!(value(&started(&plan), 63), -1);
    plan.variables.push(spare);
    assert_eq!(check(&plan), refused(Refusal::Count));
}

#[test]
fn transitions_256_and_257() {
    let mut plan = sample();
    plan.transitions.resize(256, transition(0, 0, 0, EMPTY));
    assert_eq!(check(&plan), Answer::Accepted);
    plan.transitions.push(transition(0, 0, 0, EMPTY));
    assert_eq!(check(&plan), refused(Refusal::Count));
}

#[test]
fn propositions_4_and_5() {
    let with = |count: usize| {
        let mut plan = sample();
        plan.propositions.resize(count, plan.propositions[0]);
        plan.oracle = vec![state(2, &vec![0; 1 << count])];
        plan
    };
    assert_eq!(check(&with(4)), Answer::Accepted);
    assert_eq!(check(&with(5)), refused(Refusal::Count));
}

#[test]
fn oracle_states_32_and_33() {
    let mut plan = sample();
    plan.oracle.resize(32, state(3, &[31, 31]));
    assert_eq!(check(&plan), Answer::Accepted);
    plan.oracle.push(plan.oracle[0].clone());
    assert_eq!(check(&plan), refused(Refusal::Count));
}

#[test]
fn code_words_4096_and_4097() {
    let mut plan = sample();
    plan.code.resize(4096, 0xffff);
    plan.transitions[0].guard = Span {
        start: 4096,
        length: 0,
    };
    assert_eq!(check(&plan), Answer::Accepted);
    plan.code.push(0);
    assert_eq!(check(&plan), refused(Refusal::Count));
}

/// A plan with every count at its end, which is as long as a plan can be.
#[test]
fn longest_plan_is_accepted() {
    let mut plan = components(16);
    plan.interactions.resize(64, interaction(2));
    plan.variables.resize(64, plan.variables[0]);
    plan.transitions.resize(256, transition(2, 2, 0, EMPTY));
    plan.propositions.resize(4, plan.propositions[0]);
    plan.oracle = vec![state(2, &Vec::from_iter(16..32)); 32];
    plan.code.resize(4096, 0);
    assert_eq!(plan.bytes().len(), 14_496);
    assert_eq!(check(&plan), Answer::Accepted);
}

/// Sixty-four interactions in one chain, 0 the lowest; the others end weighed without a tare, which is bad.
fn chain(lowest: Interaction) -> Draft {
    let mut plan = sample();
    plan.interactions = vec![interaction(1); 64];
    plan.interactions[0] = lowest;
    for (i, interaction) in plan.interactions.iter_mut().enumerate() {
        interaction.rank = u64::MAX.checked_shl(i as u32 + 1).unwrap_or(0);
    }
    plan
}

#[test]
fn the_lowest_of_64_in_a_chain_is_committed_where_the_others_are_bad() {
    let plan = chain(interaction(0));
    let mut image = started(&plan);
    assert_eq!(offered(&plan, &image), (Answer::Accepted, 1 << 63));
    for number in (1..64).rev() {
        assert_eq!(
            settle(&plan, &mut image.clone()),
            Answer::Committed(0),
            "with marks from {number} up"
        );
        let cancelled = Answer::Cancelled(number as usize);
        assert_eq!(attempt(&plan, &mut image, number), cancelled);
        assert_eq!(
            offered(&plan, &image),
            (Answer::Accepted, 1 << (number - 1))
        );
    }
    assert_eq!(attempt(&plan, &mut image, 0), Answer::Committed(0));
}

#[test]
fn all_64_of_a_chain_are_marked_where_all_are_bad() {
    let plan = chain(interaction(1));
    let mut image = started(&plan);
    assert_eq!(settle(&plan, &mut image), Answer::Penned);
    assert_eq!(marks(&image), u64::MAX);
    assert_eq!(settle(&plan, &mut image), Answer::Penned);
}

#[test]
fn no_components_no_interactions_and_no_oracle_states() {
    let without: [fn(&mut Draft); 3] = [
        |p| p.components.clear(),
        |p| p.interactions.clear(),
        |p| p.oracle.clear(),
    ];
    for clear in without {
        let mut plan = sample();
        clear(&mut plan);
        assert_eq!(check(&plan), refused(Refusal::Count));
    }
}

#[test]
fn no_variables_no_propositions_and_no_code() {
    let mut plan = sample();
    plan.variables.clear();
    plan.propositions.clear();
    plan.code.clear();
    plan.transitions.iter_mut().for_each(|t| t.action = EMPTY);
    plan.oracle = vec![state(3, &[0])];
    assert_eq!(settle(&plan, &mut started(&plan)), Answer::Committed(0));
}

#[test]
fn sixteen_components_take_part_at_once() {
    let mut plan = components(16);
    for component in 1..16 {
        let mut own = transition(0, 0, 0, EMPTY);
        own.component = component;
        plan.transitions.push(own);
    }
    plan.interactions[0] = Interaction {
        ports: [0; 16],
        ..plan.interactions[0]
    };
    let mut image = started(&plan);
    assert_eq!(attempt(&plan, &mut image, 0), Answer::Committed(0));
    assert_eq!(image[40..56], [0; 16]);
}
