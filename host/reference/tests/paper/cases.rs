//! The fourteen proved cases.

use reference::answer::{Answer, Refusal};
use reference::calls;
use reference::code::{apply, Operator};

use crate::sample::*;

#[test]
fn sample_is_234_bytes() {
    assert_eq!(sample().bytes().len(), 234);
}

#[test]
fn sample_is_the_one_of_the_repository() {
    let stored = include_bytes!("../../../../plans/sample.plan");
    assert_eq!(sample().bytes(), stored);
}

#[test]
fn case_01_start_is_accepted() {
    let image = started(&sample());
    assert_eq!(image[..16], *b"YARD\x01\x01\x01\x03\0\0\0\0\x07\0\0\0");
    assert_eq!(image[16..40], [0; 24]);
    assert_eq!(image[40..56], [255; 16]);
    assert_eq!(image[56..], [0; 256]);
}

#[test]
fn case_02_offered_at_start_is_3() {
    let plan = sample();
    assert_eq!(offered(&plan, &started(&plan)), (Answer::Accepted, 3));
}

#[test]
fn case_03_trying_0_is_cancelled() {
    let plan = sample();
    let mut image = started(&plan);
    let before = image;
    assert_eq!(attempt(&plan, &mut image, 0), Answer::Cancelled(0));
    assert_eq!(marks(&image), 1);
    assert_eq!(image[..16], before[..16]);
    assert_eq!(image[24..], before[24..]);
}

#[test]
fn case_04_trying_0_again_is_marked() {
    let plan = sample();
    let mut image = started(&plan);
    attempt(&plan, &mut image, 0);
    assert_eq!(
        attempt(&plan, &mut image, 0),
        Answer::Refused(Refusal::Marked)
    );
}

#[test]
fn case_05_trying_2_at_start_is_not_enabled() {
    let plan = sample();
    assert_eq!(
        attempt(&plan, &mut started(&plan), 2),
        Answer::Refused(Refusal::NotEnabled)
    );
}

#[test]
fn case_06_trying_3_is_no_such_move() {
    let plan = sample();
    assert_eq!(
        attempt(&plan, &mut started(&plan), 3),
        Answer::Refused(Refusal::NoSuchMove)
    );
}

#[test]
fn case_07_settling_at_start_commits_1() {
    let plan = sample();
    let mut image = started(&plan);
    assert_eq!(settle(&plan, &mut image), Answer::Committed(1));
    assert_eq!(
        (image[24], value(&image, 0), image[40], marks(&image)),
        (1, 9000, 0, 0)
    );
}

#[test]
fn case_08_settling_after_a_cancelled_move_gives_the_image_of_case_7() {
    let plan = sample();
    let (mut straight, mut detour) = (started(&plan), started(&plan));
    settle(&plan, &mut straight);
    attempt(&plan, &mut detour, 0);
    assert_eq!(settle(&plan, &mut detour), Answer::Committed(1));
    assert_eq!(straight, detour);
}

#[test]
fn case_09_with_1_below_0_settling_gives_the_image_of_case_7() {
    let (mut plan, mut straight) = (sample(), started(&sample()));
    settle(&plan, &mut straight);
    plan.interactions[1].rank = 1;
    let mut image = started(&plan);
    assert_eq!(offered(&plan, &image), (Answer::Accepted, 1));
    assert_eq!(
        attempt(&plan, &mut image, 1),
        Answer::Refused(Refusal::Outranked)
    );
    assert_eq!(settle(&plan, &mut image), Answer::Committed(1));
    assert_eq!(image, straight);
}

#[test]
fn case_10_starting_weighed_is_bad() {
    let mut plan = sample();
    plan.components[0].start = 2;
    let mut image = [0xa5; 312];
    assert_eq!(
        calls::start(&plan.bytes(), &mut image),
        Answer::Refused(Refusal::BadStart)
    );
    assert_eq!(image, [0xa5; 312]);
}

#[test]
fn case_11_without_transitions_settling_is_stalled() {
    let mut plan = sample();
    plan.transitions.clear();
    let mut image = started(&plan);
    let before = image;
    assert_eq!(settle(&plan, &mut image), Answer::Stalled);
    assert_eq!(image, before);
}

#[test]
fn case_12_a_mark_on_a_safe_move_is_false() {
    let mut image = started(&sample());
    image[16] = 2;
    assert_image_refused(&image, Refusal::FalseMark);
}

#[test]
fn case_13_add_is_held() {
    assert_eq!(apply(Operator::Add, 2147483647, 1), 2147483647);
}

#[test]
fn case_14_a_guard_of_add_alone_breaks_the_code_rules() {
    assert_plan_refused(&with_guard(&[0x6000]).bytes(), Refusal::Code);
}

#[test]
fn six_settlings_of_the_sample_are_those_of_yard_run() {
    let plan = sample();
    let mut image = started(&plan);
    let moves: Vec<Answer> = (0..6).map(|_| settle(&plan, &mut image)).collect();
    assert_eq!(moves, [1, 0, 2, 1, 0, 2].map(Answer::Committed));
}
