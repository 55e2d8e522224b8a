//! The book against the calls on an image.

use reference::answer::{Answer, Refusal};
use reference::book::{Book, Call};
use reference::calls;
use reference::plan::Plan;

use crate::sample::*;

fn book() -> Book {
    Book::new(Plan::read(&sample().bytes()).unwrap())
}

#[test]
fn book_begins_with_the_starting_image() {
    assert_eq!(book().image(), started(&sample()));
}

#[test]
fn book_follows_the_image_through_a_sequence() {
    let plan = sample();
    let (mut book, mut image) = (book(), started(&plan));
    for number in [0, 0, 2, 9, 1, 1, 0, 2, 0, u32::MAX, 1] {
        let expected = attempt(&plan, &mut image, number);
        assert_eq!(book.call(Call::Try(number)), (expected, 0));
        assert_eq!(book.image(), image);
        assert_eq!(book.call(Call::Offered), offered(&plan, &image));
    }
    assert_eq!(book.call(Call::Settle).0, settle(&plan, &mut image));
    assert_eq!(book.image(), image);
}

#[test]
fn book_crosses_off_a_bad_move_until_one_is_done() {
    let mut book = book();
    assert_eq!(book.call(Call::Try(0)), (Answer::Cancelled(0), 0));
    assert_eq!(book.call(Call::Offered), (Answer::Accepted, 2));
    assert_eq!(
        book.call(Call::Try(0)),
        (Answer::Refused(Refusal::Marked), 0)
    );
    assert_eq!(book.call(Call::Settle), (Answer::Committed(1), 0));
    assert_eq!(book.call(Call::Try(0)), (Answer::Committed(0), 0));
}

#[test]
fn book_follows_the_image_through_lists() {
    let plan = sample();
    let (mut book, mut image) = (book(), started(&plan));
    let lists = [&[0][..], &[1, 0, 2], &[2], &[], &[1; 9], &[1, 3], &[1, 0]];
    for moves in lists {
        for bytes in [log_of(moves), [log_of(moves), vec![0]].concat()] {
            let expected = calls::list(&plan.bytes(), &mut image, &bytes);
            assert_eq!(book.call(Call::List(&bytes)), (expected, 0));
            assert_eq!(book.image(), image);
        }
        let expected = attempt(&plan, &mut image, 0);
        assert_eq!(book.call(Call::Try(0)), (expected, 0));
    }
    assert_eq!(book.call(Call::Settle).0, settle(&plan, &mut image));
    assert_eq!(book.image(), image);
}

#[test]
fn a_committed_list_is_added_whole_and_empties_the_set() {
    let mut book = book();
    book.call(Call::Try(0));
    let moves = log_of(&[1, 0, 2, 1]);
    assert_eq!(book.call(Call::List(&moves)), (Answer::Committed(4), 0));
    assert_eq!(marks(&book.image()), 0);
    let mut other = Book::new(Plan::read(&sample().bytes()).unwrap());
    for number in [1, 0, 2, 1] {
        other.call(Call::Try(number));
    }
    assert_eq!(book.image(), other.image());
}

#[test]
fn any_other_list_changes_nothing_in_the_book() {
    let mut book = book();
    book.call(Call::Try(0));
    let before = book.image();
    let refused = Answer::Refused(Refusal::BadList);
    for (bytes, answer) in [
        (log_of(&[1, 1]), Answer::Cancelled(1)),
        (log_of(&[0]), Answer::Cancelled(0)),
        (vec![1], refused),
        (vec![], refused),
        (log_of(&[1; 9]), refused),
    ] {
        assert_eq!(book.call(Call::List(&bytes)), (answer, 0));
        assert_eq!(book.image(), before);
    }
    assert_eq!(marks(&before), 1);
}

#[test]
fn book_is_empty_after_start() {
    let mut book = book();
    book.call(Call::Settle);
    book.call(Call::Settle);
    assert_eq!(book.call(Call::Start), (Answer::Accepted, 0));
    assert_eq!(book.image(), started(&sample()));
}

/// The book of a lane whose move 1 lies below 0, and that is bad after any move.
fn all_bad() -> Book {
    let mut draft = sample();
    draft.interactions[1].rank = 1;
    draft.propositions[0] = add(&mut draft, &[0x50ff, 0x6006]);
    Book::new(Plan::read(&draft.bytes()).unwrap())
}

#[test]
fn a_penned_book_crosses_off_every_enabled_move() {
    let mut book = all_bad();
    assert_eq!(book.call(Call::Settle), (Answer::Penned, 0));
    assert_eq!(marks(&book.image()), 0b11);
}

#[test]
fn a_move_crossed_off_holds_none_down() {
    let mut book = all_bad();
    let outranked = Answer::Refused(Refusal::Outranked);
    assert_eq!(book.call(Call::Offered), (Answer::Accepted, 0b01));
    assert_eq!(book.call(Call::Try(1)), (outranked, 0));
    assert_eq!(book.call(Call::Try(0)), (Answer::Cancelled(0), 0));
    assert_eq!(book.call(Call::Offered), (Answer::Accepted, 0b10));
    assert_eq!(book.call(Call::Try(1)), (Answer::Cancelled(1), 0));
}

#[test]
fn a_book_settles_on_a_move_below_a_bad_one() {
    let mut draft = sample();
    draft.interactions[1].rank = 1;
    for crossed_off in [false, true] {
        let mut book = Book::new(Plan::read(&draft.bytes()).unwrap());
        if crossed_off {
            assert_eq!(book.call(Call::Try(0)), (Answer::Cancelled(0), 0));
        }
        assert_eq!(book.call(Call::Settle), (Answer::Committed(1), 0));
        assert_eq!(marks(&book.image()), 0);
    }
}
