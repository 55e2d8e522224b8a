//! An engine whose sums wrap, the C engine with that fault planted, is found out.
#![allow(unsafe_code)]

use crate::checked::Comparer;
use crate::engines::Engine;
use crate::sequences::Session;

yard::engine!(
    "wrapping_check",
    "wrapping_start",
    "wrapping_offered",
    "wrapping_offered_bits",
    "wrapping_try",
    "wrapping_settle",
    "wrapping_list",
    "wrapping_turn",
    "wrapping_log",
    "wrapping_log_index"
);

const WRAPPING: Engine = Engine {
    name: "wrapping",
    check,
    start,
    offered,
    bits: offered_bits,
    attempt,
    settle,
    list,
    turn,
    log,
    log_index,
};

#[test]
fn an_engine_whose_sums_wrap_is_found_out() {
    let mut session = Session::new(2, Comparer::with(2, WRAPPING));
    let found = session.compare(5_000).err();
    assert_eq!(found.map(|difference| difference.said.0), Some("wrapping"));
}
