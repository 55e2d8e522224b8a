//! An engine to which verdict 1 is good, the C engine with that fault planted, is found out.
#![allow(unsafe_code)]

use crate::checked::Comparer;
use crate::engines::{Engine, BASELINE};
use crate::sequences::Session;

yard::engine!(
    "lenient_check",
    "lenient_start",
    "lenient_offered",
    "lenient_offered_bits",
    "lenient_try",
    "lenient_settle",
    "lenient_list",
    "lenient_turn",
    "lenient_log",
    "lenient_log_index"
);

const NAME: &str = "lenient";

#[test]
fn an_engine_to_which_verdict_1_is_good_is_found_out_in_each_call() {
    let right = Engine {
        name: NAME,
        ..BASELINE
    };
    for engine in [
        Engine { start, ..right },
        Engine { offered, ..right },
        Engine {
            bits: offered_bits,
            ..right
        },
        Engine { attempt, ..right },
        Engine { settle, ..right },
        Engine { list, ..right },
        Engine { turn, ..right },
        Engine { log, ..right },
        Engine { log_index, ..right },
    ] {
        let mut session = Session::new(2, Comparer::with(2, engine));
        let found = session.compare(20_000).err();
        assert_eq!(found.map(|difference| difference.said.0), Some(NAME));
    }
    // A check does not ask what is good.
    let mut session = Session::new(2, Comparer::with(2, Engine { check, ..right }));
    assert!(session.compare(2_000).is_ok());
}
