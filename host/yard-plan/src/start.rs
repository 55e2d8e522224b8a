//! Whether a lane of an accepted plan can be started: the library's answer, and the reference's reading of the starting state.

use std::fmt::Write;

use reference::code;
use reference::lane::{is_good, Lane};
use reference::plan::Plan;

use crate::report::{number, says, ACCEPTED, DIFFERENT};
use crate::text::{oracle_state, verdict_words};

pub const BAD_START: u32 = 15;

/// Nothing where the library starts a lane; else its refusal, the cause and the cure. The status is that of the plan.
pub fn told(plan: &[u8]) -> (String, u8) {
    let mut scratch = [0; yard::IMAGE_BYTES];
    explained(number(yard::start(plan, &mut scratch)), cause(plan))
}

/// The library's number and the reference's cause, which go together: 15 and a state that is not good, or neither.
fn explained(number: u32, cause: Option<(String, String)>) -> (String, u8) {
    let mut output = String::new();
    if number != 0 {
        let _ = write!(output, "but a start is refused {number}");
        let why = cause.as_ref().filter(|_| number == BAD_START);
        if let Some((why, cure)) = why {
            let _ = write!(output, ": {why}\n  cure: {cure}");
        }
        output.push('\n');
    }
    let expected = cause.map_or(0, |_| BAD_START);
    if number == expected {
        return (output, ACCEPTED);
    }
    let (library, reference) = (says(number), says(expected));
    let _ = writeln!(
        output,
        "the two differ on a start: the library {library}, the reference {reference}; the library's answer counts"
    );
    (output, DIFFERENT)
}

/// Why the starting state is not good and what would cure it; none where it is.
pub fn cause(plan: &[u8]) -> Option<(String, String)> {
    let plan = Plan::read(plan).ok()?;
    let lane = Lane::start(&plan);
    let wrong = (0..plan.oracles.len()).filter(|&n| !good(&plan, n, lane.oracles[n]));
    let wrong = Vec::from_iter(wrong);
    if wrong.is_empty() {
        return None;
    }
    let ways = wrong.iter().map(|&n| {
        let from = oracle_state(n, first(&plan, n));
        let to = lane.oracles[n];
        let verdict = verdict_words(plan.oracles[n][to].verdict);
        format!("from {from} to state {to}, which is {verdict}")
    });
    let (letter, ways) = (letter(&plan, &lane), Vec::from_iter(ways).join(", and "));
    let why = format!("the starting state's letter {letter} leads {ways}");
    let hopeless = wrong.iter().filter_map(|&n| hopeless(&plan, n));
    let cure = match Vec::from_iter(hopeless) {
        cures if cures.is_empty() => {
            "other starting locations or values, or another oracle".to_string()
        }
        cures => cures.join("; "),
    };
    Some((why, cure))
}

fn good(plan: &Plan, oracle: usize, state: usize) -> bool {
    is_good(plan.oracles[oracle][state].verdict)
}

/// The state in which an oracle begins.
fn first(plan: &Plan, oracle: usize) -> usize {
    match oracle {
        0 => plan.first,
        _ => 0,
    }
}

/// The cure where no letter leads an oracle to a good state.
fn hopeless(plan: &Plan, oracle: usize) -> Option<String> {
    let first = first(plan, oracle);
    let mut next = plan.oracles[oracle][first].next.iter();
    (!next.any(|&state| good(plan, oracle, state))).then(|| match oracle {
        0 => format!("another first oracle state, or another oracle: no letter leads from state {first} to a good one"),
        _ => format!("another table for added oracle {oracle}: no letter leads from its state {first} to a good one"),
    })
}

/// The sum of 2^k over the propositions k that hold.
fn letter(plan: &Plan, lane: &Lane) -> usize {
    let propositions = plan.propositions.iter().enumerate();
    propositions
        .map(|(k, &proposition)| usize::from(code::holds(plan, proposition, lane)) << k)
        .sum()
}

#[cfg(test)]
mod tests {
    use super::*;

    fn bad() -> Option<(String, String)> {
        Some(("why".to_string(), "cure".to_string()))
    }

    #[test]
    fn a_start_that_both_judge_alike() {
        assert_eq!(explained(0, None), (String::new(), ACCEPTED));
        let output = "but a start is refused 15: why\n  cure: cure\n".to_string();
        assert_eq!(explained(15, bad()), (output, ACCEPTED));
    }

    #[test]
    fn the_librarys_number_counts_where_the_two_differ() {
        for (number, cause, first, library) in [
            (0, bad(), "the two differ on a start: ", "accepts"),
            (15, None, "but a start is refused 15\n", "refuses with 15"),
            (11, bad(), "but a start is refused 11\n", "refuses with 11"),
        ] {
            let (output, status) = explained(number, cause);
            assert!(output.starts_with(first), "{output}");
            assert!(output.contains(&format!("the library {library}, the reference ")));
            assert_eq!(status, DIFFERENT);
        }
    }
}
