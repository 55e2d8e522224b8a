//! A log of moves: whether it is a run from the starting state, and what is wrong with its first wrong entry.

use std::fmt;

use reference::answer::{Answer, Cause, Refusal};
use reference::log::{self, Wrong};
use reference::plan::Plan;

use crate::faults;
use crate::moves::{not_enabled, verdicts};
use crate::report::{self, ACCEPTED, DIFFERENT, REFUSED, WRONG};
use crate::start;
use crate::tables::Tables;
use crate::text::{count, list};

const ODD_LOG: u32 = 21;

/// What the two calls on a log say.
#[derive(Clone, Copy, Debug, PartialEq, Eq)]
struct Said {
    kind: u32,
    number: u32,
    index: u64,
}

impl Said {
    fn by_library(plan: &[u8], log: &[u8]) -> Said {
        let yard::Answer { kind, number } = yard::log(plan, log);
        let index = yard::log_index(plan, log);
        Said {
            kind,
            number,
            index,
        }
    }

    fn by_reference(found: &Result<Option<Wrong>, Refusal>) -> Said {
        let (answer, index) = match found {
            Ok(None) => (Answer::Accepted, 0),
            Ok(Some(wrong)) => (Answer::Wrong(wrong.cause), wrong.index),
            Err(refusal) => (Answer::Refused(*refusal), 0),
        };
        Said {
            kind: answer.kind(),
            number: answer.number(),
            index,
        }
    }
}

impl fmt::Display for Said {
    fn fmt(&self, f: &mut fmt::Formatter) -> fmt::Result {
        let Said {
            kind,
            number,
            index,
        } = *self;
        match (kind, number, index) {
            (yard::ACCEPTED, 0, 0) => write!(f, "accepted"),
            (yard::REFUSED, _, 0) => write!(f, "refused {number}"),
            (yard::WRONG, 0, _) => write!(f, "entry {index}: bad"),
            (yard::WRONG, ..) => write!(f, "entry {index}: {number}"),
            _ => write!(f, "kind {kind}, number {number}, index {index}"),
        }
    }
}

/// The library's answer on a log, with the reference's explanation.
pub fn check(plan: &[u8], log: &[u8]) -> (String, u8) {
    let said = Said::by_library(plan, log);
    if said.kind == yard::REFUSED && !matches!(said.number, ODD_LOG | start::BAD_START) {
        return report::explained(said.number, &faults::of_plan(plan));
    }
    let found = log::first_wrong(plan, log);
    let why = match &found {
        Ok(None) => String::new(),
        Ok(Some(wrong)) => format!(", {}", why_wrong(plan, wrong)),
        Err(_) => format!(": {}", why_refused(plan, log)),
    };
    explained(said, Said::by_reference(&found), &why)
}

/// The answer with what explains it, where the reference says the same.
fn explained(said: Said, found: Said, why: &str) -> (String, u8) {
    if said != found {
        let output = format!("{said}\nthe two differ: the library says {said}, the reference {found}; the library's answer counts\n");
        return (output, DIFFERENT);
    }
    let status = match said.kind {
        yard::ACCEPTED => ACCEPTED,
        yard::REFUSED => REFUSED,
        _ => WRONG,
    };
    (format!("{said}{why}\n"), status)
}

/// Why a log of a lawful plan is refused: 21, else 15.
fn why_refused(plan: &[u8], log: &[u8]) -> String {
    let bytes = log.len();
    match start::cause(plan) {
        Some((why, _)) if bytes.is_multiple_of(2) => why,
        _ => format!(
            "the log has {}, an odd number, and an entry has 2",
            count(bytes, "byte")
        ),
    }
}

fn why_wrong(plan: &[u8], wrong: &Wrong) -> String {
    let Wrong {
        entry, cause, lane, ..
    } = wrong;
    let (Ok(plan), Some(tables)) = (Plan::read(plan), Tables::read(plan)) else {
        return String::new();
    };
    match cause {
        Cause::NoSuchMove => {
            let interactions = count(plan.interactions.len(), "interaction");
            format!("the plan has {interactions} and no {entry}")
        }
        Cause::NotEnabled => {
            let why = not_enabled(&plan, &tables, lane, *entry);
            format!("interaction {entry} is not enabled: {why}")
        }
        Cause::Outranked => above(
            &Vec::from_iter(log::good_above(&plan, lane, *entry)),
            *entry,
        ),
        Cause::Bad => {
            let ends = lane
                .after(&plan, *entry)
                .map(|after| verdicts(&plan, &after));
            format!(
                "interaction {entry} does not end in a good state: {}",
                list(ends)
            )
        }
    }
}

/// "interaction 5 lies above 2, is enabled and ends good", and the same of more than one.
fn above(above: &[usize], entry: usize) -> String {
    match above {
        [one] => format!("interaction {one} lies above {entry}, is enabled and ends good"),
        _ => format!(
            "interactions {} lie above {entry}, are enabled and end good",
            list(above)
        ),
    }
}

#[cfg(test)]
mod tests {
    use super::*;

    fn said(kind: u32, number: u32, index: u64) -> Said {
        Said {
            kind,
            number,
            index,
        }
    }

    #[test]
    fn the_librarys_answer_comes_first_where_the_two_differ() {
        let wrong = said(yard::WRONG, 17, 3);
        for (library, reference, line) in [
            (wrong, said(yard::ACCEPTED, 0, 0), "entry 3: 17"),
            (wrong, said(yard::WRONG, 17, 4), "entry 3: 17"),
            (said(yard::WRONG, 0, 3), wrong, "entry 3: bad"),
            (said(yard::ACCEPTED, 0, 0), wrong, "accepted"),
            (said(yard::REFUSED, 21, 0), wrong, "refused 21"),
            (
                said(yard::ACCEPTED, 0, 9),
                wrong,
                "kind 0, number 0, index 9",
            ),
        ] {
            let (output, status) = explained(library, reference, ", a cause");
            let second = format!("the two differ: the library says {line}, the reference {reference}; the library's answer counts");
            assert_eq!(output.lines().collect::<Vec<_>>(), [line, &second]);
            assert_eq!(status, DIFFERENT);
        }
    }

    #[test]
    fn an_answer_on_which_both_agree_is_one_line_with_its_cause() {
        for (both, output, expected) in [
            (said(yard::ACCEPTED, 0, 0), "accepted\n", ACCEPTED),
            (said(yard::REFUSED, 15, 0), "refused 15, why\n", REFUSED),
            (said(yard::WRONG, 0, 2), "entry 2: bad, why\n", WRONG),
        ] {
            let why = if expected == ACCEPTED { "" } else { ", why" };
            assert_eq!(explained(both, both, why), (output.to_string(), expected));
        }
    }
}
