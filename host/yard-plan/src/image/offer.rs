//! The moves on offer; where there are none, why: what a settling answers on a copy. And the moves that others hold down.

use super::marks;
use super::moves;
use super::places::Image;
use crate::show;
use crate::tables::Tables;
use crate::text::list;

/// The lines for an accepted image.
pub fn lines(plan: &[u8], tables: &Tables, image: &[u8]) -> Vec<String> {
    match yard::offered_bits(plan, image) {
        0 => vec![none(yard::settle(plan, &mut image.to_vec()))],
        offered => moves(tables, offered),
    }
}

pub fn not_told() -> Vec<String> {
    vec!["not told, since the image is refused".to_string()]
}

/// A section for the unmarked moves of an accepted image that others hold down, where there are any.
pub fn held_down(plan: &[u8], tables: &Tables, image: &Image) -> String {
    let held = marks::held_down(plan, tables, image).into_iter();
    let line = |(i, above)| {
        let held = moves(tables, 1_u64 << i).concat();
        format!(
            "{held}; held down by {}, enabled and not marked",
            list(above)
        )
    };
    let lines: Vec<String> = held.map(line).collect();
    match lines.is_empty() {
        true => String::new(),
        false => show::section("held down", lines),
    }
}

/// Why nothing is on offer, by the answer of a settling. It is stalled, or penned where every enabled move is marked; the others would
/// contradict what was offered, and are said as they are.
fn none(settled: yard::Answer) -> String {
    let number = settled.number;
    match settled.kind {
        yard::STALLED => "none: nothing is enabled (a settling would answer stalled)".to_string(),
        yard::PENNED => {
            "none: no enabled move ends well, and each is marked (a settling would answer penned)"
                .to_string()
        }
        yard::COMMITTED => format!("none, although a settling would commit {number}"),
        kind => format!("none, although a settling would answer kind {kind}, number {number}"),
    }
}

#[cfg(test)]
mod tests {
    use super::*;

    #[test]
    fn answers_that_contradict_are_said_as_they_are() {
        for (kind, number, line) in [
            (
                yard::COMMITTED,
                3,
                "none, although a settling would commit 3",
            ),
            (
                yard::REFUSED,
                14,
                "none, although a settling would answer kind 5, number 14",
            ),
        ] {
            assert_eq!(none(yard::Answer { kind, number }), line);
        }
    }
}
