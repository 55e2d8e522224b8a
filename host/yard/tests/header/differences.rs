//! What differs between the header and what it has to say.

use std::fmt::Display;

use crate::Named;

/// Each refusal of the header, with words that its rule alone has; 18 means something else for an entry of a log.
const REFUSALS: [(&str, &str); 24] = [
    ("YARD_BAD_HEAD", "head_ok"),
    ("YARD_BAD_COUNT", "counts_ok"),
    ("YARD_BAD_LAYOUT", "layout_ok"),
    ("YARD_BAD_COMPONENT", "component_ok"),
    ("YARD_BAD_VARIABLE", "variable_ok"),
    ("YARD_BAD_TRANSITION", "transition_ok"),
    ("YARD_BAD_INTERACTION", "interaction_ok"),
    ("YARD_BAD_RANK", "rank_ok"),
    ("YARD_BAD_ORACLE", "table_ok p 0"),
    ("YARD_BAD_ADDED", "table_ok p (suc k)"),
    ("YARD_BAD_CODE", "code_ok"),
    ("YARD_BAD_LENGTH", "image_length"),
    ("YARD_BAD_ROSTER", "roster_ok"),
    ("YARD_OTHER_PLAN", "head_matches"),
    ("YARD_BAD_STATE", "configuration_ok"),
    ("YARD_FALSE_MARK", "marks_ok"),
    ("YARD_BAD_LIST", "max_moves"),
    ("YARD_ODD_LOG", "length l % 2"),
    ("YARD_BAD_START", "good p (initial p)"),
    ("YARD_NO_SUCH_MOVE", "ltb i (interactions p)"),
    ("YARD_NOT_ENABLED", "enabled p"),
    ("YARD_OUTRANKED", "outranked p"),
    ("YARD_OUTRANKED", "leads_above p"),
    ("YARD_MARKED", "bit (marks_of b) i"),
];

/// The header's directives: the macros take apart what `PACKED` and, of a turn, `PACKED_TURN` put together.
const DIRECTIVES: [&str; 13] = [
    "#ifndef YARD_H",
    "#define YARD_H",
    "#include <stddef.h>",
    "#include <stdint.h>",
    "#ifdef __cplusplus",
    "#endif",
    "#define YARD_LANE(answer) ((uint32_t)(answer) >> 24)",
    "#define YARD_KIND(answer) (((uint32_t)(answer) >> 16) & 0xffu)",
    "#define YARD_NUMBER(answer) ((uint32_t)(answer) & 0xffffu)",
    "#define YARD_OF_LANE(answer) ((((uint32_t)(answer) & 0xffffffu) ^ YARD_OTHER_PLAN) < YARD_REFUSED * 65536u + 3u)",
    "#ifdef __cplusplus",
    "#endif",
    "#endif",
];
const PACKED: &str = "\npacked a = a.kind * 65536 + a.number\n";
const PACKED_TURN: &str = "\npacked_turn (served i a) = i * 16777216 + packed a\n";

/// Names with what they stand for, held against what is wanted: all of them, each once, and no others.
pub fn named<T: Display + PartialEq>(
    header: &[(String, T)],
    wanted: &[(String, T)],
) -> Vec<String> {
    let mut found = Vec::new();
    for (name, want) in wanted {
        let mut there = header.iter().filter(|(other, _)| other == name);
        match (there.next(), there.next()) {
            (None, _) => found.push(format!("{name} is not in the header, wanted: {want}")),
            (Some((_, has)), None) if has == want => {}
            (Some((_, has)), None) => {
                found.push(format!("{name}: the header has {has}, wanted: {want}"));
            }
            _ => found.push(format!("{name} is twice in the header")),
        }
    }
    for (name, has) in header {
        if !wanted.iter().any(|(other, _)| other == name) {
            found.push(format!("{name}: the header alone has {has}"));
        }
    }
    found
}

/// Structures, held against the source's records: the same fields in the same order.
pub fn structures(
    header: &[(String, Named<String>)],
    wanted: &[(String, Named<String>)],
) -> Vec<String> {
    if !header.iter().map(|s| &s.0).eq(wanted.iter().map(|s| &s.0)) {
        return vec!["the header's structures are other ones".into()];
    }
    let mut found = Vec::new();
    for ((name, has), (_, want)) in header.iter().zip(wanted) {
        let fields = named(has, want);
        if fields.is_empty() && has != want {
            found.push(format!("the fields of {name} stand in another order"));
        }
        found.extend(fields);
    }
    found
}

type Rules = [(u32, String)];

/// The refusals against the rules: each rule has one name and its own number, in the order of the rules. The other lists, of a log's rules, of a
/// list's and of a turn's, may name the same ones again, each in an order of its own.
pub fn refusals(
    header: &[(String, u32)],
    rules: &Rules,
    others: &[Vec<(u32, String)>],
) -> Vec<String> {
    let mut found = Vec::new();
    let mut wanted = Vec::new();
    for (number, text) in rules.iter().chain(others.iter().flatten()) {
        match REFUSALS.iter().find(|(_, words)| text.contains(words)) {
            Some((name, _)) if wanted.contains(&(name.to_string(), *number)) => {}
            Some((name, _)) => wanted.push((name.to_string(), *number)),
            None => found.push(format!("rule {number} has no name: {text}")),
        }
    }
    let twice = |number: &u32| rules.iter().filter(|(other, _)| other == number).count() > 1;
    let numbers = rules.iter().map(|(number, _)| number);
    found.extend(
        numbers
            .filter(|number| twice(number))
            .map(|number| format!("{number} is the number of two rules")),
    );
    let lists = [rules].into_iter().chain(others.iter().map(Vec::as_slice));
    for pair in lists.flat_map(|list| turned(header, list)) {
        if !found.contains(&pair) {
            found.push(pair);
        }
    }
    found.extend(named(header, &wanted));
    found
}

/// The neighbours among the header's refusals of a list that stand the other way round there.
fn turned(header: &[(String, u32)], list: &Rules) -> Vec<String> {
    let place = |number: u32| list.iter().position(|(other, _)| *other == number);
    let listed = header
        .iter()
        .filter_map(|(name, number)| Some((name, place(*number)?)));
    let listed = Vec::from_iter(listed);
    let turned = listed.windows(2).filter(|pair| pair[0].1 >= pair[1].1);
    turned
        .map(|pair| format!("{} stands before {}", pair[0].0, pair[1].0))
        .collect()
}

/// The texts are fixed, so that none changes without the others.
pub fn packing(header: &str, calls: &str, turn: &str) -> Vec<String> {
    let mut found = Vec::new();
    let directives = header
        .lines()
        .filter(|line| line.trim_start().starts_with('#'));
    if !directives.clone().eq(DIRECTIVES) {
        let other = directives.clone().find(|line| !DIRECTIVES.contains(line));
        found.push(format!("the header's directives are other ones: {other:?}"));
    }
    for (text, packed) in [(calls, PACKED), (turn, PACKED_TURN)] {
        if !text.contains(packed) {
            found.push(format!("not found: {}", packed.trim()));
        }
    }
    found
}
