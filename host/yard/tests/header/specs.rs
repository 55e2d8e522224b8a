//! What the definitions of crates/semantics/specs say in numbers.

use crate::tokens::without_lines;
use crate::Named;

/// An accepted answer with bits: the header has one name for both.
const WITH_BITS: &str = "offers";

/// The kinds of answers, under the header's names.
pub fn kinds(calls: &str) -> Named<u32> {
    let kind = |line: &str| {
        let (left, right) = line.split_once("= record { kind = ")?;
        let name = left.split(' ').next().filter(|&name| name != WITH_BITS)?;
        Some((
            format!("YARD_{}", name.to_uppercase()),
            leading_number(right)?,
        ))
    };
    without_lines(calls, "--")
        .lines()
        .filter_map(kind)
        .collect()
}

/// The kind of a turn that is no lane's, under the header's name.
pub fn idle(turn: &str) -> Result<Named<u32>, String> {
    let kind = |line: &str| {
        let right = line.strip_prefix("packed_turn idle = ")?;
        right.strip_suffix(" * 65536")?.parse().ok()
    };
    let found = turn.lines().find_map(kind);
    let found = found.ok_or("the kind of idle cannot be read in the definitions")?;
    Ok(vec![("YARD_IDLE".into(), found)])
}

/// Each rule of a text: its number and what it wants.
pub fn rules(text: &str) -> Vec<(u32, String)> {
    let rule = |part: &str| Some((leading_number(part)?, in_parentheses(part)));
    let text = without_lines(text, "--");
    text.split(" rule ").skip(1).filter_map(rule).collect()
}

/// The rules of each definition of a text that has some.
pub fn rule_lists(text: &str) -> Vec<Vec<(u32, String)>> {
    let lists = text.split("\n\n").map(rules);
    lists.filter(|list| !list.is_empty()).collect()
}

/// What the first parentheses hold.
fn in_parentheses(text: &str) -> String {
    let mut depth = 0;
    let inner = text.chars().skip_while(|&c| c != '(').take_while(|&c| {
        depth += i32::from(c == '(') - i32::from(c == ')');
        depth > 0
    });
    inner.skip(1).collect()
}

fn leading_number(text: &str) -> Option<u32> {
    let end = text.find(|c: char| !c.is_ascii_digit());
    text[..end.unwrap_or(text.len())].parse().ok()
}

/// The length of an image, the most moves of a list and the most lanes of a roster, under the header's names.
pub fn limits(image: &str, load: &str, roster: &str) -> Result<Named<u32>, String> {
    Ok(vec![
        ("YARD_IMAGE_BYTES".into(), defined(image, "image_length")?),
        ("YARD_LIST_MOVES".into(), defined(load, "max_moves")?),
        ("YARD_ROSTER_LANES".into(), defined(roster, "max_lanes")?),
    ])
}

/// The places of an image, under the header's names.
pub fn places(image: &str) -> Result<Named<u32>, String> {
    Ok([
        ("COMPONENTS", in_head(image, "components p")?),
        ("VARIABLES", in_head(image, "variables p")?),
        ("INTERACTIONS", in_head(image, "interactions p")?),
        ("ORACLE", defined(image, "oracles_place")?),
        ("PLAN_NUMBER", in_head(image, "number_byte p 0")?),
        ("MARKS", defined(image, "marks_place")?),
        ("LOCATIONS", defined(image, "locations_place")?),
        ("LAST_PORTS", defined(image, "last_ports_place")?),
        ("VALUES", defined(image, "value_place")?),
    ]
    .map(|(name, place)| (format!("YARD_IMAGE_{name}"), place))
    .into())
}

/// The number with which what a name stands for begins.
fn defined(text: &str, name: &str) -> Result<u32, String> {
    let number = |line: &str| {
        let (left, right) = line.split_once(" = ")?;
        left.split(' ').next().filter(|&first| first == name)?;
        leading_number(right)
    };
    let found = text.lines().find_map(number);
    found.ok_or(format!("{name} cannot be read in the definitions"))
}

/// The place of an entry in the list of bytes that an image begins with.
fn in_head(image: &str, entry: &str) -> Result<u32, String> {
    let behind = image.split("\nhead p qs =").nth(1).unwrap_or("");
    let list = behind.split("[]").next().unwrap_or("");
    let found = list.split('∷').position(|byte| byte.trim() == entry);
    found
        .map(|at| at as u32)
        .ok_or(format!("the head of the image has no {entry}"))
}
