//! The functions that the library's source exports and the record that they lend, as C has to declare them.

use crate::c::signature;
use crate::tokens::{tokens, without_lines};
use crate::Named;

pub fn exported(source: &str) -> Result<Named<String>, String> {
    let all = tokens(&without_lines(source, "//"));
    let mut found = Vec::new();
    for at in 0..all.len() {
        if let [word, c, keyword, name, open, rest @ ..] = &all[at..] {
            if [word, c, keyword, open] == ["extern", "\"C\"", "fn", "("] {
                let read = function(rest).ok_or(format!("{name} of the source cannot be read"))?;
                found.push((name.clone(), read));
            }
        }
    }
    Ok(found)
}

/// A record of the source under the header's name: its fields in order, with their types.
pub fn record(source: &str, name: &str, in_c: &str) -> Result<Named<Named<String>>, String> {
    let all = tokens(&without_lines(source, "//"));
    let head = tokens(&format!(
        "#[repr(C)] #[derive(Clone, Copy)] pub struct {name} {{"
    ));
    let at = all.windows(head.len()).position(|words| words == head);
    let fields = at.and_then(|at| fields(&all[at + head.len()..]));
    let fields = fields.ok_or(format!("{name} of the source cannot be read"))?;
    Ok(vec![(in_c.to_string(), fields)])
}

/// Reads from behind the name and the brace; a comma ends each field.
fn fields(words: &[String]) -> Option<Named<String>> {
    let close = words.iter().position(|word| word == "}")?;
    let field = |words: &[String]| match words {
        [open, name, colon, kind, comma] if [open, colon, comma] == ["pub", ":", ","] => {
            Some((name.clone(), number_in_c(kind)?.to_string()))
        }
        _ => None,
    };
    words[..close].chunks(5).map(field).collect()
}

/// Reads from behind the name and the parenthesis.
fn function(words: &[String]) -> Option<String> {
    let close = words.iter().position(|word| word == ")")?;
    let mut parameters = Vec::new();
    for parameter in words[..close].split(|word| word == ",") {
        let [name, colon, kind @ ..] = parameter else {
            return None;
        };
        (colon == ":").then_some(())?;
        parameters.extend(parameter_in_c(name, &kind.concat())?);
    }
    match &words[close + 1..] {
        [dash, head, kind, ..] if [dash, head] == ["-", ">"] => {
            Some(signature(number_in_c(kind)?, &parameters))
        }
        _ => None,
    }
}

/// Lent bytes are a pointer and a length to C, lent records a pointer and how many there are.
fn parameter_in_c(name: &str, kind: &str) -> Option<Vec<String>> {
    let length = format!("size_t {name}_len");
    Some(match kind {
        "&[u8]" => vec![format!("const uint8_t * {name}"), length],
        "&mut[u8]" => vec![format!("uint8_t * {name}"), length],
        "&mut[Lane]" => vec![
            format!("struct yard_lane * {name}"),
            "size_t lanes".to_string(),
        ],
        number => vec![format!("{} {name}", number_in_c(number)?)],
    })
}

fn number_in_c(kind: &str) -> Option<&'static str> {
    match kind {
        "u8" => Some("uint8_t"),
        "u16" => Some("uint16_t"),
        "u32" => Some("uint32_t"),
        "u64" => Some("uint64_t"),
        _ => None,
    }
}
