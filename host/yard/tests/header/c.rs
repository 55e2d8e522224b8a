//! What the header declares: enumerations, structures and prototypes.

use crate::tokens::{tokens, without_blocks, without_lines};
use crate::Named;

#[derive(Default)]
pub struct Header {
    /// The functions with their signatures.
    pub functions: Named<String>,
    /// The enumerations by name; one without a name has "".
    pub enums: Named<Named<u32>>,
    /// The structures by name: their fields in order, with their types.
    pub structs: Named<Named<String>>,
}

impl Header {
    /// Directives are passed over; anything else that is no enumeration, structure or prototype cannot be read.
    pub fn read(text: &str) -> Result<Header, String> {
        let all = tokens(&without_lines(&without_blocks(text, "/*", "*/")?, "#"));
        let mut rest = match &all[..] {
            [word, c, open, inner @ .., close]
                if [word, c, open, close] == ["extern", "\"C\"", "{", "}"] =>
            {
                inner
            }
            _ => return Err("the header is not within extern \"C\"".into()),
        };
        let mut header = Header::default();
        while !rest.is_empty() {
            let end = declared(rest).ok_or("the header's last declaration has no end")?;
            header.declaration(&rest[..end])?;
            rest = &rest[end + 1..];
        }
        Ok(header)
    }

    fn declaration(&mut self, words: &[String]) -> Result<(), String> {
        let unread = || format!("cannot be read in the header: {}", words.join(" "));
        match words.first().map_or("", String::as_str) {
            "enum" => self
                .enums
                .push(enumeration(&words[1..]).ok_or_else(unread)?),
            "struct" => self
                .structs
                .push(structure(&words[1..]).ok_or_else(unread)?),
            _ => self.functions.push(prototype(words).ok_or_else(unread)?),
        }
        Ok(())
    }

    pub fn list(&self, name: &str) -> &[(String, u32)] {
        let found = self.enums.iter().find(|list| list.0 == name);
        found.map_or(&[], |list| &list.1)
    }
}

/// Where the first declaration ends: at a semicolon outside braces.
fn declared(words: &[String]) -> Option<usize> {
    let mut depth = 0;
    words.iter().position(|word| {
        depth += i32::from(word == "{") - i32::from(word == "}");
        word == ";" && depth == 0
    })
}

fn enumeration(words: &[String]) -> Option<(String, Named<u32>)> {
    let (name, inner) = match words {
        [open, inner @ .., close] if [open, close] == ["{", "}"] => ("", inner),
        [name, open, inner @ .., close] if [open, close] == ["{", "}"] => (name.as_str(), inner),
        _ => return None,
    };
    let item = |words: &[String]| match words {
        [name, is, number] if is == "=" => Some((name.clone(), number.parse().ok()?)),
        _ => None,
    };
    let items: Option<Named<u32>> = inner.split(|word| word == ",").map(item).collect();
    Some((name.to_string(), items?))
}

fn structure(words: &[String]) -> Option<(String, Named<String>)> {
    let [name, open, inner @ .., last, close] = words else {
        return None;
    };
    let field = |words: &[String]| match words {
        [kind, name] => Some((name.clone(), kind.clone())),
        _ => None,
    };
    let fields: Option<Named<String>> = inner.split(|word| word == ";").map(field).collect();
    let known = [open, last, close] == ["{", ";", "}"];
    known.then_some((name.clone(), fields?))
}

fn prototype(words: &[String]) -> Option<(String, String)> {
    let open = words.iter().position(|word| word == "(")?;
    let [result @ .., name] = &words[..open] else {
        return None;
    };
    let [inner @ .., close] = &words[open + 1..] else {
        return None;
    };
    let parameters: Vec<String> = inner.split(|w| w == ",").map(|p| p.join(" ")).collect();
    let known = close == ")" && !result.is_empty();
    known.then(|| (name.clone(), signature(&result.join(" "), &parameters)))
}

pub fn signature(result: &str, parameters: &[String]) -> String {
    format!("{result} ({})", parameters.join(", "))
}
