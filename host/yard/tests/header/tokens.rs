//! Words, strings and single signs of a text.

/// The text without comments that run from a sign to the end of the line.
pub fn without_lines(text: &str, comment: &str) -> String {
    let kept = |line: &'_ str| line.split(comment).next().unwrap_or("").to_string();
    text.lines().map(|line| kept(line) + "\n").collect()
}

/// The text without what stands between two marks.
pub fn without_blocks(text: &str, open: &str, close: &str) -> Result<String, String> {
    let mut parts = text.split(open);
    let mut kept = parts.next().unwrap_or("").to_string();
    for part in parts {
        let (_, behind) = part
            .split_once(close)
            .ok_or(format!("{open} is not closed"))?;
        kept += behind;
    }
    Ok(kept)
}

pub fn tokens(text: &str) -> Vec<String> {
    let mut found = Vec::new();
    let mut rest = text.trim_start();
    while let Some(first) = rest.chars().next() {
        let len = match first {
            '"' => rest[1..].find('"').map_or(rest.len(), |end| end + 2),
            c if in_word(c) => rest.find(|c| !in_word(c)).unwrap_or(rest.len()),
            c => c.len_utf8(),
        };
        found.push(rest[..len].to_string());
        rest = rest[len..].trim_start();
    }
    found
}

fn in_word(c: char) -> bool {
    c.is_alphanumeric() || c == '_'
}
