//! Small pieces of wording.

use std::fmt::Display;

/// "1 component", "3 components".
pub fn count(count: usize, name: &str) -> String {
    let plural = if count == 1 { "" } else { "s" };
    format!("{} {name}{plural}", thousands(count))
}

/// "no components", "1 component (0)", "3 components (0 to 2)".
pub fn counted(number: usize, name: &str) -> String {
    match number {
        0 => format!("no {name}s"),
        1 => format!("1 {name} (0)"),
        _ => format!("{} (0 to {})", count(number, name), number - 1),
    }
}

/// "0", "0 to 2": the numbers below a count that is not 0.
pub fn below(count: usize) -> String {
    match count {
        0 => "none".to_string(),
        1 => "0".to_string(),
        _ => format!("0 to {}", count - 1),
    }
}

/// "a port below 3", or "port 0" where there is no other.
pub fn one_below(name: &str, end: usize) -> String {
    let article = if name.starts_with('o') { "an" } else { "a" };
    match end {
        1 => format!("{name} 0"),
        _ => format!("{article} {name} below {end}"),
    }
}

/// The items with commas between, or "none".
pub fn list<T: Display>(items: impl IntoIterator<Item = T>) -> String {
    let items: Vec<String> = items.into_iter().map(|item| item.to_string()).collect();
    if items.is_empty() {
        "none".to_string()
    } else {
        items.join(", ")
    }
}

/// Digits in groups of three.
pub fn thousands(number: usize) -> String {
    let digits = number.to_string();
    let mut grouped = String::new();
    for (n, digit) in digits.chars().enumerate() {
        if n > 0 && (digits.len() - n).is_multiple_of(3) {
            grouped.push(',');
        }
        grouped.push(digit);
    }
    grouped
}

/// The bits that are set, lowest first.
pub fn bits(mask: u64) -> impl Iterator<Item = usize> {
    (0..64).filter(move |&n| mask >> n & 1 == 1)
}

/// A verdict with 01's words for it.
pub fn verdict(verdict: u8) -> String {
    format!("verdict {verdict}, {}", verdict_words(verdict))
}

pub fn verdict_words(verdict: u8) -> &'static str {
    match verdict {
        0 => "bad",
        1 => "currently false",
        2 => "currently true",
        3 => "true for good",
        _ => "no verdict",
    }
}

/// "oracle state 3", "state 3 of added oracle 1".
pub fn oracle_state(oracle: usize, state: impl Display) -> String {
    match oracle {
        0 => format!("oracle state {state}"),
        _ => format!("state {state} of added oracle {oracle}"),
    }
}

/// "the plan has 2 oracle states (0 to 1)", "added oracle 1 has 2 states (0 to 1)".
pub fn oracle_has(oracle: usize, states: usize) -> String {
    match oracle {
        0 => format!("the plan has {}", counted(states, "oracle state")),
        _ => format!("added oracle {oracle} has {}", counted(states, "state")),
    }
}

/// A last port; 255 is none yet.
pub fn last_port(port: u8) -> String {
    match port {
        255 => "none".to_string(),
        _ => port.to_string(),
    }
}

#[cfg(test)]
mod tests {
    use super::*;

    #[test]
    fn numbers_are_counted_and_grouped() {
        assert_eq!(counted(0, "port"), "no ports");
        assert_eq!(counted(1, "port"), "1 port (0)");
        assert_eq!(counted(3, "port"), "3 ports (0 to 2)");
        assert_eq!(thousands(999), "999");
        assert_eq!(thousands(16_128), "16,128");
        assert_eq!(thousands(1_048_577), "1,048,577");
    }

    #[test]
    fn lists_name_their_items_or_none() {
        assert_eq!(list(bits(0)), "none");
        assert_eq!(list(bits(1 << 63 | 5)), "0, 2, 63");
    }
}
