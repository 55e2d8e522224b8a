//! 1: fewer than 48 bytes, wrong letters, or byte 46 or 47 not zero.

use super::Fault;
use crate::layout::{HEAD_BYTES, LETTERS, ZEROS};
use crate::mend::Mend;
use crate::text::{count, list};

pub fn faults(bytes: &[u8]) -> Vec<Fault> {
    let short = short(bytes).into_iter();
    short.chain(letters(bytes)).chain(zeros(bytes)).collect()
}

fn short(bytes: &[u8]) -> Option<Fault> {
    let length = bytes.len();
    (length < HEAD_BYTES).then(|| Fault {
        number: 1,
        what: "file".to_string(),
        place: length,
        text: match length {
            0 => format!("it is empty, but a plan has at least {HEAD_BYTES} bytes"),
            _ => format!(
                "it ends after {}, but a plan has at least {HEAD_BYTES}",
                count(length, "byte")
            ),
        },
        cure: "it is no plan, or was cut off: write it again".to_string(),
        mend: None,
    })
}

/// The letters as far as there are any.
fn letters(bytes: &[u8]) -> Option<Fault> {
    let found = &bytes[..bytes.len().min(LETTERS.len())];
    (!LETTERS.starts_with(found)).then(|| Fault {
        number: 1,
        what: "header".to_string(),
        place: 0,
        text: format!(
            "letters \"{}\", but a plan begins with PLAN",
            found.escape_ascii()
        ),
        cure: "the letters PLAN, if this is meant to be a plan".to_string(),
        mend: Some(Mend::Write(LETTERS.iter().copied().enumerate().collect())),
    })
}

fn zeros(bytes: &[u8]) -> Option<Fault> {
    let found = &bytes[ZEROS.start.min(bytes.len())..ZEROS.end.min(bytes.len())];
    let filled = found.iter().position(|&byte| byte != 0)?;
    let writes = ZEROS.take(found.len()).map(|at| (at, 0)).collect();
    Some(Fault {
        number: 1,
        what: "header".to_string(),
        place: ZEROS.start + filled,
        text: format!("bytes 46 and 47 are {}, but must be zero", list(found)),
        cure: "zeros".to_string(),
        mend: Some(Mend::Write(writes)),
    })
}
