//! 3: an offset, the stated length or the file's own length is not as the counts give.

use super::{added, Fault};
use crate::layout::{field, Counts, Layout, COUNTS, HEAD_BYTES, LENGTH, OFFSETS, SECTIONS};
use crate::mend::Mend;
use crate::text::count;

pub fn faults(bytes: &[u8]) -> Vec<Fault> {
    let Some(stated) = Counts::stated(bytes) else {
        return Vec::new();
    };
    let layout = Layout::new(stated);
    match (stated.in_range(), Counts::laid_out(bytes)) {
        (true, Some(laid_out)) if !layout.fits(bytes) => {
            wrong_counts(&stated, &laid_out, &first_field(bytes, &layout))
        }
        (true, _) => wrong_fields(bytes, &layout),
        (false, Some(laid_out)) => wrong_counts(&stated, &laid_out, ""),
        (false, None) => without_counts(bytes),
    }
}

fn fault(place: usize, text: String, cure: String, mend: Option<Mend>) -> Fault {
    Fault {
        number: 3,
        what: "header".to_string(),
        place,
        text,
        cure,
        mend,
    }
}

/// The fields of the layout: their places, their names and what the counts give.
fn fields(layout: &Layout) -> impl Iterator<Item = (usize, String, usize)> + '_ {
    let offsets = SECTIONS.iter().zip(layout.starts).enumerate();
    let offsets =
        offsets.map(|(n, (name, start))| (OFFSETS + 2 * n, format!("offset of the {name}"), start));
    std::iter::once((LENGTH, "stated length".to_string(), layout.end())).chain(offsets)
}

fn wrong_fields(bytes: &[u8], layout: &Layout) -> Vec<Fault> {
    let mut faults = Vec::new();
    for (at, name, given) in fields(layout) {
        let Some(found) = field(bytes, at).filter(|&found| found != given) else {
            continue;
        };
        let text = format!("{name} {found}, but the counts give {given}");
        let mend = Some(Mend::field(at, given));
        faults.push(fault(at, text, given.to_string(), mend));
    }
    faults.extend(wrong_length(bytes, layout.end()));
    faults
}

/// The file's own length; a file shorter than a header is told of under 1.
fn wrong_length(bytes: &[u8], given: usize) -> Option<Fault> {
    let length = bytes.len();
    if length == given || length < HEAD_BYTES {
        return None;
    }
    let (place, text, cure) = if length < given {
        let text = format!("it ends after {length} bytes, but the counts give {given}");
        let missing = count(given - length, "byte");
        let cure = format!("the whole file: it lacks {missing} at the end");
        (length, text, cure)
    } else {
        let text = format!("it has {length} bytes, but the counts give {given}");
        (given, text, format!("cut it off after {given} bytes"))
    };
    Some(Fault {
        what: "file".to_string(),
        ..fault(
            place,
            text,
            cure,
            (length > given).then_some(Mend::Cut(given)),
        )
    })
}

/// The first field that is not as the counts give.
fn first_field(bytes: &[u8], layout: &Layout) -> String {
    let wrong = fields(layout).find(|&(at, _, given)| field(bytes, at) != Some(given));
    wrong.map_or(String::new(), |(at, name, given)| {
        let found = field(bytes, at).unwrap_or(0);
        format!(": byte {at} has the {name} {found}, the counts give {given}")
    })
}

/// The offsets and lengths agree with each other and not with the counts: each count that differs is the fault. Those outside their ranges
/// are told of under 2.
fn wrong_counts(stated: &Counts, laid_out: &Counts, example: &str) -> Vec<Fault> {
    let counts = COUNTS.iter().zip(stated.fields).zip(laid_out.fields);
    let wrong = counts.filter(|((rule, stated), room)| stated != room && rule.allows(*stated));
    let added = added::wrong_layout(&stated.added, &laid_out.added, example);
    wrong
        .map(|((rule, stated), room)| {
            let name = rule.name;
            fault(
                rule.at,
                format!(
                    "{name} {stated}, but all offsets and lengths are those of {room}{example}"
                ),
                format!("{name} {room}, or offsets and lengths for {stated}"),
                Some(Mend::field(rule.at, room)),
            )
        })
        .chain(added)
        .collect()
}

/// What is wrong whatever the counts should be.
fn without_counts(bytes: &[u8]) -> Vec<Fault> {
    let mut faults = Vec::new();
    let length = bytes.len();
    if let Some(stated) = field(bytes, LENGTH).filter(|&l| l != length && length >= HEAD_BYTES) {
        let text = format!(
            "stated length {stated}, but the file has {}",
            count(length, "byte")
        );
        let cure = "the length of the whole file".to_string();
        faults.push(fault(LENGTH, text, cure, None));
    }
    if let Some(found) = field(bytes, OFFSETS).filter(|&found| found != HEAD_BYTES) {
        let text = format!(
            "offset of the {} {found}, but the first section begins at {HEAD_BYTES}",
            SECTIONS[0]
        );
        let mend = Some(Mend::field(OFFSETS, HEAD_BYTES));
        faults.push(fault(OFFSETS, text, HEAD_BYTES.to_string(), mend));
    }
    faults
}
