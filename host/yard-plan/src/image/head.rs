//! 11: the image is not 312 bytes. 12: bytes 0 to 7 or 12 to 15 do not match form 1 and the plan.

use super::places::{Image, COUNTS, FORM, LAST_COPY, LETTERS, NUMBER};
use crate::faults::Fault;
use crate::layout;
use crate::mend::Mend;
use crate::show;
use crate::tables::Tables;
use crate::text::{count, list};

const OTHER_PLAN: &str = "the plan that the lane was started with, or a lane started anew";

pub fn length(length: usize) -> Option<Fault> {
    let right = yard::IMAGE_BYTES;
    (length != right).then(|| Fault {
        number: 11,
        what: "image".to_string(),
        place: length.min(right),
        text: format!("it has {}, but an image has {right}", count(length, "byte")),
        cure: "hand in the whole image and nothing else".to_string(),
        mend: (length > right).then_some(Mend::Cut(right)),
    })
}

fn fault(place: usize, text: String, cure: &str, mend: Option<Mend>) -> Fault {
    Fault {
        number: 12,
        what: "image".to_string(),
        place,
        text,
        cure: cure.to_string(),
        mend,
    }
}

/// The plan's counts that an image repeats, with their names.
fn counts(tables: &Tables) -> [(&'static str, usize); 3] {
    [
        ("components", tables.components.len()),
        ("variables", tables.variables.len()),
        ("interactions", tables.interactions.len()),
    ]
}

/// Whether the image repeats the plan's number and counts.
pub fn same_plan(plan: &[u8], tables: &Tables, image: &Image) -> bool {
    let counts = counts(tables).into_iter().enumerate();
    let mut counts = counts.map(|(n, (_, count))| usize::from(image.0[COUNTS + n]) == count);
    counts.all(|same| same) && layout::number(plan) == Some(image.number())
}

/// What the image says of the plan that it belongs to, where that is all by which it is not of this one.
pub fn own(plan: &[u8], tables: &Tables, image: &Image) -> String {
    let damaged = !image.0.starts_with(LETTERS) || image.0[FORM] != 1;
    if damaged || same_plan(plan, tables, image) {
        return String::new();
    }
    let counts = counts(tables).into_iter().zip(&image.0[COUNTS..]);
    let counts = counts.map(|((name, _), found)| format!("{name} {found}"));
    let lines = vec![format!("plan number {}", image.number()), list(counts)];
    show::section("the image is of a plan with", lines)
}

pub fn faults(plan: &[u8], tables: &Tables, image: &Image) -> Vec<Fault> {
    let mut faults = Vec::new();
    if !image.0.starts_with(LETTERS) {
        let found = image.0[..LETTERS.len()].escape_ascii();
        let text = format!("letters \"{found}\", but an image begins with YARD");
        let mend = Mend::Write(LETTERS.iter().copied().enumerate().collect());
        faults.push(fault(0, text, LAST_COPY, Some(mend)));
    }
    if image.0[FORM] != 1 {
        let text = format!("form {}, but there is form 1 alone", image.0[FORM]);
        faults.push(fault(FORM, text, LAST_COPY, Some(Mend::byte(FORM, 1))));
    }
    for (n, (name, count)) in counts(tables).into_iter().enumerate() {
        let found = image.0[COUNTS + n];
        if usize::from(found) != count {
            let text = format!("{name} {found}, but the plan has {count}");
            faults.push(fault(COUNTS + n, text, OTHER_PLAN, None));
        }
    }
    let number = layout::number(plan).unwrap_or(0);
    if image.number() != number {
        let text = format!("plan number {}, but the plan's is {number}", image.number());
        faults.push(fault(NUMBER, text, OTHER_PLAN, None));
    }
    faults
}
