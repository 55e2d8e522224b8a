//! Every byte of a plan and of an image changed alone: the analysis finds the library's number, and the mend of a single fault cures.

use std::fs;
use std::path::Path;

use yard_plan::faults::{self, Analysis};
use yard_plan::{image, report};

fn plan(name: &str) -> Vec<u8> {
    let folder = Path::new(env!("CARGO_MANIFEST_DIR")).join("../../plans");
    fs::read(folder.join(name)).expect(name)
}

/// How often the change was refused, had a single fault with a mend, and had that fault at the changed byte or field.
#[derive(Debug, Default, PartialEq, Eq)]
struct Tally {
    changes: usize,
    refused: usize,
    single: usize,
    there: usize,
}

impl Tally {
    /// Compares an analysis with the library's number, and mends a single fault; `number` is the library's for any bytes.
    fn add(
        &mut self,
        changed: &[u8],
        at: usize,
        analysis: &Analysis,
        number: impl Fn(&[u8]) -> u32,
    ) {
        let found = number(changed);
        assert_eq!(
            analysis.first_number(),
            found,
            "byte {at}: {:?}",
            analysis.faults
        );
        self.changes += 1;
        self.refused += usize::from(found != 0);
        let [fault] = &analysis.faults[..] else {
            return;
        };
        let Some(mend) = &fault.mend else { return };
        let mut mended = changed.to_vec();
        mend.apply(&mut mended);
        assert_eq!(number(&mended), 0, "byte {at}: {fault:?}");
        self.single += 1;
        self.there += usize::from(at.abs_diff(fault.place) < 4);
    }
}

fn number(plan: &[u8]) -> u32 {
    report::number(yard::check(plan))
}

/// The plan with each byte of its first ones changed.
fn change_plan(name: &str, length: usize, changes: impl Fn(u8) -> Vec<u8>) -> Tally {
    let mut tally = Tally::default();
    let mut plan = plan(name);
    for at in 0..length.min(plan.len()) {
        let kept = plan[at];
        for byte in changes(kept) {
            plan[at] = byte;
            tally.add(&plan, at, &faults::of_plan(&plan), number);
        }
        plan[at] = kept;
    }
    println!("{name}: {tally:?}");
    tally
}

#[test]
fn every_byte_of_the_sample_with_every_value() {
    let tally = change_plan("sample.plan", usize::MAX, |_| (0..=255).collect());
    assert_eq!(tally.changes, 234 * 256);
    assert!(tally.single > 40_000 && tally.there > tally.single * 9 / 10);
}

#[test]
fn every_byte_of_a_header_with_an_added_oracle() {
    let tally = change_plan("wet-bales.plan", 48, |_| (0..=255).collect());
    assert_eq!(tally.changes, 48 * 256);
    assert!(tally.single > 9_000 && tally.there > tally.single * 9 / 10);
}

#[test]
fn every_bit_of_larger_plans() {
    for name in [
        "tasks.plan",
        "philosophers-3.plan",
        "robots-2.plan",
        "wet-bales.plan",
        "split-skip.plan",
    ] {
        let bits = |byte| (0..8).map(|bit| byte ^ 1 << bit).collect();
        let tally = change_plan(name, usize::MAX, bits);
        assert!(tally.single > tally.changes / 4);
    }
}

/// A lane after some tries, and with each byte changed.
fn change_image(name: &str, tries: &[u32]) -> Tally {
    let plan = plan(name);
    let number = |image: &[u8]| report::number(yard::offered(&plan, image));
    let mut bytes = vec![0; yard::IMAGE_BYTES];
    yard::start(&plan, &mut bytes);
    for &tried in tries {
        yard::attempt(&plan, &mut bytes, tried);
    }
    let mut tally = Tally::default();
    for at in 0..bytes.len() {
        let kept = bytes[at];
        for byte in 0..=255 {
            bytes[at] = byte;
            tally.add(&bytes, at, &image::analyse(&plan, &bytes), number);
        }
        bytes[at] = kept;
    }
    println!("image of {name}: {tally:?}");
    tally
}

#[test]
fn every_byte_of_an_image_with_every_value() {
    // The last try is cancelled in each.
    for (name, tries) in [
        ("sample.plan", &[0][..]),
        ("wet-bales.plan", &[3, 1, 0]),
        ("split-skip.plan", &[2, 0]),
    ] {
        let tally = change_image(name, tries);
        assert_eq!(tally.changes, 312 * 256);
        assert!(tally.single > 70_000 && tally.there > tally.single * 9 / 10);
    }
}
