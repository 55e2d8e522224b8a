//! The files of plans/: as the builder makes them, lawful, startable and listed.

use planner::{lane::Lane, plans};
use std::{collections::BTreeSet, fs, path::PathBuf, process::Command};

fn folder() -> PathBuf {
    PathBuf::from(env!("CARGO_MANIFEST_DIR")).join("../../plans")
}

#[test]
fn files_are_what_the_program_writes() {
    let dir = PathBuf::from(env!("CARGO_TARGET_TMPDIR"));
    let status = Command::new(env!("CARGO_BIN_EXE_plans"))
        .arg(&dir)
        .status()
        .unwrap();
    assert!(status.success());
    for (name, plan) in plans::all() {
        let written = fs::read(dir.join(name)).expect(name);
        let file = fs::read(folder().join(name)).expect(name);
        assert!(
            written == plan.bytes(),
            "{name} is not written as it is built"
        );
        assert!(file == written, "{name} differs: run plans again");
    }
}

#[test]
fn the_folder_holds_these_plans_and_the_index_names_them() {
    let made: BTreeSet<String> = plans::all()
        .iter()
        .map(|(name, _)| name.to_string())
        .collect();
    let entries = fs::read_dir(folder()).unwrap();
    let mut found: BTreeSet<String> = entries
        .map(|e| e.unwrap().file_name().into_string().unwrap())
        .collect();
    assert!(found.remove("README.md"));
    assert_eq!(found, made);
    let index = fs::read_to_string(folder().join("README.md")).unwrap();
    let named = index.lines().filter(|line| line.starts_with("- `"));
    let named: BTreeSet<String> = named
        .filter_map(|line| line.split('`').nth(1))
        .map(String::from)
        .collect();
    assert_eq!(named, made);
}

#[test]
fn no_two_plans_share_a_number() {
    let numbers: BTreeSet<Vec<u8>> = plans::all()
        .iter()
        .map(|(_, plan)| plan.bytes()[4..8].to_vec())
        .collect();
    assert_eq!(numbers.len(), plans::all().len());
}

#[test]
fn every_plan_is_lawful_and_starts() {
    for (name, plan) in plans::all() {
        let bytes = plan.bytes();
        assert_eq!(yard::check(&bytes).kind, yard::ACCEPTED, "{name}");
        assert!(Lane::start(bytes).is_ok(), "{name}");
    }
}

#[test]
fn every_plan_goes_on_settling_or_is_penned() {
    for (name, plan) in plans::all() {
        let penned = ["chain-penned.plan", "chain-turned.plan"].contains(&name);
        let kind = if penned {
            yard::PENNED
        } else {
            yard::COMMITTED
        };
        let mut lane = Lane::start(plan.bytes()).unwrap();
        for move_number in 0..5000 {
            assert_eq!(lane.settle().kind, kind, "{name}, move {move_number}");
        }
    }
}
