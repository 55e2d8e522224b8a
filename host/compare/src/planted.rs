//! Engines with a planted fault, each run in a process of its own: the run must stop and say where.
#![allow(unsafe_code)]

use std::process::Command;
use std::{env, ptr, slice};

use yard::Lane;

use crate::checked::Comparer;
use crate::engines::{Engine, LIBRARY};
use crate::fault;
use crate::sequences::Session;

/// The variable that tells a process which fault to plant.
const CHOSEN: &str = "PLANTED";

/// Reads a byte beside the bytes.
fn read(bytes: &[u8], at: isize) {
    unsafe { ptr::read_volatile(bytes.as_ptr().wrapping_offset(at)) };
}

fn bytes_of(roster: &[Lane]) -> &[u8] {
    unsafe { slice::from_raw_parts(roster.as_ptr().cast(), size_of_val(roster)) }
}

/// Writes a byte's own value over it, where there is one.
fn rewrite(bytes: &[u8], at: usize) {
    if at < bytes.len() {
        unsafe { ptr::write_volatile(bytes.as_ptr().cast_mut().add(at), bytes[at]) };
    }
}

/// Each fault as an engine of that name, with the end at which it is seen and what is said of it.
#[rustfmt::skip]
fn faults() -> [(Engine, &'static str, &'static str); 17] {
    let engine = |name| Engine { name, ..LIBRARY };
    [
        (Engine { check: |p| { read(p, p.len() as isize); yard::check(p) }, ..engine("read past the plan") },
            "Back", "read or wrote a byte 1 behind the plan"),
        (Engine { check: |p| { read(p, -1); yard::check(p) }, ..engine("read before the plan") },
            "Front", "read or wrote a byte 1 before the plan"),
        (Engine { settle: |p, b| { read(b, b.len() as isize); yard::settle(p, b) }, ..engine("read past the image") },
            "Back", "read or wrote a byte 1 behind the image"),
        (Engine { settle: |p, b| { read(b, -1); yard::settle(p, b) }, ..engine("read before the image") },
            "Front", "read or wrote a byte 1 before the image"),
        (Engine { attempt: |p, b, n| { rewrite(p, 7); yard::attempt(p, b, n) }, ..engine("write to the plan") },
            "Front", "wrote to byte 7 of the read-only pages of the plan"),
        (Engine { bits: |p, b| { rewrite(b, 16); yard::offered_bits(p, b) }, ..engine("write to an image to read") },
            "Front", "wrote to byte 16 of the read-only pages of the image"),
        (Engine { log: |p, l| { read(l, l.len() as isize); yard::log(p, l) }, ..engine("read past the log") },
            "Back", "read or wrote a byte 1 behind the log"),
        (Engine { log: |p, l| { read(l, -1); yard::log(p, l) }, ..engine("read before the log") },
            "Front", "read or wrote a byte 1 before the log"),
        (Engine { log: |p, l| { rewrite(l, 1); yard::log(p, l) }, ..engine("write to the log") },
            "Front", "wrote to byte 1 of the read-only pages of the log"),
        (Engine { list: |p, b, l| { read(l, l.len() as isize); yard::list(p, b, l) }, ..engine("read past the list") },
            "Back", "read or wrote a byte 1 behind the list"),
        (Engine { list: |p, b, l| { read(l, -1); yard::list(p, b, l) }, ..engine("read before the list") },
            "Front", "read or wrote a byte 1 before the list"),
        (Engine { list: |p, b, l| { rewrite(l, 1); yard::list(p, b, l) }, ..engine("write to the list") },
            "Front", "wrote to byte 1 of the read-only pages of the list"),
        (Engine { turn: |p, r, b| { read(bytes_of(r), 4 * r.len() as isize); yard::turn(p, r, b) }, ..engine("read past the roster") },
            "Back", "read or wrote a byte 1 behind the roster"),
        (Engine { turn: |p, r, b| { read(bytes_of(r), -1); yard::turn(p, r, b) }, ..engine("read before the roster") },
            "Front", "read or wrote a byte 1 before the roster"),
        (Engine { turn: |p, r, b| { read(b, b.len() as isize); yard::turn(p, r, b) }, ..engine("read past the buffer") },
            "Back", "read or wrote a byte 1 behind the buffer"),
        (Engine { turn: |p, r, b| { read(b, -1); yard::turn(p, r, b) }, ..engine("read before the buffer") },
            "Front", "read or wrote a byte 1 before the buffer"),
        (Engine { turn: |p, r, b| { rewrite(p, 7); yard::turn(p, r, b) }, ..engine("write to the plan in a turn") },
            "Front", "wrote to byte 7 of the read-only pages of the plan"),
    ]
}

/// Runs with the chosen fault; passes where none is chosen.
#[test]
fn with_the_chosen_fault() {
    let Ok(chosen) = env::var(CHOSEN) else { return };
    let engine = faults()
        .map(|fault| fault.0)
        .into_iter()
        .find(|engine| engine.name == chosen);
    fault::watch();
    let mut session = Session::new(1, Comparer::with(1, engine.unwrap()));
    assert!(session.compare(10_000).is_ok());
}

#[test]
fn each_fault_stops_the_run_and_is_named() {
    for (engine, ends, said) in faults() {
        let mut run = Command::new(env::current_exe().unwrap());
        run.args(["--exact", "planted::with_the_chosen_fault"])
            .env(CHOSEN, engine.name);
        let output = run.output().unwrap();
        let text = String::from_utf8(output.stderr).unwrap();
        assert_eq!(output.status.code(), Some(1), "{}: {text}", engine.name);
        for part in ["compare: seed 1, call ", engine.name, ends, said] {
            assert!(text.contains(part), "{}: {text}", engine.name);
        }
    }
}
