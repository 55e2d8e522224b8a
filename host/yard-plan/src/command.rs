//! The commands: their arguments, what they print, and their status.

use std::ffi::OsString;
use std::path::Path;

use crate::read::{self, Meant};
use crate::{faults, image, log, report, show, start};

/// Status where a file cannot be read, the usage is wrong, or the output cannot be written.
pub const FAILED: u8 = 2;

const USAGE: &str =
    "usage: yard-plan show FILE | check FILE | image PLAN IMAGE | log PLAN LOG | --help";

const HELP: &str = "\
usage: yard-plan COMMAND, where COMMAND is one of
  show FILE         prints a plan's tables, code as expressions
  check FILE        says whether a plan is accepted; if not, every fault with its record, byte, rule and cure
  image PLAN IMAGE  shows a lane: locations, last ports, values, marks, what is on offer and what is held down; if it is refused, every fault with its byte and cure
  log PLAN LOG      says whether a log of moves, 2 bytes each with the lowest first, is a run from the start; if not, the first wrong entry, from 0, and its cause
  --help, -h        prints this
status
  0  accepted
  1  refused
  2  a file cannot be read, the usage is wrong, or the output cannot be written
  3  the library and the explanation differ: the library's answer counts
  4  an entry of a log is wrong
";

/// What a command leaves: standard output, standard error and the status.
pub struct Done {
    pub output: String,
    pub errors: String,
    pub status: u8,
}

pub fn run(arguments: &[OsString]) -> Done {
    match answer(arguments) {
        Ok((output, status)) => Done {
            output,
            errors: String::new(),
            status,
        },
        Err(line) => Done {
            output: String::new(),
            errors: error(&line),
            status: FAILED,
        },
    }
}

/// A line for standard error.
pub fn error(line: &str) -> String {
    format!("yard-plan: {line}\n")
}

/// The output and the status, or the line for standard error.
fn answer(arguments: &[OsString]) -> Result<(String, u8), String> {
    let file = |path: &OsString, meant: Meant| read::file(Path::new(path), meant);
    let command = arguments.first().and_then(|command| command.to_str());
    match (command, arguments) {
        _ if arguments.iter().any(|a| a == "--help" || a == "-h") => Ok((HELP.to_string(), 0)),
        (Some("show"), [_, plan]) => Ok(show::plan(&file(plan, Meant::Plan)?)),
        (Some("check"), [_, plan]) => Ok(check(&file(plan, Meant::Plan)?)),
        (Some("image"), [_, plan, image]) => Ok(image::show(
            &file(plan, Meant::Plan)?,
            &file(image, Meant::Image)?,
        )),
        (Some("log"), [_, plan, log]) => Ok(log::check(
            &file(plan, Meant::Plan)?,
            &file(log, Meant::Log)?,
        )),
        _ => Err(USAGE.to_string()),
    }
}

/// Whether the library accepts the plan, and every fault that explains why not; of an accepted plan, whether a lane can be started.
pub fn check(plan: &[u8]) -> (String, u8) {
    let number = report::number(yard::check(plan));
    let (output, status) = report::explained(number, &faults::of_plan(plan));
    if status != report::ACCEPTED {
        return (output, status);
    }
    let (lines, status) = start::told(plan);
    (output + &lines, status)
}
