//! `yard-plan show FILE`, `yard-plan check FILE`, `yard-plan image PLAN IMAGE`, `yard-plan log PLAN LOG`.
#![forbid(unsafe_code)]

use std::ffi::OsString;
use std::fs::File;
use std::io::{self, ErrorKind, Write};
use std::os::fd::AsFd;
use std::process::ExitCode;

use yard_plan::command;

fn main() -> ExitCode {
    let arguments: Vec<OsString> = std::env::args_os().skip(1).collect();
    let done = command::run(&arguments);
    complain(&done.errors);
    let Err(error) = write(&done.output) else {
        return ExitCode::from(done.status);
    };
    // A reader that has seen enough, such as `head`, closes its pipe.
    if error.kind() != ErrorKind::BrokenPipe {
        complain(&command::error("standard output cannot be written"));
    }
    ExitCode::from(command::FAILED)
}

/// Nothing can be said where standard error is closed.
fn complain(errors: &str) {
    let _ = io::stderr().write_all(errors.as_bytes());
}

/// Writes to a copy of standard output's descriptor: Rust's own `Stdout` takes no notice where it is not open for writing.
/// One that was closed cannot be told: Rust opens /dev/null in its place before `main`, which a caller may have done as well.
fn write(output: &str) -> io::Result<()> {
    let stdout = io::stdout().as_fd().try_clone_to_owned()?;
    File::from(stdout).write_all(output.as_bytes())
}
