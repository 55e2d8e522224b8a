//! `plans DIR` writes every plan file into DIR.

use std::{env, fs, io, path::Path, process::ExitCode};

fn write_all(dir: &Path) -> io::Result<()> {
    planner::plans::all()
        .iter()
        .try_for_each(|(name, plan)| fs::write(dir.join(name), plan.bytes()))
}

fn main() -> ExitCode {
    let Some(dir) = env::args().nth(1) else {
        eprintln!("usage: plans DIR");
        return ExitCode::from(2);
    };
    match write_all(Path::new(&dir)) {
        Ok(()) => ExitCode::SUCCESS,
        Err(error) => {
            eprintln!("{dir}: {error}");
            ExitCode::FAILURE
        }
    }
}
