//! The programs' arguments and their run.

use std::env;
use std::process::ExitCode;

use crate::checked::Comparer;
use crate::fault;
use crate::sequences::Session;

const SEED: u64 = 1;
const CALLS: u64 = 2_000_000;

#[derive(Clone, Copy, Debug, PartialEq, Eq)]
pub struct Run {
    pub seed: u64,
    /// Compares at least so many calls.
    pub calls: u64,
}

impl Run {
    /// The run that the arguments `[SEED [CALLS]]` ask for.
    pub fn read(arguments: &[String]) -> Option<Run> {
        let numbers: Result<Vec<u64>, _> = arguments.iter().map(|n| n.parse()).collect();
        let (seed, calls) = match numbers.ok()?[..] {
            [] => (SEED, CALLS),
            [seed] => (seed, CALLS),
            [seed, calls] => (seed, calls),
            _ => return None,
        };
        Some(Run { seed, calls })
    }

    fn start(self, comparer: Comparer) -> ExitCode {
        fault::watch();
        println!("{}: seed {}\n", comparer.names(), self.seed);
        if let Some(lacking) = comparer.has().lacking() {
            println!("{lacking}\n");
        }
        let mut session = Session::new(self.seed, comparer);
        let difference = session.compare(self.calls).err();
        print!("{}", session.tally);
        if let Some(difference) = difference {
            difference.report(self.seed);
            println!("{} calls compared, 1 difference", session.tally.calls);
            return ExitCode::FAILURE;
        }
        let missing = session.missing();
        for name in &missing {
            println!("never occurred: {name}");
        }
        println!("{} calls compared, 0 differences", session.tally.calls);
        ExitCode::from(u8::from(!missing.is_empty()))
    }
}

/// Runs as the process's arguments ask, with a comparer for the seed.
pub fn run(program: &str, comparer: fn(u64) -> Comparer) -> ExitCode {
    let arguments: Vec<String> = env::args().skip(1).collect();
    match Run::read(&arguments) {
        Some(run) => run.start(comparer(run.seed)),
        None => {
            eprintln!("usage: {program} [SEED [CALLS]]");
            ExitCode::from(2)
        }
    }
}

#[cfg(test)]
mod tests {
    use super::*;

    fn read(arguments: &[&str]) -> Option<(u64, u64)> {
        let arguments: Vec<String> = arguments.iter().map(|a| a.to_string()).collect();
        Run::read(&arguments).map(|run| (run.seed, run.calls))
    }

    #[test]
    fn arguments_are_a_seed_and_a_number_of_calls() {
        assert_eq!(read(&[]), Some((SEED, CALLS)));
        assert_eq!(read(&["7"]), Some((7, CALLS)));
        assert_eq!(read(&["7", "90"]), Some((7, 90)));
    }

    #[test]
    fn other_arguments_are_bad_usage() {
        for arguments in [&["-1"][..], &["7", "many"], &["7", "90", "1"]] {
            assert_eq!(read(arguments), None);
        }
    }
}
