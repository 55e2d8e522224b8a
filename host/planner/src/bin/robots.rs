//! `robots [SEED [COMMITS]]`: the robots of 002 under random tries, beside its Table 2.

use planner::{
    drive::{drive, Disabler, End},
    lane::Lane,
    plans::robots,
    rng::Rng,
};
use std::{env, process::ExitCode, time::Instant};

/// A map's side, and 002's rollbacks and seconds for 200,000 correct steps.
type Row = (i32, u64, u32);

struct Configuration {
    heading: &'static str,
    disabler: Disabler,
    rows: [Row; 3],
}

const CONFIGURATIONS: [Configuration; 2] = [
    Configuration {
        heading: "With the disabler (002: Supervised-o-d)",
        disabler: Disabler::On,
        rows: [(2, 266_549, 177), (5, 15_630, 83), (100, 50, 78)],
    },
    Configuration {
        heading:
            "Without it (002: Supervised-o): a move tried again is refused with 19 and counted",
        disabler: Disabler::Off,
        rows: [(2, 400_280, 224), (5, 18_022, 82), (100, 35, 76)],
    },
];

fn report(configuration: &Configuration, seed: u64, commits: u64) -> Result<(), End> {
    println!("\n{}\n", configuration.heading);
    println!("| n | commits | rollbacks | seconds | 002: rollbacks | 002: seconds |");
    println!("|---|---|---|---|---|---|");
    for (n, rollbacks_002, seconds_002) in configuration.rows {
        let mut lane = Lane::start(robots::plan(n).bytes()).map_err(End::Unexpected)?;
        let begin = Instant::now();
        let rollbacks = drive(&mut lane, &mut Rng(seed), commits, configuration.disabler)?;
        let seconds = begin.elapsed().as_secs_f64();
        println!(
            "| {n} | {commits} | {rollbacks} | {seconds:.2} | {rollbacks_002} | {seconds_002} |"
        );
    }
    Ok(())
}

fn main() -> ExitCode {
    let argument = |place, default| match env::args().nth(place) {
        Some(text) => text.parse().ok(),
        None => Some(default),
    };
    let (Some(seed), Some(commits)) = (argument(1, 1), argument(2, 200_000)) else {
        eprintln!("usage: robots [SEED [COMMITS]]");
        return ExitCode::from(2);
    };
    println!(
        "Three robots on maps of n by n, random tries, seed {seed}; 002 made 200,000 commits."
    );
    match CONFIGURATIONS
        .iter()
        .try_for_each(|c| report(c, seed, commits))
    {
        Ok(()) => ExitCode::SUCCESS,
        Err(End::NothingOffered(done)) => {
            eprintln!("nothing is on offer after {done} commits");
            ExitCode::FAILURE
        }
        Err(End::Unexpected(answer)) => {
            eprintln!("not expected here: {answer:?}");
            ExitCode::FAILURE
        }
    }
}
