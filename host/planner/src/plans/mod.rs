//! The plans of the folder plans/, one file each.

pub mod chain;
pub mod chains;
pub mod maximal;
pub mod philosophers;
pub mod robots;
pub mod sample;
pub mod split_skip;
pub mod sums;
pub mod tasks;
pub mod wet_bales;

use crate::plan::Plan;

/// Every plan with the name of its file.
pub fn all() -> Vec<(&'static str, Plan)> {
    vec![
        ("sample.plan", sample::plan()),
        ("philosophers-3.plan", philosophers::plan(3)),
        ("philosophers-8.plan", philosophers::plan(8)),
        ("robots-2.plan", robots::plan(2)),
        ("robots-5.plan", robots::plan(5)),
        ("robots-100.plan", robots::plan(100)),
        ("tasks.plan", tasks::plan()),
        ("chain.plan", chain::plan()),
        ("chain-good.plan", chains::all_good()),
        ("chain-bad.plan", chains::lowest_good()),
        ("chain-penned.plan", chains::none_good()),
        ("chain-turned.plan", chains::none_good_turned()),
        ("maximal.plan", maximal::plan()),
        ("maximal-oracles.plan", maximal::with_oracles()),
        ("wet-bales.plan", wet_bales::plan()),
        ("sums.plan", sums::plan()),
        ("split-skip.plan", split_skip::plan()),
    ]
}
