//! Random lawful oracles.

use reference::draft::OracleState;

use crate::rng::Rng;

pub fn states(rng: &mut Rng, count: usize, letters: usize) -> Vec<OracleState> {
    let verdicts = verdicts(rng, count);
    let dangers = dangers(rng, letters);
    let mut state = |verdict: u8| OracleState {
        verdict,
        next: dangers
            .iter()
            .map(|&danger| follower(rng, &verdicts, verdict, danger))
            .collect(),
    };
    verdicts.iter().map(|&verdict| state(verdict)).collect()
}

/// A verdict for each state; at least one is good.
fn verdicts(rng: &mut Rng, count: usize) -> Vec<u8> {
    let for_good = rng.pick(&[0, 0, 5, 20]);
    let mut verdicts: Vec<u8> = (0..count)
        .map(|_| if rng.chance(for_good) { 3 } else { 2 })
        .collect();
    let bad = if rng.chance(90) { count.div_ceil(4) } else { 0 };
    let half = if rng.chance(60) { count.div_ceil(4) } else { 0 };
    let others = [vec![0; bad], vec![1; half]].concat();
    let states = rng.shuffled(count).into_iter().skip(1);
    for (state, verdict) in states.zip(others) {
        verdicts[state] = verdict;
    }
    verdicts
}

/// For each letter how often in a hundred it leads from a state with verdict 1 or 2 to a bad one.
fn dangers(rng: &mut Rng, letters: usize) -> Vec<usize> {
    let some = rng.pick(&[[0, 0, 100], [0, 100, 100], [0, 100, 100], [15, 40, 80]]);
    (0..letters).map(|_| rng.pick(&some)).collect()
}

fn follower(rng: &mut Rng, verdicts: &[u8], verdict: u8, danger: usize) -> u8 {
    let lawful = |next: u8| match verdict {
        1 | 2 => true,
        _ => next == verdict,
    };
    let bad = rng.chance(danger);
    let states = |wanted: &dyn Fn(u8) -> bool| -> Vec<u8> {
        (0..verdicts.len() as u8)
            .filter(|&s| wanted(verdicts[usize::from(s)]))
            .collect()
    };
    let preferred = states(&|next| lawful(next) && (next == 0) == bad);
    if preferred.is_empty() {
        rng.pick(&states(&lawful))
    } else {
        rng.pick(&preferred)
    }
}
