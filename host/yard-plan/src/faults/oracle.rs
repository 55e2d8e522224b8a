//! 9, of the first oracle, and 20, of an added one: a verdict past 3, a next state that the oracle lacks, a bad state, of verdict 0, that leads
//! to another, or a 3 state that does.

use super::Fault;
use crate::judged::{is_final, Judged};
use crate::mend::Mend;
use crate::tables::State;
use crate::text::{self, one_below, oracle_has, oracle_state};

/// One oracle: its number, its states and the verdicts that they are judged by.
struct Table<'a> {
    oracle: usize,
    states: &'a [State],
    verdicts: &'a [u8],
}

pub fn faults(judged: &Judged) -> Vec<Fault> {
    let oracles = judged.tables.oracles.iter().zip(&judged.verdicts);
    let tables = oracles
        .enumerate()
        .map(|(oracle, (states, verdicts))| Table {
            oracle,
            states,
            verdicts,
        });
    tables.flat_map(|table| table.faults()).collect()
}

impl Table<'_> {
    fn faults(&self) -> Vec<Fault> {
        let states = 0..self.states.len();
        states
            .flat_map(|s| {
                let letters = 0..self.states[s].next.len();
                let next = letters.filter_map(move |letter| self.next(s, letter));
                self.verdict(s).into_iter().chain(next)
            })
            .collect()
    }

    fn fault(&self, s: usize, place: usize, text: String, cure: String, value: u8) -> Fault {
        Fault {
            number: if self.oracle == 0 { 9 } else { 20 },
            what: oracle_state(self.oracle, s),
            place,
            text,
            cure,
            mend: Some(Mend::byte(place, value)),
        }
    }

    fn verdict(&self, s: usize) -> Option<Fault> {
        let state = &self.states[s];
        let fits = self.verdicts[s];
        (state.verdict != fits).then(|| {
            let text = format!(
                "verdict {}, but there are 0 bad, 1 currently false, 2 currently true, 3 true for good",
                state.verdict
            );
            let cure = format!("0 to 3; {fits} fits the states around it best");
            self.fault(s, state.at, text, cure, fits)
        })
    }

    fn next(&self, s: usize, letter: usize) -> Option<Fault> {
        let state = &self.states[s];
        let (next, place) = (state.next[letter], state.at + 1 + letter);
        let Some(&follower) = self.verdicts.get(usize::from(next)) else {
            let states = self.verdicts.len();
            let has = oracle_has(self.oracle, states);
            let text = format!("next state {next} on letter {letter}, but {has}");
            let cure = one_below("next state", states);
            return Some(self.fault(s, place, text, cure, s as u8));
        };
        let own = self.verdicts[s];
        (is_final(own) && follower != own).then(|| {
            let text = format!(
                "next state {next} on letter {letter} has {}, but this state has {}",
                text::verdict(follower),
                text::verdict(own)
            );
            let stays = match own {
                0 => "a bad state stays bad",
                _ => "a 3 state stays 3",
            };
            let cure = format!("{stays}: {s} itself, or another state of verdict {own}");
            self.fault(s, place, text, cure, s as u8)
        })
    }
}
