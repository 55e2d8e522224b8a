//! The added oracles by the header, and how the rows of the oracle section are shared out among the oracles.

use crate::judged::{is_final, is_verdict};
use crate::layout::MOST_STATES;

/// Their number; the state counts follow, a byte each.
pub const PLACE: usize = 42;
pub const MOST: usize = 3;

/// How many oracles are added, and their state counts, 0 where unused.
#[derive(Clone, Copy, Debug, PartialEq, Eq)]
pub struct Added {
    pub number: usize,
    pub states: [usize; MOST],
}

impl Added {
    /// What the header says, lawful or not; 0 where the bytes end before.
    pub fn stated(bytes: &[u8]) -> Added {
        let byte = |at: usize| bytes.get(at).copied().map_or(0, usize::from);
        Added {
            number: byte(PLACE),
            states: [0, 1, 2].map(|k| byte(count_place(k))),
        }
    }

    pub fn lawful(&self) -> bool {
        self.number <= MOST && (0..MOST).all(|k| self.count_lawful(k))
    }

    /// Whether state count `k` is in its range: 1 to 32 where used, else 0.
    pub fn count_lawful(&self, k: usize) -> bool {
        match k < self.number {
            true => is_count(self.states[k]),
            false => self.states[k] == 0,
        }
    }

    /// The states of all added oracles.
    pub fn rows(&self) -> usize {
        self.states.iter().sum()
    }
}

/// The place of an added oracle's state count.
pub fn count_place(k: usize) -> usize {
    PLACE + 1 + k
}

fn is_count(states: usize) -> bool {
    (1..=MOST_STATES).contains(&states)
}

/// The states of the first oracle, and the added oracles.
#[derive(Clone, Copy, Debug, PartialEq, Eq)]
pub struct Shares {
    pub first: usize,
    pub added: Added,
}

impl Shares {
    fn lawful(&self) -> bool {
        is_count(self.first) && self.added.lawful()
    }

    fn rows(&self) -> usize {
        self.first + self.added.rows()
    }

    /// The states of each oracle in use.
    pub fn counts(&self) -> impl Iterator<Item = usize> {
        let Shares { first, added } = *self;
        let added = added.states.into_iter().take(added.number);
        std::iter::once(first).chain(added)
    }

    /// Shares for so many added oracles, in which the count of one oracle is what the others leave of the rows.
    fn changed(&self, number: usize, free: usize, rows: usize) -> Option<Shares> {
        let mut shares = *self;
        shares.added.number = number;
        shares.added.states[number..].fill(0);
        *shares.count(free) = 0;
        *shares.count(free) = rows.checked_sub(shares.rows())?;
        shares.lawful().then_some(shares)
    }

    fn count(&mut self, oracle: usize) -> &mut usize {
        match oracle {
            0 => &mut self.first,
            n => &mut self.added.states[n - 1],
        }
    }

    /// How many fields of the header differ.
    fn changes(&self, other: &Shares) -> usize {
        let states = self.added.states.iter().zip(other.added.states);
        states.filter(|(&one, other)| one != *other).count()
            + usize::from(self.first != other.first)
            + usize::from(self.added.number != other.added.number)
    }

    /// How often the tables, with these shares of the rows, break the rule of 9 and 20.
    fn breaks(&self, rows: &[&[u8]]) -> usize {
        let mut rest = rows;
        let mut breaks = 0;
        for count in self.counts() {
            let (table, behind) = rest.split_at(count);
            breaks += table_breaks(table);
            rest = behind;
        }
        breaks
    }
}

fn table_breaks(table: &[&[u8]]) -> usize {
    let broken = |verdict: u8, next: u8| match table.get(usize::from(next)) {
        Some(follower) => is_final(verdict) && follower[0] != verdict,
        None => true,
    };
    let row_breaks = |row: &&[u8]| {
        let next = row[1..].iter().filter(|&&next| broken(row[0], next));
        next.count() + usize::from(!is_verdict(row[0]))
    };
    table.iter().map(row_breaks).sum()
}

/// The shares that agree with the rows: the stated ones where they do, else those that leave the fewest faults. The first oracle has at least
/// so many states.
pub fn shared_out(stated: Shares, rows: &[&[u8]], least: usize) -> Option<Shares> {
    let ways = (0..=MOST).flat_map(|number| (0..=number).map(move |free| (number, free)));
    let shares = ways.filter_map(|(number, free)| stated.changed(number, free, rows.len()));
    let faults = |shares: &Shares| match shares.changes(&stated) {
        0 => 0,
        changes => changes + shares.breaks(rows),
    };
    shares
        .filter(|shares| shares.first >= least)
        .min_by_key(faults)
}

#[cfg(test)]
mod tests {
    use super::*;

    fn shares(first: usize, number: usize, states: [usize; MOST]) -> Shares {
        Shares {
            first,
            added: Added { number, states },
        }
    }

    /// Tables of two and three rows for two letters; with other shares of the rows, rules are broken.
    const ROWS: [&[u8]; 5] = [&[2, 1, 1], &[3, 1, 1], &[2, 1, 1], &[2, 2, 2], &[0, 2, 2]];

    #[test]
    fn wrong_fields_are_told() {
        let right = shares(2, 1, [3, 0, 0]);
        for wrong in [
            right,
            shares(5, 1, [3, 0, 0]),
            shares(2, 0, [3, 0, 0]),
            shares(2, 2, [3, 0, 0]),
            shares(2, 200, [3, 0, 0]),
            shares(2, 1, [0, 0, 0]),
            shares(2, 1, [4, 0, 0]),
            shares(2, 1, [33, 0, 0]),
            shares(2, 1, [3, 1, 0]),
            shares(2, 1, [3, 0, 255]),
            shares(2, 0, [0, 0, 0]),
        ] {
            assert_eq!(shared_out(wrong, &ROWS, 1), Some(right), "{wrong:?}");
        }
    }

    #[test]
    fn rows_that_no_shares_agree_with() {
        assert_eq!(shared_out(shares(2, 1, [3, 0, 0]), &[], 1), None);
        let rows = [&[2, 0][..]; 129];
        assert_eq!(shared_out(shares(32, 3, [32; 3]), &rows, 1), None);
        let most = shares(32, 3, [32; 3]);
        assert_eq!(shared_out(most, &rows[..128], 1), Some(most));
    }

    #[test]
    fn the_first_oracle_keeps_its_least_states() {
        let rows = [&[2, 0][..]; 4];
        let stated = shares(4, 1, [2, 0, 0]);
        assert_eq!(shared_out(stated, &rows, 1), Some(shares(2, 1, [2, 0, 0])));
        assert_eq!(shared_out(stated, &rows, 3), Some(shares(4, 0, [0, 0, 0])));
    }
}
