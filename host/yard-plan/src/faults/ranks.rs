//! 8: a rank bit at or above the interactions, an interaction below itself, or ranks that are not transitive.

use super::Fault;
use crate::judged::Judged;
use crate::mend::Mend;
use crate::tables::RankRow;
use crate::text::{bits, counted};

pub fn faults(judged: &Judged) -> Vec<Fault> {
    let rows = &judged.tables.ranks;
    let ranks = Ranks::new(rows);
    (0..rows.len())
        .flat_map(|i| {
            let mut faults = outside(rows, i);
            faults.extend(itself(rows, i));
            faults.extend(ranks.mutual(rows, i));
            faults.extend(ranks.missing(rows, i));
            faults
        })
        .collect()
}

fn fault(row: &RankRow, i: usize, bit: usize, text: String, cure: &str, mend: Mend) -> Fault {
    Fault {
        number: 8,
        what: format!("rank row {i}"),
        place: row.at + bit / 8,
        text,
        cure: cure.to_string(),
        mend: Some(mend),
    }
}

/// The write that sets or clears a bit of a row.
fn write(row: &RankRow, bit: usize, set: bool) -> Mend {
    let cleared = row.above & !(1 << bit);
    let changed = cleared | u64::from(set) << bit;
    Mend::byte(row.at + bit / 8, changed.to_le_bytes()[bit / 8])
}

fn outside(rows: &[RankRow], i: usize) -> Vec<Fault> {
    let row = &rows[i];
    let past = bits(row.above).filter(|&j| j >= rows.len());
    past.map(|j| {
        let has = counted(rows.len(), "interaction");
        let text = format!("{i} lies below {j}, but the plan has {has}");
        let cure = format!("clear bit {} here", j % 8);
        fault(row, i, j, text, &cure, write(row, j, false))
    })
    .collect()
}

fn itself(rows: &[RankRow], i: usize) -> Option<Fault> {
    let row = &rows[i];
    (row.above >> i & 1 == 1).then(|| {
        let text = format!("{i} lies below itself");
        let cure = format!("clear bit {} here", i % 8);
        fault(row, i, i, text, &cure, write(row, i, false))
    })
}

/// The ranks among the plan's interactions, none below itself.
struct Ranks {
    above: Vec<u64>,
    /// What is reached by going up again and again.
    reached: Vec<u64>,
}

impl Ranks {
    fn new(rows: &[RankRow]) -> Ranks {
        let among = u64::MAX >> (64 - rows.len().clamp(1, 64));
        let rows = rows.iter().enumerate();
        let above: Vec<u64> = rows.map(|(i, row)| row.above & among & !(1 << i)).collect();
        let mut reached = above.clone();
        for middle in 0..reached.len() {
            let further = reached[middle];
            for row in reached.iter_mut().filter(|row| **row >> middle & 1 == 1) {
                *row |= further;
            }
        }
        Ranks { above, reached }
    }

    fn below(&self, i: usize, j: usize) -> bool {
        self.above[i] >> j & 1 == 1
    }

    /// Pairs that lie below each other, each told at the lower number.
    fn mutual(&self, rows: &[RankRow], i: usize) -> Vec<Fault> {
        let others = bits(self.above[i]).filter(|&j| i < j && self.below(j, i));
        others
            .map(|j| {
                let text = format!("{i} and {j} lie below each other");
                let (low, high) = self.better([(i, j), (j, i)]);
                let cure = format!("take one of the two away, such as {low} below {high}");
                fault(&rows[i], i, j, text, &cure, write(&rows[low], high, false))
            })
            .collect()
    }

    /// Ranks that follow from two others and are not there.
    fn missing(&self, rows: &[RankRow], i: usize) -> Vec<Fault> {
        let among = |k: &usize| *k != i && !self.below(i, *k);
        (0..rows.len())
            .filter(among)
            .filter_map(|k| {
                let j = bits(self.above[i]).find(|&j| self.below(j, k))?;
                let text = format!("{i} lies below {j} and {j} below {k}, but {i} not below {k}");
                let (cure, mend) = self.close(rows, i, j, k);
                Some(fault(&rows[i], i, k, text, &cure, mend))
            })
            .collect()
    }

    /// The missing rank, or one rank less where it would close a ring.
    fn close(&self, rows: &[RankRow], i: usize, j: usize, k: usize) -> (String, Mend) {
        if self.reached[k] >> i & 1 == 0 {
            let cure = format!("set bit {} here, or take one of the two ranks away", k % 8);
            return (cure, write(&rows[i], k, true));
        }
        let (low, high) = self.better([(i, j), (j, k)]);
        let cure = format!(
            "these ranks go round in a ring, since {k} leads up to {i} again: take one away, such as {low} below {high}"
        );
        (cure, write(&rows[low], high, false))
    }

    /// The one of two ranks without which fewer faults are left.
    fn better(&self, ranks: [(usize, usize); 2]) -> (usize, usize) {
        let [first, second] = ranks;
        if self.left_without(second) < self.left_without(first) {
            second
        } else {
            first
        }
    }

    /// How many ranks are missing or turn back once a rank is taken away.
    fn left_without(&self, (low, high): (usize, usize)) -> u32 {
        let row = |i: usize| match i == low {
            true => self.above[i] & !(1 << high),
            false => self.above[i],
        };
        let steps = |i: usize| bits(row(i)).fold(0, |reached, j| reached | row(j));
        (0..self.above.len())
            .map(|i| (steps(i) & !row(i)).count_ones())
            .sum()
    }
}
