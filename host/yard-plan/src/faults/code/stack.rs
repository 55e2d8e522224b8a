//! The values that a span pushes and pops.

use super::site::Site;
use super::{Examiner, Fault};
use crate::text::count;
use crate::words::Word;

const MOST_DEPTH: usize = 8;

impl Examiner<'_> {
    /// The first word that pops what is not there or pushes too much, or else a wrong number of values at the end.
    /// Nothing is told from a word that means nothing on.
    pub(super) fn stack(&self, site: &Site, words: &[u16]) -> Option<Fault> {
        let mut depth = 0;
        for (n, &word) in words.iter().enumerate() {
            let (pops, pushes) = Word::of(word).effect()?;
            let n = site.span.start + n;
            if depth < pops {
                return Some(self.empty(site, n, word, pops, depth));
            }
            depth = depth - pops + pushes;
            if depth > MOST_DEPTH {
                return Some(self.deep(site, n, word));
            }
        }
        let end = usize::from(!site.role.stores());
        let last = words.len().checked_sub(1)?;
        (depth != end).then(|| self.ends(site, site.span.start + last, depth, end))
    }

    fn empty(&self, site: &Site, n: usize, word: u16, pops: usize, depth: usize) -> Fault {
        let (takes, there) = (values(pops), values(depth));
        let text = format!("{word:04x} takes {takes}, but {there} is there");
        self.fault_at(site, n, text, "push what it takes before it")
    }

    fn deep(&self, site: &Site, n: usize, word: u16) -> Fault {
        let depth = MOST_DEPTH + 1;
        let text =
            format!("{word:04x} brings the depth to {depth}, but it is at most {MOST_DEPTH}");
        self.fault_at(site, n, text, "join values before more are pushed")
    }

    fn ends(&self, site: &Site, n: usize, depth: usize, end: usize) -> Fault {
        let (role, ends, must) = (site.role.name(), values(depth), values(end));
        let text = format!("the {role} ends with {ends} here, but must end with {must}");
        let cure = match end {
            0 => "words that store every value",
            _ => "words that leave one value",
        };
        self.fault_at(site, n, text, cure)
    }
}

fn values(number: usize) -> String {
    match number {
        0 => "no value".to_string(),
        _ => count(number, "value"),
    }
}
