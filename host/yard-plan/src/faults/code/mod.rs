//! 10: a span of code past the code words, or a code rule broken.

mod names;
mod site;
mod stack;

pub use site::{Role, Site};

use super::Fault;
use crate::judged::Judged;
use crate::mend::Mend;
use crate::text::{below, thousands};
use crate::words::Word;

const MOST_WORDS: usize = 64;

pub fn faults(judged: &Judged) -> Vec<Fault> {
    let examiner = Examiner::new(judged);
    let sites = examiner.sites.iter();
    sites.flat_map(|site| examiner.faults(site)).collect()
}

/// A plan's spans and what is needed to judge each.
pub struct Examiner<'a> {
    judged: &'a Judged,
    pub sites: Vec<Site>,
    /// For each code word how many spans hold it.
    holders: Vec<u32>,
    /// A word that is a lawful proposition by itself.
    alone: Option<usize>,
}

/// What is wrong with a word, its cure, and a word that may stand in its place.
struct Wrong {
    text: String,
    cure: String,
    instead: Option<u16>,
}

impl<'a> Examiner<'a> {
    pub fn new(judged: &'a Judged) -> Examiner<'a> {
        let code = &judged.tables.code;
        let sites = site::all(judged);
        let mut holders = vec![0; code.len()];
        for Site { span, .. } in &sites {
            let end = span.end().min(code.len());
            let held = holders.get_mut(span.start..end).into_iter().flatten();
            held.for_each(|holders| *holders += 1);
        }
        let alone = |&word: &u16| names::is_proposition(judged, word);
        Examiner {
            judged,
            sites,
            holders,
            alone: code.iter().position(alone),
        }
    }

    /// Every fault of a span that can be told.
    pub fn faults(&self, site: &Site) -> Vec<Fault> {
        if let Some(fault) = self.extent(site) {
            return vec![fault];
        }
        let words = site.span.words(&self.judged.tables.code).unwrap_or(&[]);
        let numbered = words.iter().enumerate();
        let mut faults: Vec<Fault> = numbered
            .filter_map(|(n, &word)| self.word(site, site.span.start + n, word))
            .collect();
        faults.extend(self.stack(site, words));
        faults
    }

    /// A span past the code, too long, or empty where it may not be.
    fn extent(&self, site: &Site) -> Option<Fault> {
        let words = self.judged.tables.code.len();
        let rule = if site.span.end() > words {
            match words {
                0 => ", but the plan has no code words".to_string(),
                _ => format!(", but the plan has the code words {}", below(words)),
            }
        } else if site.span.length > MOST_WORDS {
            format!(", but a span has at most {MOST_WORDS} words")
        } else if site.span.length == 0 && site.role == Role::Proposition {
            ": a proposition is not empty".to_string()
        } else {
            return None;
        };
        let (start, length) = (site.span.start, site.span.length);
        Some(Fault {
            number: 10,
            what: site.name(),
            place: site.span.at,
            text: format!("start {start} and length {length}{rule}"),
            cure: self.extent_cure(site),
            mend: self.emptied(site),
        })
    }

    fn extent_cure(&self, site: &Site) -> String {
        let words = self.judged.tables.code.len();
        let cure = match (site.span.length, site.role) {
            (0, Role::Proposition) => {
                return "a span of at least one word that tests what it should".to_string()
            }
            (0, _) => return "start 0".to_string(),
            _ if site.span.end() <= words => format!("at most {MOST_WORDS} words"),
            _ if words == 0 => "code words for it".to_string(),
            _ => format!(
                "a start and a length that together are at most {}",
                thousands(words)
            ),
        };
        cure + &self.or_else(site)
    }

    fn word(&self, site: &Site, n: usize, word: u16) -> Option<Fault> {
        let wrong = self.wrong_word(site, word)?;
        let text = format!("{word:04x} {}", wrong.text);
        // A word that another span holds too is left as it is.
        let instead = wrong.instead.filter(|_| self.holders.get(n) == Some(&1));
        Some(match instead {
            None => self.fault_at(site, n, text, &wrong.cure),
            Some(word) => Fault {
                mend: Some(Mend::field(self.judged.tables.word_at(n), word.into())),
                cure: wrong.cure,
                ..self.fault_at(site, n, text, "")
            },
        })
    }

    /// A fault at a word, with the span emptied as its mend.
    fn fault_at(&self, site: &Site, n: usize, text: String, cure: &str) -> Fault {
        Fault {
            number: 10,
            what: format!("{}, word {n}", site.name()),
            place: self.judged.tables.word_at(n),
            text,
            cure: format!("{cure}{}", self.or_else(site)),
            mend: self.emptied(site),
        }
    }

    fn wrong_word(&self, site: &Site, word: u16) -> Option<Wrong> {
        let wrong = |text: String, cure: &str| {
            Some(Wrong {
                text,
                cure: cure.to_string(),
                instead: None,
            })
        };
        let role = site.role.name();
        match Word::of(word) {
            Word::NoKind(kind) => wrong(
                format!("is of kind {kind}, but kinds go from 0 to 6"),
                "a known word that fits here",
            ),
            Word::NoOperator(operator) => wrong(
                format!("is operator {operator}, but operators go from 0 to 7"),
                "an operator from 0 to 7, or another known word that fits here",
            ),
            Word::Store(variable) if !site.role.stores() => wrong(
                format!("stores into v{variable}, but a {role} stores nothing"),
                "another word: kind 3 stands in actions and transfers alone",
            ),
            Word::At { .. } | Word::Last { .. } if site.role != Role::Proposition => wrong(
                format!("tests a location or a last port, but stands in a {role}"),
                "another word: kinds 4 and 5 stand in propositions alone",
            ),
            _ => names::wrong(self.judged, site, word),
        }
    }

    /// The last choice, no code at all, and what that would mean. A proposition has none: what it should test is not known here.
    fn or_else(&self, site: &Site) -> String {
        let then = match site.role {
            Role::Guard => "always hold",
            Role::Action | Role::Transfer => "do nothing",
            Role::Proposition => return String::new(),
        };
        let past = site.span.start > self.judged.tables.code.len();
        let start = if past { "start 0, " } else { "" };
        let name = site.role.name();
        format!("; or no {name} at all ({start}length 0): it would then {then}")
    }

    /// The span made empty; a proposition made one word long, which is lawful and no more. None where there is no word for it.
    fn emptied(&self, site: &Site) -> Option<Mend> {
        let words = self.judged.tables.code.len();
        let span = site.span;
        if site.role != Role::Proposition {
            let start = if span.start <= words { span.start } else { 0 };
            return Some(Mend::fields(&[(span.at, start), (span.at + 2, 0)]));
        }
        if let Some(word) = self.alone {
            return Some(Mend::fields(&[(span.at, word), (span.at + 2, 1)]));
        }
        // No word begins a lawful span, so one can be written anew.
        let word = span.start.min(words.checked_sub(1)?);
        let place = self.judged.tables.word_at(word);
        Some(Mend::fields(&[
            (span.at, word),
            (span.at + 2, 1),
            (place, 0),
        ]))
    }
}
