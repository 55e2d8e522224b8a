//! A plan's records, and for each field that breaks its own rule the value by which the rest is judged.
//! So one wrong field is one fault, and what its mend writes is what the rest was judged by.

use crate::tables::{Interaction, Span, State, Tables, Transition};
use crate::words::Word;

pub const NO_PORT: u8 = 255;
/// The most locations and ports of a component.
pub const MOST: usize = 16;

pub struct Judged {
    pub tables: Tables,
    /// For each component its locations and ports; 16 where the record's own number is unlawful.
    pub locations: Vec<usize>,
    pub ports: Vec<usize>,
    /// For each variable its owner; where the plan lacks it, one whose code may name the variable.
    pub owners: Vec<usize>,
    /// For each transition its component; where the plan lacks it, the one that fits the rest of the record best.
    pub components: Vec<usize>,
    /// For each interaction bit c for component c taking part; where none does, those whose variables its code names.
    pub parts: Vec<u16>,
    /// For each oracle the verdicts of its states; where one is none, the one that fits the states around best.
    pub verdicts: Vec<Vec<u8>>,
}

impl Judged {
    /// The plan's records, where they can be told apart.
    pub fn read(bytes: &[u8]) -> Option<Judged> {
        let tables = Tables::read(bytes)?;
        let numbers = |stated: u8| {
            Some(usize::from(stated))
                .filter(|n| (1..=MOST).contains(n))
                .unwrap_or(MOST)
        };
        let components = &tables.components;
        let mut judged = Judged {
            locations: components.iter().map(|c| numbers(c.locations)).collect(),
            ports: components.iter().map(|c| numbers(c.ports)).collect(),
            owners: (0..tables.variables.len())
                .map(|n| owner(&tables, n))
                .collect(),
            components: Vec::new(),
            parts: Vec::new(),
            verdicts: tables.oracles.iter().map(|o| verdicts(o)).collect(),
            tables,
        };
        judged.components = judged
            .tables
            .transitions
            .iter()
            .map(|t| judged.component(t))
            .collect();
        judged.parts = judged
            .tables
            .interactions
            .iter()
            .map(|i| judged.parts_of(i))
            .collect();
        Some(judged)
    }

    fn component(&self, transition: &Transition) -> usize {
        let count = self.tables.components.len();
        let stated = usize::from(transition.component);
        if stated < count {
            return stated;
        }
        (0..count)
            .min_by_key(|&c| self.misfits(transition, c))
            .unwrap_or(0)
    }

    /// How many fields and words of a transition would break a rule if this were its component.
    fn misfits(&self, transition: &Transition, component: usize) -> usize {
        let fields = [
            usize::from(transition.source) >= self.locations[component],
            usize::from(transition.port) >= self.ports[component],
            usize::from(transition.destination) >= self.locations[component],
        ];
        let foreign = |n: &usize| self.owners.get(*n).is_some_and(|&owner| owner != component);
        let names = named(&self.tables, [transition.guard, transition.action]);
        fields.into_iter().filter(|&broken| broken).count()
            + names.into_iter().filter(foreign).count()
    }

    fn parts_of(&self, interaction: &Interaction) -> u16 {
        let stated = stated_parts(interaction, self.tables.components.len());
        match (stated, self.named_owners(interaction)) {
            (0, 0) => 1,
            (0, owners) => owners,
            (stated, _) => stated,
        }
    }

    /// Bit c for each component whose variables an interaction's code names.
    pub fn named_owners(&self, interaction: &Interaction) -> u16 {
        let names = named(&self.tables, [interaction.guard, interaction.transfer]);
        let owners = names.into_iter().filter_map(|n| self.owners.get(n));
        owners.fold(0, |mask, owner| mask | 1 << owner)
    }
}

/// The variables that some spans name, as far as they lie within the code.
fn named(tables: &Tables, spans: [Span; 2]) -> Vec<usize> {
    let words = spans.iter().filter_map(|span| span.words(&tables.code));
    words
        .flatten()
        .filter_map(|&word| Word::of(word).variable())
        .collect()
}

/// Bit c for each component of the plan that has a port in the interaction, lawful or not.
fn stated_parts(interaction: &Interaction, components: usize) -> u16 {
    let ports = interaction.ports.iter().take(components).enumerate();
    ports
        .filter(|(_, &port)| port != NO_PORT)
        .fold(0, |parts, (c, _)| parts | 1 << c)
}

fn owner(tables: &Tables, n: usize) -> usize {
    let stated = usize::from(tables.variables[n].owner);
    if stated < tables.components.len() {
        return stated;
    }
    suitable_owners(tables, n).first().copied().unwrap_or(0)
}

/// The components that may own a variable, by the code that names it.
pub fn suitable_owners(tables: &Tables, n: usize) -> Vec<usize> {
    let count = tables.components.len();
    let mut suits = u16::MAX;
    for t in &tables.transitions {
        let component = usize::from(t.component);
        if component < count && named(tables, [t.guard, t.action]).contains(&n) {
            suits &= 1 << component;
        }
    }
    for i in &tables.interactions {
        let parts = stated_parts(i, count);
        if parts != 0 && named(tables, [i.guard, i.transfer]).contains(&n) {
            suits &= parts;
        }
    }
    (0..count).filter(|c| suits >> c & 1 == 1).collect()
}

pub fn is_verdict(verdict: u8) -> bool {
    matches!(verdict, 0..=3)
}

/// Whether states of the verdict lead to such states alone.
pub fn is_final(verdict: u8) -> bool {
    matches!(verdict, 0 | 3)
}

fn verdicts(oracle: &[State]) -> Vec<u8> {
    (0..oracle.len()).map(|n| verdict(oracle, n)).collect()
}

fn verdict(oracle: &[State], n: usize) -> u8 {
    let stated = oracle[n].verdict;
    if is_verdict(stated) {
        return stated;
    }
    let fits = [2, 0, 3].into_iter();
    fits.min_by_key(|&verdict| conflicts(oracle, n, verdict))
        .unwrap_or(2)
}

/// How many steps to and from other states would break a rule if this were the state's verdict.
fn conflicts(oracle: &[State], n: usize, verdict: u8) -> usize {
    let differs = |other: u8| is_verdict(other) && other != verdict;
    let others = || oracle.iter().enumerate().filter(|&(m, _)| m != n);
    let leads = |state: &State, to: usize| {
        state
            .next
            .iter()
            .filter(|&&next| usize::from(next) == to)
            .count()
    };
    let before = others()
        .filter(|(_, state)| is_final(state.verdict) && differs(state.verdict))
        .map(|(_, state)| leads(state, n));
    let after = others()
        .filter(|(_, state)| is_final(verdict) && differs(state.verdict))
        .map(|(m, _)| leads(&oracle[n], m));
    before.sum::<usize>() + after.sum::<usize>()
}
