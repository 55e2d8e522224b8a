//! A plan put together from typed records; `reference::draft` lays out its bytes.

use crate::code::Code;
use reference::draft::{self, Draft, Span};

#[derive(Clone, Copy)]
pub struct Component(pub u8);

#[derive(Clone, Copy)]
pub struct Variable(pub u8);

#[derive(Clone, Copy, Debug, PartialEq, Eq)]
pub struct Interaction(pub u8);

/// Bad and true for good are final. No lane is left at currently false, but a list may pass through it.
#[derive(Clone, Copy)]
pub enum Verdict {
    Bad = 0,
    CurrentlyFalse = 1,
    CurrentlyTrue = 2,
    TrueForGood = 3,
}

/// Source, port and destination of a transition.
pub type Arc = (u8, u8, u8);

#[derive(Default)]
pub struct Plan {
    draft: Draft,
    /// The spans laid so far: equal code is laid once.
    spans: Vec<Span>,
}

impl Plan {
    pub fn new(number: u32) -> Plan {
        let mut plan = Plan::default();
        plan.draft.number = number;
        plan
    }

    pub fn component(&mut self, locations: u8, start: u8, ports: u8) -> Component {
        self.draft.components.push(draft::Component {
            locations,
            start,
            ports,
            zero: 0,
        });
        Component(self.draft.components.len() as u8 - 1)
    }

    pub fn variable(&mut self, owner: Component, value: i32) -> Variable {
        self.draft.variables.push(draft::Variable {
            owner: owner.0,
            zeros: [0; 3],
            value,
        });
        Variable(self.draft.variables.len() as u8 - 1)
    }

    pub fn transition(&mut self, component: Component, arc: Arc, guard: Code, action: Code) {
        let (guard, action) = (self.span(guard), self.span(action));
        let (source, port, destination) = arc;
        self.draft.transitions.push(draft::Transition {
            component: component.0,
            source,
            port,
            destination,
            guard,
            action,
        });
    }

    /// A transition with no guard and no action.
    pub fn step(&mut self, component: Component, arc: Arc) {
        self.transition(component, arc, Code::new(), Code::new());
    }

    pub fn interaction(
        &mut self,
        parts: &[(Component, u8)],
        guard: Code,
        transfer: Code,
    ) -> Interaction {
        let (guard, transfer) = (self.span(guard), self.span(transfer));
        let mut ports = [255; 16];
        for (component, port) in parts {
            ports[usize::from(component.0)] = *port;
        }
        self.draft.interactions.push(draft::Interaction {
            ports,
            guard,
            transfer,
            rank: 0,
        });
        Interaction(self.draft.interactions.len() as u8 - 1)
    }

    /// An interaction with no guard and no transfer.
    pub fn meet(&mut self, parts: &[(Component, u8)]) -> Interaction {
        self.interaction(parts, Code::new(), Code::new())
    }

    /// Ranks one interaction below another; what follows by transitivity is added with the bytes.
    pub fn below(&mut self, low: Interaction, high: Interaction) {
        self.draft.interactions[usize::from(low.0)].rank |= 1 << high.0;
    }

    pub fn proposition(&mut self, code: Code) {
        let span = self.span(code);
        self.draft.propositions.push(span);
    }

    pub fn oracle_state(&mut self, verdict: Verdict, next: Vec<u8>) {
        self.draft.oracle.push(draft::OracleState {
            verdict: verdict as u8,
            next,
        });
    }

    /// Adds an oracle beside the first, with these states; it begins in its state 0.
    pub fn added_oracle(&mut self, states: Vec<(Verdict, Vec<u8>)>) {
        let state = |(verdict, next)| draft::OracleState {
            verdict: verdict as u8,
            next,
        };
        let states = states.into_iter().map(state).collect();
        self.draft.added.push(states);
    }

    pub fn first_oracle_state(&mut self, first: u16) {
        self.draft.first = first;
    }

    /// The oracle of an invariant: bad for good from the first event on in which a proposition is true.
    pub fn never_any_proposition(&mut self) {
        self.never(usize::MAX);
    }

    /// The same for some of the propositions: those whose bits are set.
    pub fn never(&mut self, propositions: usize) {
        let letters = 1 << self.draft.propositions.len();
        let next = (0..letters).map(|letter| u8::from(letter & propositions != 0));
        self.oracle_state(Verdict::CurrentlyTrue, next.collect());
        self.oracle_state(Verdict::Bad, vec![1; letters]);
    }

    fn span(&mut self, code: Code) -> Span {
        let words = code.words();
        let same =
            |s: &&Span| self.draft.code[usize::from(s.start)..][..usize::from(s.length)] == *words;
        if let Some(span) = self.spans.iter().find(same) {
            return *span;
        }
        let start = if words.is_empty() {
            0
        } else {
            self.draft.code.len() as u16
        };
        let span = Span {
            start,
            length: words.len() as u16,
        };
        self.draft.code.extend(words);
        self.spans.push(span);
        span
    }

    /// The plan's bytes, with all ranks that follow by transitivity.
    pub fn bytes(&self) -> Vec<u8> {
        let mut draft = self.draft.clone();
        for middle in 0..draft.interactions.len() {
            let above = draft.interactions[middle].rank;
            let below = |i: &&mut draft::Interaction| i.rank >> middle & 1 == 1;
            for interaction in draft.interactions.iter_mut().filter(below) {
                interaction.rank |= above;
            }
        }
        draft.bytes()
    }
}
