//! The places of code: guards, actions, transfers and propositions.

use crate::judged::Judged;
use crate::tables::Span;

#[derive(Clone, Copy, Debug, PartialEq, Eq)]
pub enum Role {
    Guard,
    Action,
    Transfer,
    Proposition,
}

impl Role {
    pub fn name(self) -> &'static str {
        match self {
            Role::Guard => "guard",
            Role::Action => "action",
            Role::Transfer => "transfer",
            Role::Proposition => "proposition",
        }
    }

    pub fn stores(self) -> bool {
        matches!(self, Role::Action | Role::Transfer)
    }
}

/// Whose code it is, which says what variables it may name.
#[derive(Clone, Copy, Debug, PartialEq, Eq)]
pub enum Whose {
    /// A transition, with its component.
    Transition(usize, usize),
    /// An interaction, with bit c for each component taking part.
    Interaction(usize, u16),
    Proposition(usize),
}

#[derive(Clone, Debug)]
pub struct Site {
    pub whose: Whose,
    pub role: Role,
    pub span: Span,
}

impl Site {
    /// "transition 2, guard"
    pub fn name(&self) -> String {
        let role = self.role.name();
        match self.whose {
            Whose::Transition(n, _) => format!("transition {n}, {role}"),
            Whose::Interaction(n, _) => format!("interaction {n}, {role}"),
            Whose::Proposition(n) => format!("proposition {n}"),
        }
    }

    /// Whether variables of this owner may be named.
    pub fn may_name(&self, owner: usize) -> bool {
        match self.whose {
            Whose::Transition(_, component) => owner == component,
            Whose::Interaction(_, parts) => parts >> owner & 1 == 1,
            Whose::Proposition(_) => true,
        }
    }
}

/// All spans of a plan, in the order of its records.
pub fn all(judged: &Judged) -> Vec<Site> {
    let tables = &judged.tables;
    let mut sites = Vec::new();
    let mut add = |whose, role, span| sites.push(Site { whose, role, span });
    for (n, t) in tables.transitions.iter().enumerate() {
        let whose = Whose::Transition(n, judged.components[n]);
        add(whose, Role::Guard, t.guard);
        add(whose, Role::Action, t.action);
    }
    for (n, i) in tables.interactions.iter().enumerate() {
        let whose = Whose::Interaction(n, judged.parts[n]);
        add(whose, Role::Guard, i.guard);
        add(whose, Role::Transfer, i.transfer);
    }
    for (n, &span) in tables.propositions.iter().enumerate() {
        add(Whose::Proposition(n), Role::Proposition, span);
    }
    sites
}
