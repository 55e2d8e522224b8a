//! What code words name: variables, components, locations and ports.

use super::site::{Site, Whose};
use super::Wrong;
use crate::faults::components::{has_locations, has_ports};
use crate::judged::{Judged, NO_PORT};
use crate::text::{bits, counted, list, one_below};
use crate::words::Word;

/// Whether a word alone is a lawful proposition.
pub fn is_proposition(judged: &Judged, word: u16) -> bool {
    match Word::of(word) {
        Word::Push(_) => true,
        Word::Load(variable) => variable < judged.owners.len(),
        Word::At { .. } | Word::Last { .. } => wrong_test(judged, word).is_none(),
        _ => false,
    }
}

/// What is wrong with the name in a word that may stand in the span.
pub fn wrong(judged: &Judged, site: &Site, word: u16) -> Option<Wrong> {
    match Word::of(word) {
        Word::Load(variable) | Word::Store(variable) => {
            wrong_variable(judged, site, word, variable)
        }
        Word::At { .. } | Word::Last { .. } => wrong_test(judged, word),
        _ => None,
    }
}

fn wrong_variable(judged: &Judged, site: &Site, word: u16, variable: usize) -> Option<Wrong> {
    let owner = judged.owners.get(variable);
    if owner.is_some_and(|&owner| site.may_name(owner)) {
        return None;
    }
    let text = match owner {
        None => {
            let has = counted(judged.owners.len(), "variable");
            format!("names v{variable}, but the plan has {has}")
        }
        Some(owner) => format!(
            "names v{variable} of component {owner}, but {}",
            allowed(site)
        ),
    };
    let owners = judged.owners.iter().enumerate();
    let may_name: Vec<usize> = owners
        .filter(|&(_, &owner)| site.may_name(owner))
        .map(|(n, _)| n)
        .collect();
    let instead = may_name.first().map(|&n| word & 0xf000 | n as u16);
    let cure = match may_name.is_empty() {
        true => "another word: there is no variable to name here".to_string(),
        false => format!(
            "name one of: {}",
            list(may_name.iter().map(|n| format!("v{n}")))
        ),
    };
    Some(Wrong {
        text,
        cure,
        instead,
    })
}

fn allowed(site: &Site) -> String {
    match site.whose {
        Whose::Transition(_, component) => {
            format!("the transition is of component {component} and names its variables alone")
        }
        Whose::Interaction(_, parts) => {
            let parts = list(bits(parts.into()));
            format!("an interaction names variables of components taking part alone (here {parts})")
        }
        Whose::Proposition(_) => "a proposition names any".to_string(),
    }
}

/// What is wrong with a test of a location or of a last port.
fn wrong_test(judged: &Judged, word: u16) -> Option<Wrong> {
    let (component, low, most) = match Word::of(word) {
        Word::At {
            component,
            location,
        } => (component, location, judged.locations.get(component)),
        Word::Last { component, port } => (component, port, judged.ports.get(component)),
        _ => return None,
    };
    let is_port = word >> 12 == 5;
    let Some(&most) = most else {
        let components = judged.ports.len();
        let has = counted(components, "component");
        return Some(Wrong {
            text: format!("names component {component}, but the plan has {has}"),
            cure: one_below("component", components),
            instead: Some(word & 0xf000),
        });
    };
    if usize::from(low) < most || is_port && low == NO_PORT {
        return None;
    }
    let (name, has, none) = match is_port {
        true => (
            "port",
            has_ports(judged, component),
            ", or 255 for none yet",
        ),
        false => ("location", has_locations(judged, component), ""),
    };
    Some(Wrong {
        text: format!("names {name} {low} of component {component}, but {has}"),
        cure: format!("{}{none}", one_below(name, most)),
        instead: Some(word & 0xff00),
    })
}
