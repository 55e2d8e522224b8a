//! What the reference says of a move: how it ends, and why it is not enabled.

use reference::code;
use reference::lane::Lane;
use reference::plan::{Plan, Transition};

use crate::expression;
use crate::tables::Tables;
use crate::text::{list, oracle_state, verdict};

/// The state of each oracle with its verdict.
pub fn verdicts(plan: &Plan, lane: &Lane) -> String {
    let states = lane.oracles.iter().enumerate();
    let told = states.map(|(n, &state)| {
        let verdict = verdict(plan.oracles[n][state].verdict);
        format!("{}, {verdict}", oracle_state(n, state))
    });
    Vec::from_iter(told).join("; ")
}

/// The first cause for which an interaction is not enabled.
pub fn not_enabled(plan: &Plan, tables: &Tables, lane: &Lane, number: usize) -> String {
    let interaction = &plan.interactions[number];
    if !code::holds(plan, interaction.guard, lane) {
        let words = tables.interactions[number].guard.words(&tables.code);
        let guard = words.and_then(expression::read);
        return format!("its guard is false: {}", list(guard));
    }
    let ports = interaction.ports.iter().enumerate();
    let mut named = ports.filter_map(|(c, port)| port.map(|port| (c, port)));
    let stuck = named.find_map(|(c, port)| no_transition(plan, lane, c, port));
    stuck.unwrap_or_default()
}

/// Why a component cannot go on through a port; none where it can.
fn no_transition(plan: &Plan, lane: &Lane, component: usize, port: usize) -> Option<String> {
    let location = lane.locations[component];
    let here = |t: &&Transition| t.component == component && t.source == location && t.port == port;
    let mut here = plan.transitions.iter().filter(here).peekable();
    let way = format!("from location {location} through port {port}");
    if here.peek().is_none() {
        return Some(format!("component {component} has no transition {way}"));
    }
    let mut guards = here.map(|t| code::holds(plan, t.guard, lane));
    (!guards.any(|holds| holds))
        .then(|| format!("no transition of component {component} {way} has a true guard"))
}
