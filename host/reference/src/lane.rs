//! A lane's state, one move on it, and which moves the ranks let pass.

use std::collections::BTreeSet;

use crate::code;
use crate::plan::{Plan, Transition};

/// A set of interactions.
pub type Moves = BTreeSet<usize>;

/// Whether a lane may be left at a verdict; it may pass through 1 inside a list alone.
pub fn is_good(verdict: u8) -> bool {
    verdict >= 2
}

#[derive(Clone, Debug, PartialEq, Eq)]
pub struct Lane {
    pub locations: Vec<usize>,
    /// For each component the port of its last transition; none yet at the start.
    pub last_ports: Vec<Option<usize>>,
    pub values: Vec<i32>,
    /// The state of each oracle of the plan.
    pub oracles: Vec<usize>,
}

impl Lane {
    /// The starting state with its event read.
    pub fn start(plan: &Plan) -> Lane {
        let mut lane = Lane {
            locations: plan
                .components
                .iter()
                .map(|component| component.start)
                .collect(),
            last_ports: vec![None; plan.components.len()],
            values: plan
                .variables
                .iter()
                .map(|variable| variable.start)
                .collect(),
            oracles: (0..plan.oracles.len())
                .map(|n| if n == 0 { plan.first } else { 0 })
                .collect(),
        };
        lane.read_event(plan);
        lane
    }

    /// The lowest of the oracles' verdicts on the lane.
    pub fn verdict(&self, plan: &Plan) -> u8 {
        let verdicts = plan.oracles.iter().zip(&self.oracles);
        verdicts
            .map(|(oracle, &state)| oracle[state].verdict)
            .min()
            .expect("a plan has an oracle")
    }

    /// Whether the verdict on the lane is 2 or 3.
    pub fn good(&self, plan: &Plan) -> bool {
        is_good(self.verdict(plan))
    }

    pub fn enabled(&self, plan: &Plan) -> Moves {
        (0..plan.interactions.len())
            .filter(|&interaction| self.used(plan, interaction).is_some())
            .collect()
    }

    /// Whether an interaction is enabled and ends in a good state.
    pub fn ends_good(&self, plan: &Plan, interaction: usize) -> bool {
        self.after(plan, interaction)
            .is_some_and(|after| after.good(plan))
    }

    /// The move that settling commits: the lowest-numbered one that is enabled, good, and has no enabled good one above it.
    pub fn settled(&self, plan: &Plan) -> Option<usize> {
        let mut good = self.enabled(plan);
        good.retain(|&interaction| self.ends_good(plan, interaction));
        let mut lowest_first = good.iter().copied();
        lowest_first.find(|&i| !good.iter().any(|&above| plan.below(i, above)))
    }

    /// The lane after an interaction; none where it is not enabled.
    pub fn after(&self, plan: &Plan, interaction: usize) -> Option<Lane> {
        let used = self.used(plan, interaction)?;
        let mut lane = self.clone();
        code::update(plan, plan.interactions[interaction].transfer, &mut lane);
        for transition in &used {
            code::update(plan, transition.action, &mut lane);
        }
        for transition in &used {
            lane.locations[transition.component] = transition.destination;
            lane.last_ports[transition.component] = Some(transition.port);
        }
        lane.read_event(plan);
        Some(lane)
    }

    /// The transition of each component taking part; none where the interaction is not enabled.
    fn used<'a>(&self, plan: &'a Plan, interaction: usize) -> Option<Vec<&'a Transition>> {
        let interaction = &plan.interactions[interaction];
        if !code::holds(plan, interaction.guard, self) {
            return None;
        }
        let taking_part = interaction
            .ports
            .iter()
            .enumerate()
            .filter_map(|(c, port)| port.map(|port| (c, port)));
        taking_part
            .map(|(component, port)| self.transition(plan, component, port))
            .collect()
    }

    /// The lowest-numbered transition that a component has here through a port.
    fn transition<'a>(
        &self,
        plan: &'a Plan,
        component: usize,
        port: usize,
    ) -> Option<&'a Transition> {
        plan.transitions.iter().find(|t| {
            t.component == component
                && t.source == self.locations[component]
                && t.port == port
                && code::holds(plan, t.guard, self)
        })
    }

    /// Every oracle reads the letter of the state.
    fn read_event(&mut self, plan: &Plan) {
        let bit = |(k, &proposition)| usize::from(code::holds(plan, proposition, self)) << k;
        let letter: usize = plan.propositions.iter().enumerate().map(bit).sum();
        for (oracle, state) in plan.oracles.iter().zip(&mut self.oracles) {
            *state = oracle[*state].next[letter];
        }
    }
}

/// Whether an enabled, unmarked interaction lies above this one.
pub fn outranked(plan: &Plan, enabled: &Moves, marked: &Moves, interaction: usize) -> bool {
    let mut unmarked = enabled.difference(marked);
    unmarked.any(|&above| plan.below(interaction, above))
}

/// The moves on offer: enabled, not outranked, unmarked.
pub fn offered(plan: &Plan, enabled: &Moves, marked: &Moves) -> Moves {
    let unmarked = enabled.difference(marked).copied();
    unmarked
        .filter(|&interaction| !outranked(plan, enabled, marked, interaction))
        .collect()
}
