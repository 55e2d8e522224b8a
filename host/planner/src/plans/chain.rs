//! Sixty-four interactions in one chain of ranks: i lies below every j above it.
//!
//! Component c has switches 4c to 4c+3 (variables of these numbers). Interaction i, from 1 up, sets switch i while
//! it is not set; interaction 0 is shared by all components and clears every switch. So settling commits 63, 62 and
//! so on down to 0, and begins again.

use crate::code::{Code, Op};
use crate::plan::{Component, Plan, Variable, Verdict};

/// Ports 0 to 3 set a switch, this one clears all.
const CLEAR: u8 = 4;

pub fn plan() -> Plan {
    let mut plan = Plan::new(64);
    let components: Vec<Component> = (0..16).map(|_| plan.component(1, 0, 5)).collect();
    for component in &components {
        switches(&mut plan, *component);
    }
    let all: Vec<(Component, u8)> = components.iter().map(|c| (*c, CLEAR)).collect();
    let mut chain = vec![plan.meet(&all)];
    for i in 1..64 {
        chain.push(plan.meet(&[(components[i / 4], (i % 4) as u8)]));
    }
    for pair in chain.windows(2) {
        plan.below(pair[0], pair[1]);
    }
    // No property.
    plan.oracle_state(Verdict::TrueForGood, vec![0]);
    plan
}

fn switches(plan: &mut Plan, component: Component) {
    let switches: [Variable; 4] = [0; 4].map(|_| plan.variable(component, 0));
    for (port, switch) in switches.into_iter().enumerate() {
        let unset = Code::new().var(switch).op(Op::Not);
        plan.transition(
            component,
            (0, port as u8, 0),
            unset,
            Code::new().int(1).store(switch),
        );
    }
    let clear = switches
        .into_iter()
        .fold(Code::new(), |code, switch| code.int(0).store(switch));
    plan.transition(component, (0, CLEAR, 0), Code::new(), clear);
}
