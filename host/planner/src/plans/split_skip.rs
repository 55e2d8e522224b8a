//! A skip of two halves, which are tipped and weighed one after the other. While one half alone is weighed the ticket is wrong, but only until the
//! second one is.
//!
//! Components: 0 the skip, 1 the scale. Variables: 0 and 1 what is in the left and the right half, 2 and 3 what the ticket says of each. Interactions:
//! 0 tip and weigh the left half, 1 the right half, 2 arrive, 3 leave. Ranks: leaving lies below tipping.
//!
//! Oracle: once one half alone is weighed, verdict 1, the next move is to weigh the other one. So settling and tries never empty the skip: it comes
//! and leaves full. A list of both halves empties it.

use crate::code::{Code, Op};
use crate::plan::{Component, Plan, Variable, Verdict};

// Locations of the skip.
const AWAY: u8 = 0;
const STANDING: u8 = 1;
// Ports of the skip; the first two are the halves.
const LEFT: u8 = 0;
const RIGHT: u8 = 1;
const ARRIVE: u8 = 2;
const LEAVE: u8 = 3;
// Ports of the scale, which has one location.
const WEIGH: u8 = 0;
const NEW_TICKET: u8 = 1;
/// What a full skip has in each half.
const KILOS: [i32; 2] = [1240, 860];

pub fn plan() -> Plan {
    let mut plan = Plan::new(60);
    let skip = plan.component(2, AWAY, 4);
    let scale = plan.component(1, 0, 2);
    let load = [0, 0].map(|start| plan.variable(skip, start));
    let ticket = [0, 0].map(|start| plan.variable(scale, start));
    skip_moves(&mut plan, skip, load);
    plan.step(scale, (0, WEIGH, 0));
    plan.transition(scale, (0, NEW_TICKET, 0), Code::new(), set(ticket, [0, 0]));
    let tips = [(LEFT, load[0], ticket[0]), (RIGHT, load[1], ticket[1])].map(|(half, from, to)| {
        let weighed = Code::new().var(from).store(to);
        plan.interaction(&[(skip, half), (scale, WEIGH)], Code::new(), weighed)
    });
    plan.meet(&[(skip, ARRIVE), (scale, NEW_TICKET)]);
    let leave = plan.meet(&[(skip, LEAVE)]);
    for tip in tips {
        plan.below(leave, tip);
    }
    plan.proposition(one_alone(ticket));
    half_weighed(&mut plan);
    plan
}

fn skip_moves(plan: &mut Plan, skip: Component, load: [Variable; 2]) {
    for (port, half) in [LEFT, RIGHT].into_iter().zip(load) {
        let laden = Code::new().var(half).int(1).op(Op::AtLeast);
        plan.transition(skip, (STANDING, port, STANDING), laden, set([half], [0]));
    }
    let filled = set(load, KILOS);
    plan.transition(skip, (AWAY, ARRIVE, STANDING), Code::new(), filled);
    plan.step(skip, (STANDING, LEAVE, AWAY));
}

/// Sets each variable to its number.
fn set<const N: usize>(variables: [Variable; N], numbers: [i32; N]) -> Code {
    let numbered = variables.into_iter().zip(numbers);
    numbered.fold(Code::new(), |code, (v, n)| code.int(n).store(v))
}

/// Whether one half of a ticket is empty and the other is not.
fn one_alone(ticket: [Variable; 2]) -> Code {
    let [left, right] = ticket.map(|half| Code::new().var(half).int(0).op(Op::Equal));
    left.join(right, Op::Equal).op(Op::Not)
}

/// Letter 1: one half alone is weighed.
fn half_weighed(plan: &mut Plan) {
    const EVEN: u8 = 0;
    const ONE_HALF: u8 = 1;
    const WRONG: u8 = 2;
    plan.oracle_state(Verdict::CurrentlyTrue, vec![EVEN, ONE_HALF]);
    plan.oracle_state(Verdict::CurrentlyFalse, vec![EVEN, WRONG]);
    plan.oracle_state(Verdict::Bad, vec![WRONG; 2]);
}
