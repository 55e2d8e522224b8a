//! The sample lane of 01: a scale that must not weigh a load it has not tared.

use crate::code::{Code, Op};
use crate::plan::Plan;

// Locations of the scale.
const EMPTY: u8 = 0;
const TARED: u8 = 1;
const WEIGHED: u8 = 2;
// Ports of the scale.
const TARE: u8 = 0;
const GROSS: u8 = 1;
const LEAVE: u8 = 2;

pub fn plan() -> Plan {
    let mut plan = Plan::new(7);
    let scale = plan.component(3, EMPTY, 3);
    let tare = plan.variable(scale, 0);
    plan.step(scale, (EMPTY, GROSS, WEIGHED));
    plan.transition(
        scale,
        (EMPTY, TARE, TARED),
        Code::new(),
        Code::new().int(9000).store(tare),
    );
    plan.step(scale, (TARED, GROSS, WEIGHED));
    plan.transition(
        scale,
        (WEIGHED, LEAVE, EMPTY),
        Code::new(),
        Code::new().int(0).store(tare),
    );
    for port in [GROSS, TARE, LEAVE] {
        plan.meet(&[(scale, port)]);
    }
    // Weighed with no tare.
    plan.proposition(
        Code::new()
            .at(scale, WEIGHED)
            .var(tare)
            .int(0)
            .op(Op::Equal)
            .op(Op::And),
    );
    plan.never_any_proposition();
    plan
}
