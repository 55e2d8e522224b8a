//! The two tasks under a controller of 000 (examples 2 to 6): task executions alternate, task 2 first.
//!
//! Components: 0 task 1, 1 controller, 2 task 2. Interactions: 0 and 1 start of task 1 and 2, 2 and 3 exec,
//! 4 and 5 finish, 6 and 7 fail, 8 and 9 reset; start, finish and fail are shared with the controller.
//!
//! Ranks: 000 sets the start connectors above the others. Its example of start 1 below start 2 is left out: where start 1
//! is due, start 2 is enabled and bad, and would have to be tried first. Exec and reset are in no connector and in no rank.
//!
//! Oracle: Fig. 4's monitor with each of its two good states split by whether the awaited start still shows as a last
//! port, so that a start seen twice counts once. This gives example 6's verdicts on example 5's run.

use crate::code::Code;
use crate::plan::{Component, Interaction, Plan, Verdict};

// Locations of a task: waiting, started, executed, failed.
const L0: u8 = 0;
const L1: u8 = 1;
const L2: u8 = 2;
const L3: u8 = 3;
// Ports of a task; the controller has the first three at IDLE and BUSY.
const START: u8 = 0;
const FINISH: u8 = 1;
const FAIL: u8 = 2;
const EXEC: u8 = 3;
const RESET: u8 = 4;
// Locations of the controller.
const IDLE: u8 = 0;
const BUSY: u8 = 1;

pub fn plan() -> Plan {
    let mut plan = Plan::new(20);
    let task1 = task(&mut plan);
    let controller = controller(&mut plan);
    let task2 = task(&mut plan);
    let both = [task1, task2];
    let starts = both.map(|task| plan.meet(&[(task, START), (controller, START)]));
    for task in both {
        plan.meet(&[(task, EXEC)]);
    }
    let finishes = both.map(|task| plan.meet(&[(task, FINISH), (controller, FINISH)]));
    let fails = both.map(|task| plan.meet(&[(task, FAIL), (controller, FAIL)]));
    for task in both {
        plan.meet(&[(task, RESET)]);
    }
    rank(&mut plan, &[finishes, fails].concat(), &starts);
    plan.proposition(Code::new().last(task1, START));
    plan.proposition(Code::new().last(task2, START));
    alternation(&mut plan);
    plan
}

fn task(plan: &mut Plan) -> Component {
    let task = plan.component(4, L0, 5);
    for arc in [
        (L0, START, L1),
        (L1, EXEC, L2),
        (L2, FINISH, L0),
        (L2, FAIL, L3),
        (L3, RESET, L0),
    ] {
        plan.step(task, arc);
    }
    task
}

fn controller(plan: &mut Plan) -> Component {
    let controller = plan.component(2, IDLE, 3);
    let counter = plan.variable(controller, 0);
    plan.transition(
        controller,
        (IDLE, START, BUSY),
        Code::new(),
        Code::new().grow(counter, 1),
    );
    plan.step(controller, (BUSY, FINISH, IDLE));
    plan.step(controller, (BUSY, FAIL, IDLE));
    controller
}

fn rank(plan: &mut Plan, lower: &[Interaction], upper: &[Interaction]) {
    for low in lower {
        for high in upper {
            plan.below(*low, *high);
        }
    }
}

/// Letters: bit 0 start 1 shows, bit 1 start 2 shows; both at once never do, and are bad.
fn alternation(plan: &mut Plan) {
    const AWAIT_2: u8 = 0;
    const STARTED_2: u8 = 1;
    const AWAIT_1: u8 = 2;
    const STARTED_1: u8 = 3;
    const BROKEN: u8 = 4;
    for next in [
        [AWAIT_2, BROKEN, STARTED_2, BROKEN],
        [AWAIT_1, STARTED_1, STARTED_2, BROKEN],
        [AWAIT_1, STARTED_1, BROKEN, BROKEN],
        [AWAIT_2, STARTED_1, STARTED_2, BROKEN],
    ] {
        plan.oracle_state(Verdict::CurrentlyTrue, next.to_vec());
    }
    plan.oracle_state(Verdict::Bad, vec![BROKEN; 4]);
}
