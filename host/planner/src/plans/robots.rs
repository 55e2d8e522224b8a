//! The robots of 002, section 7.3 (Fig. 12): three on a map of n by n, kept from standing on one place.
//!
//! Components: 0 to 2 the robots, 3 to 5 their local controllers, 6 the global controller. Variables: x, y and moves
//! left of each robot, then each local controller's 1,000 moves, then the number of active robots. Interactions:
//! 6r and 6r+1 start and stop robot r, 6r+2 to 6r+5 move it up, down, left and right.
//!
//! From 002: local controllers start and stop the robots, a started robot makes 1,000 moves, the global controller
//! counts the active robots, the invariant. Chosen here: start and stop are one interaction each of a robot and both
//! its controllers, guards keep a robot on the map, and the robots begin in three corners. Left out: the random
//! choice of a move, which is the caller's. The lane is never penned: some robot can start, stop, or step on a free
//! place beside it.

use crate::code::{Code, Op};
use crate::plan::{Component, Plan, Variable};

// Locations of robots and local controllers.
const IDLE: u8 = 0;
const ACTIVE: u8 = 1;
// Ports: start and stop of all three kinds of component, and the four moves of a robot.
const START: u8 = 0;
const STOP: u8 = 1;
const UP: u8 = 2;
const DOWN: u8 = 3;
const LEFT: u8 = 4;
const RIGHT: u8 = 5;
/// Moves to a start.
const MOVES: i32 = 1000;

struct Robot {
    component: Component,
    x: Variable,
    y: Variable,
    left: Variable,
}

pub fn plan(n: i32) -> Plan {
    let mut plan = Plan::new(1000 + n as u32);
    let components = [0; 3].map(|_| plan.component(2, IDLE, 6));
    let locals = [0; 3].map(|_| plan.component(2, IDLE, 2));
    let global = plan.component(1, 0, 2);
    let corners = [(0, 0), (n - 1, n - 1), (0, n - 1)];
    let robots = [0, 1, 2].map(|r| robot(&mut plan, components[r], corners[r]));
    let quotas = locals.map(|local| plan.variable(local, MOVES));
    for robot in &robots {
        moves(&mut plan, robot, n);
    }
    for local in locals {
        plan.step(local, (IDLE, START, ACTIVE));
        plan.step(local, (ACTIVE, STOP, IDLE));
    }
    count_active(&mut plan, global);
    for (robot, (local, quota)) in robots.iter().zip(locals.into_iter().zip(quotas)) {
        let all = |port| [(robot.component, port), (local, port), (global, port)];
        plan.interaction(
            &all(START),
            Code::new(),
            Code::new().var(quota).store(robot.left),
        );
        plan.meet(&all(STOP));
        for port in [UP, DOWN, LEFT, RIGHT] {
            plan.meet(&[(robot.component, port)]);
        }
    }
    for (a, b) in [(0, 1), (0, 2), (1, 2)] {
        plan.proposition(collision(&robots[a], &robots[b]));
    }
    plan.never_any_proposition();
    plan
}

fn robot(plan: &mut Plan, component: Component, (x, y): (i32, i32)) -> Robot {
    let [x, y, left] = [x, y, 0].map(|start| plan.variable(component, start));
    Robot {
        component,
        x,
        y,
        left,
    }
}

/// Start, stop once no moves are left, and the four moves inside the map.
fn moves(plan: &mut Plan, robot: &Robot, n: i32) {
    let Robot {
        component,
        x,
        y,
        left,
    } = *robot;
    plan.step(component, (IDLE, START, ACTIVE));
    let done = Code::new().var(left).int(0).op(Op::Equal);
    plan.transition(component, (ACTIVE, STOP, IDLE), done, Code::new());
    for (port, along, by) in [(UP, y, 1), (DOWN, y, -1), (LEFT, x, -1), (RIGHT, x, 1)] {
        let edge = if by < 0 { 0 } else { n - 1 };
        let inside = Code::new().var(along).int(edge).op(Op::Equal).op(Op::Not);
        let guard = inside.join(Code::new().var(left).int(1).op(Op::AtLeast), Op::And);
        let action = Code::new().grow(along, by).grow(left, -1);
        plan.transition(component, (ACTIVE, port, ACTIVE), guard, action);
    }
}

/// The global controller counts the active robots.
fn count_active(plan: &mut Plan, global: Component) {
    let active = plan.variable(global, 0);
    plan.transition(
        global,
        (0, START, 0),
        Code::new(),
        Code::new().grow(active, 1),
    );
    plan.transition(
        global,
        (0, STOP, 0),
        Code::new(),
        Code::new().grow(active, -1),
    );
}

/// Both coordinates equal.
fn collision(a: &Robot, b: &Robot) -> Code {
    let same = |v: Variable, w: Variable| Code::new().var(v).var(w).op(Op::Equal);
    same(a.x, b.x).join(same(a.y, b.y), Op::And)
}
