//! The dining philosophers of 002, section 7.2 (Fig. 10), kept from the deadlock in which each holds one fork.
//!
//! Components 0 to n-1 are the philosophers, n to 2n-1 the forks. Fork i is right of philosopher i and left of
//! philosopher i-1. Interactions i, n+i and 2n+i: philosopher i takes the right fork, the left fork, lays both down.

use crate::code::{Code, Op};
use crate::plan::{Component, Plan};

// Locations of a philosopher: no fork, the right one, both.
const INIT: u8 = 0;
const R: u8 = 1;
const RL: u8 = 2;
// Ports of a philosopher.
const GET_R: u8 = 0;
const GET_L: u8 = 1;
const RELEASE: u8 = 2;
// Locations and ports of a fork.
const FREE: u8 = 0;
const BUSY: u8 = 1;
const FORK_GET: u8 = 0;
const FORK_RELEASE: u8 = 1;

pub fn plan(n: usize) -> Plan {
    let mut plan = Plan::new(n as u32);
    let philosophers: Vec<Component> = (0..n).map(|_| plan.component(3, INIT, 3)).collect();
    let forks: Vec<Component> = (0..n).map(|_| plan.component(2, FREE, 2)).collect();
    for philosopher in &philosophers {
        plan.step(*philosopher, (INIT, GET_R, R));
        plan.step(*philosopher, (R, GET_L, RL));
        plan.step(*philosopher, (RL, RELEASE, INIT));
    }
    for fork in &forks {
        plan.step(*fork, (FREE, FORK_GET, BUSY));
        plan.step(*fork, (BUSY, FORK_RELEASE, FREE));
    }
    let left = |i: usize| forks[(i + 1) % n];
    for i in 0..n {
        plan.meet(&[(philosophers[i], GET_R), (forks[i], FORK_GET)]);
    }
    for i in 0..n {
        plan.meet(&[(philosophers[i], GET_L), (left(i), FORK_GET)]);
    }
    for i in 0..n {
        plan.meet(&[
            (philosophers[i], RELEASE),
            (forks[i], FORK_RELEASE),
            (left(i), FORK_RELEASE),
        ]);
    }
    plan.proposition(deadlock(&philosophers));
    plan.never_any_proposition();
    plan
}

/// Every philosopher is at R.
fn deadlock(philosophers: &[Component]) -> Code {
    let first = Code::new().at(philosophers[0], R);
    philosophers[1..]
        .iter()
        .fold(first, |all, one| all.at(*one, R).op(Op::And))
}
