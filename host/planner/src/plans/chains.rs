//! Sixty-four interactions in one chain of ranks, all of them enabled in every state; plans by which of them end good, every one, the lowest
//! alone or none, and by how the chain is numbered.
//!
//! Components: four bays that are free. Interaction i is port i % 16 of bay i / 16. One that ends good leaves the bay free; any other blocks it,
//! which is forbidden. Where i lies below every j above it and all end good a settling commits 63. Where the lowest alone does, each settling
//! makes all sixty-four moves and commits 0, and a clerk has to try the others first, from the top down. Where none does, it makes them all and
//! answers penned. In the turned chain 0 is the lowest, then 63, 62 and so on up to 1.

use crate::code::{Code, Op};
use crate::plan::{Component, Interaction, Plan};

const BAYS: usize = 4;
const PORTS: u8 = 16;
// Locations of a bay.
const FREE: u8 = 0;
const BLOCKED: u8 = 1;

pub fn all_good() -> Plan {
    plan(66, |_| true, upwards())
}

pub fn lowest_good() -> Plan {
    plan(65, |i| i == 0, upwards())
}

pub fn none_good() -> Plan {
    plan(67, |_| false, upwards())
}

pub fn none_good_turned() -> Plan {
    let order = [0].into_iter().chain((1..64).rev());
    plan(68, |_| false, order.collect())
}

fn upwards() -> Vec<usize> {
    (0..64).collect()
}

/// The order has the interactions from the lowest rank up.
fn plan(number: u32, ends_good: fn(usize) -> bool, order: Vec<usize>) -> Plan {
    let mut plan = Plan::new(number);
    let bays = [0; BAYS].map(|_| plan.component(2, FREE, PORTS));
    let mut moves: Vec<Interaction> = Vec::new();
    for bay in bays {
        for port in 0..PORTS {
            let end = if ends_good(moves.len()) {
                FREE
            } else {
                BLOCKED
            };
            plan.step(bay, (FREE, port, end));
            moves.push(plan.meet(&[(bay, port)]));
        }
    }
    for pair in order.windows(2) {
        plan.below(moves[pair[0]], moves[pair[1]]);
    }
    plan.proposition(any_blocked(&bays));
    plan.never_any_proposition();
    plan
}

fn any_blocked(bays: &[Component; BAYS]) -> Code {
    let first = Code::new().at(bays[0], BLOCKED);
    let or = |code: Code, bay: &Component| code.at(*bay, BLOCKED).op(Op::Or);
    bays[1..].iter().fold(first, or)
}
