//! A bale belt before the clean stock of a depot that calls a wet bale contaminated.
//!
//! Components: 0 the belt, 1 the clean stock. Variables: 0 the weight of the bale on the belt, once it is weighed,
//! 1 whether it is wet; 2 the bales in stock, 3 the weight of the last one taken, 4 the weight of all. Interactions:
//! 0 store, 1 weigh, 2 dry, 3 and 4 bring a wet and a dry bale, 5 ship. Drying takes water out, so the bale is weighed
//! anew.
//!
//! Oracles: the first is the common one, by which no bale is stored unweighed. The depot's own is added: no bale is
//! stored that was wet before the move.

use crate::code::{Code, Op};
use crate::plan::{Component, Plan, Variable, Verdict};

// Locations of the belt.
const EMPTY: u8 = 0;
const LADEN: u8 = 1;
// Ports of the belt.
const STORE: u8 = 0;
const WEIGH: u8 = 1;
const DRY: u8 = 2;
const BRING_WET: u8 = 3;
const BRING_DRY: u8 = 4;
// Ports of the stock, which has one location.
const TAKE: u8 = 0;
const SHIP: u8 = 1;
/// Bales that the stock has room for.
const ROOM: i32 = 4;
// Weights of a bale.
const WET_KILOS: i32 = 570;
const DRY_KILOS: i32 = 450;

/// The lane under both rules.
pub fn plan() -> Plan {
    let mut plan = lane(41);
    plan.added_oracle(no_wet_bale_stored());
    plan
}

/// The same lane under the common rule alone.
pub fn common() -> Plan {
    lane(40)
}

fn lane(number: u32) -> Plan {
    let mut plan = Plan::new(number);
    let belt = plan.component(2, EMPTY, 5);
    let stock = plan.component(1, 0, 2);
    let [weight, wet] = [0, 0].map(|start| plan.variable(belt, start));
    let [bales, last, all] = [0, 0, 0].map(|start| plan.variable(stock, start));
    belt_moves(&mut plan, belt, weight, wet);
    stock_moves(&mut plan, stock, bales, all);
    let transfer = Code::new().var(weight).store(last);
    let transfer = transfer.var(all).var(weight).op(Op::Add).store(all);
    plan.interaction(&[(belt, STORE), (stock, TAKE)], Code::new(), transfer);
    for port in [WEIGH, DRY, BRING_WET, BRING_DRY] {
        plan.meet(&[(belt, port)]);
    }
    plan.meet(&[(stock, SHIP)]);
    let unweighed = Code::new().last(stock, TAKE).join(is(last, 0), Op::And);
    plan.proposition(unweighed);
    plan.proposition(Code::new().var(wet));
    plan.proposition(Code::new().last(belt, STORE));
    plan.never(0b001);
    plan
}

fn is(variable: Variable, n: i32) -> Code {
    Code::new().var(variable).int(n).op(Op::Equal)
}

fn belt_moves(plan: &mut Plan, belt: Component, weight: Variable, wet: Variable) {
    let set = |v: Variable, n: i32| Code::new().int(n).store(v);
    let cleared = set(weight, 0).then(&set(wet, 0));
    plan.step(belt, (EMPTY, BRING_DRY, LADEN));
    plan.transition(belt, (EMPTY, BRING_WET, LADEN), Code::new(), set(wet, 1));
    for (wetness, kilos) in [(1, WET_KILOS), (0, DRY_KILOS)] {
        let guard = is(weight, 0).join(is(wet, wetness), Op::And);
        plan.transition(belt, (LADEN, WEIGH, LADEN), guard, set(weight, kilos));
    }
    plan.transition(belt, (LADEN, DRY, LADEN), is(wet, 1), cleared.clone());
    plan.transition(belt, (LADEN, STORE, EMPTY), Code::new(), cleared);
}

/// Takes a bale while there is room, and ships all.
fn stock_moves(plan: &mut Plan, stock: Component, bales: Variable, all: Variable) {
    let room = Code::new().int(ROOM - 1).var(bales).op(Op::AtLeast);
    plan.transition(stock, (0, TAKE, 0), room, Code::new().grow(bales, 1));
    let any = Code::new().var(bales).int(1).op(Op::AtLeast);
    let shipped = Code::new().int(0).store(bales).int(0).store(all);
    plan.transition(stock, (0, SHIP, 0), any, shipped);
}

/// Letters: bit 1 the bale on the belt is wet, bit 2 the belt's last move stored a bale.
fn no_wet_bale_stored() -> Vec<(Verdict, Vec<u8>)> {
    const NOT_WET: u8 = 0;
    const WET: u8 = 1;
    const CONTAMINATED: u8 = 2;
    let seen = |letter: u8| match letter & 0b010 {
        0 => NOT_WET,
        _ => WET,
    };
    let after_wet = |letter: u8| match letter & 0b100 {
        0 => seen(letter),
        _ => CONTAMINATED,
    };
    vec![
        (Verdict::CurrentlyTrue, (0..8).map(seen).collect()),
        (Verdict::CurrentlyTrue, (0..8).map(after_wet).collect()),
        (Verdict::Bad, vec![CONTAMINATED; 8]),
    ]
}
