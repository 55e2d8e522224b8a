//! A stock ledger in grams, whose guards, actions and transfers add up long columns of weights.
//!
//! Components: 0 to 3 the bays, 4 the books. Variables: 6b to 6b+5 the piles of bay b, one for each material, 24 the
//! stock by the books. Interactions: 2b and 2b+1 bay b takes delivery 0 and 1, 8+b bay b is shipped.
//!
//! A delivery is six lorries, one for each material, each weighed laden and empty. A bay takes it while its floor
//! bears the weight, and is shipped whole once it holds enough. Forbidden: a yard that holds more than it bears, and
//! books that differ from the piles. The lane is never penned: where no delivery is let in, some bay holds enough.
//!
//! Every sum stays within the 2,147 tonnes at which sums stop.

use crate::code::{Code, Op};
use crate::plan::{Component, Plan, Variable};

const BAYS: usize = 4;
const MATERIALS: usize = 6;
// Ports of a bay, which has one location; the ports below this one take deliveries.
const SHIP: u8 = 2;
/// The one port of the books, which take part in every move.
const ENTER: u8 = 0;
const TONNE: i32 = 1_000_000;
/// What the floor of a bay bears.
const FLOOR: i32 = 600 * TONNE;
/// What a bay must hold to be shipped.
const SHIPMENT: i32 = 300 * TONNE;
/// What the yard bears, and a gram.
const TOO_MUCH: i32 = 1_500 * TONNE + 1;

/// A lorry's weights, laden and empty.
type Lorry = (i32, i32);
const DELIVERIES: [[Lorry; MATERIALS]; 2] = [
    [
        (41_260_500, 17_340_000),
        (43_180_000, 17_920_500),
        (39_975_250, 16_980_750),
        (42_410_000, 18_105_000),
        (40_030_500, 17_055_250),
        (43_890_750, 18_240_500),
    ],
    [
        (38_720_000, 17_410_250),
        (42_065_500, 18_330_000),
        (40_550_250, 17_125_500),
        (37_915_000, 16_890_500),
        (41_880_750, 17_760_000),
        (39_240_500, 17_505_750),
    ],
];

pub fn plan() -> Plan {
    let mut plan = Plan::new(50);
    let bays = [0; BAYS].map(|_| plan.component(1, 0, 3));
    let books = plan.component(1, 0, 1);
    let piles = bays.map(|bay| [0; MATERIALS].map(|start| plan.variable(bay, start)));
    let stock = plan.variable(books, 0);
    for (bay, piles) in bays.into_iter().zip(&piles) {
        bay_moves(&mut plan, bay, piles);
    }
    plan.step(books, (0, ENTER, 0));
    for (bay, piles) in bays.into_iter().zip(&piles) {
        for (port, lorries) in DELIVERIES.iter().enumerate() {
            let entered = lorries.iter().fold(Code::new().var(stock), add_load);
            let parts = [(bay, port as u8), (books, ENTER)];
            plan.interaction(&parts, covered(stock, piles), entered.store(stock));
        }
    }
    for (bay, piles) in bays.into_iter().zip(&piles) {
        let less = |code: Code, pile: &Variable| code.var(*pile).op(Op::Subtract);
        let shipped = piles.iter().fold(Code::new().var(stock), less);
        let parts = [(bay, SHIP), (books, ENTER)];
        plan.interaction(&parts, covered(stock, piles), shipped.store(stock));
    }
    let all = column(piles.as_flattened());
    plan.proposition(all.clone().int(TOO_MUCH).op(Op::AtLeast));
    plan.proposition(all.var(stock).op(Op::Equal).op(Op::Not));
    plan.never_any_proposition();
    plan
}

/// The piles together.
fn column(piles: &[Variable]) -> Code {
    let first = Code::new().var(piles[0]);
    let add = |code: Code, pile: &Variable| code.var(*pile).op(Op::Add);
    piles[1..].iter().fold(first, add)
}

/// Adds what a lorry brought: laden less empty.
fn add_load(code: Code, &(laden, empty): &Lorry) -> Code {
    code.int(laden).op(Op::Add).int(empty).op(Op::Subtract)
}

/// The books hold at least what lies in the bay.
fn covered(stock: Variable, piles: &[Variable]) -> Code {
    Code::new().var(stock).join(column(piles), Op::AtLeast)
}

/// Takes each delivery that the floor bears, and ships all piles.
fn bay_moves(plan: &mut Plan, bay: Component, piles: &[Variable; MATERIALS]) {
    for (port, lorries) in DELIVERIES.iter().enumerate() {
        let laden = lorries.iter().fold(column(piles), add_load);
        let room = Code::new().int(FLOOR).join(laden, Op::AtLeast);
        let tip = |code: Code, (pile, lorry)| add_load(code.var(pile), lorry).store(pile);
        let tipped = piles.iter().copied().zip(lorries).fold(Code::new(), tip);
        plan.transition(bay, (0, port as u8, 0), room, tipped);
    }
    let enough = column(piles).int(SHIPMENT).op(Op::AtLeast);
    let clear = |code: Code, pile: &Variable| code.int(0).store(*pile);
    let cleared = piles.iter().fold(Code::new(), clear);
    plan.transition(bay, (0, SHIP, 0), enough, cleared);
}
