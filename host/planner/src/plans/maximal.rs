//! Every count at its limit, and every span but the transfers 64 words long.
//!
//! Sixteen bays in a ring pass units on. Bay c has variables 4c to 4c+3: level, units given, moves seen, peak level.
//! Interaction 16j+c: bay c gives 4-j units to the next bay, and all other bays watch. A bay must not reach CAP.
//! A bay lies below those 4, 8 and 12 further on, for equal loads. Each bay starts with 4 units, so 64 go round for
//! ever: to pen the lane, every bay would have to be one unit short of CAP.
//!
//! One plan has one oracle, which judges all bays. The other has four, each of which judges four bays: every move ends
//! as it does in the first.

use crate::code::{Code, Op};
use crate::plan::{Component, Interaction, Plan, Variable, Verdict};

const BAYS: usize = 16;
const CAP: i32 = 18;
/// The largest load; a bay gives while it has as much.
const LOAD: i32 = 4;
const WORDS: usize = 64;
// Ports; the six from WATCH on are alike.
const GIVE: u8 = 0;
const TAKE: u8 = 1;
const WATCH: u8 = 2;
/// The last location and the last port, which no bay comes to.
const UNUSED: u8 = 15;

struct Bay {
    component: Component,
    level: Variable,
    given: Variable,
    seen: Variable,
    peak: Variable,
}

pub fn plan() -> Plan {
    lane(u32::MAX, 0b1111)
}

/// The longest plan: three oracles are added, of as many states as an oracle may have.
pub fn with_oracles() -> Plan {
    let mut plan = lane(u32::MAX - 1, 0b0001);
    for k in 1..4 {
        plan.added_oracle(ring(k + 1, 1 << k));
    }
    plan
}

/// The lane with its first oracle, which judges these propositions.
fn lane(number: u32, judged: usize) -> Plan {
    let mut plan = Plan::new(number);
    let components: Vec<Component> = (0..BAYS).map(|_| plan.component(16, 0, 16)).collect();
    let bays: Vec<Bay> = components.into_iter().map(|c| bay(&mut plan, c)).collect();
    for bay in &bays {
        transitions(&mut plan, bay);
    }
    let loads = [4, 3, 2, 1].map(|load| gives(&mut plan, &bays, load));
    for moves in loads {
        for c in 4..BAYS {
            plan.below(moves[c - 4], moves[c]);
        }
    }
    for four in bays.chunks(4) {
        plan.proposition(overfull(four));
    }
    plan.first_oracle_state(30);
    for (verdict, next) in ring(1, judged) {
        plan.oracle_state(verdict, next);
    }
    plan
}

fn bay(plan: &mut Plan, component: Component) -> Bay {
    let [level, given, seen, peak] = [LOAD, 0, 0, LOAD].map(|n| plan.variable(component, n));
    Bay {
        component,
        level,
        given,
        seen,
        peak,
    }
}

/// Giving and taking change between locations 0 and 1, watching does not.
fn transitions(plan: &mut Plan, bay: &Bay) {
    for source in [0, 1] {
        for port in 0..8 {
            let destination = if port < WATCH { 1 - source } else { source };
            plan.transition(
                bay.component,
                (source, port, destination),
                sound(bay),
                tally(bay),
            );
        }
    }
}

/// The level is not negative.
fn sound(bay: &Bay) -> Code {
    lengthened(Code::new().var(bay.level).int(0).op(Op::AtLeast))
}

/// Counts the move, and lets the peak follow the level up by one, seven times.
fn tally(bay: &Bay) -> Code {
    let zero = |code: Code| code.int(0).op(Op::Add);
    let count = zero(zero(Code::new().var(bay.seen).int(1).op(Op::Add))).store(bay.seen);
    (0..7).fold(count, |code, _| {
        let above = code
            .var(bay.peak)
            .var(bay.level)
            .var(bay.peak)
            .int(1)
            .op(Op::Add)
            .op(Op::AtLeast);
        above.op(Op::Add).store(bay.peak)
    })
}

/// The sixteen moves of one load.
fn gives(plan: &mut Plan, bays: &[Bay], load: i32) -> Vec<Interaction> {
    let one = |c: usize| {
        let (giver, taker) = (&bays[c], &bays[(c + 1) % BAYS]);
        let transfer = Code::new()
            .grow(giver.level, -load)
            .grow(taker.level, load)
            .grow(giver.given, load);
        let mut parts: Vec<(Component, u8)> = bays
            .iter()
            .map(|b| (b.component, WATCH + (b.component.0 + load as u8) % 6))
            .collect();
        parts[c].1 = GIVE;
        parts[(c + 1) % BAYS].1 = TAKE;
        plan.interaction(&parts, laden(giver, bays), transfer)
    };
    (0..BAYS).map(one).collect()
}

/// The giver has the largest load, and none of the first fourteen bays is below zero.
fn laden(giver: &Bay, bays: &[Bay]) -> Code {
    let enough = Code::new().var(giver.level).int(LOAD).op(Op::AtLeast);
    let others = bays[..14]
        .iter()
        .map(|b| Code::new().var(b.level).int(0).op(Op::AtLeast));
    lengthened(others.fold(enough, |code, other| code.join(other, Op::And)))
}

/// A bay of these reached CAP, or a location or port that it cannot.
fn overfull(bays: &[Bay]) -> Code {
    let full = |v: Variable| Code::new().var(v).int(CAP).op(Op::AtLeast);
    let any = bays.iter().fold(Code::new().int(0), |code, bay| {
        let stray = Code::new()
            .at(bay.component, UNUSED)
            .last(bay.component, UNUSED)
            .op(Op::Or);
        code.join(full(bay.level), Op::Or)
            .join(full(bay.peak), Op::Or)
            .join(stray, Op::Or)
    });
    lengthened(any)
}

/// Fills up to 64 words that leave a truth value as it is.
fn lengthened(mut code: Code) -> Code {
    if code.words().len() % 2 != 0 {
        code = code.int(0).op(Op::Equal).op(Op::Not);
    }
    let fillings = [
        Code::new().int(0).op(Op::Or),
        Code::new().int(1).op(Op::And),
        Code::new().op(Op::Not).op(Op::Not),
    ];
    for filling in fillings.iter().cycle() {
        if code.words().len() == WORDS {
            break;
        }
        code = code.then(filling);
    }
    code
}

/// Thirty-one good states in a ring, in which each good move goes so many on, and the bad one, once a proposition of
/// those judged is true.
fn ring(step: u8, judged: usize) -> Vec<(Verdict, Vec<u8>)> {
    const BAD: u8 = 31;
    let next = |state: u8| {
        let one = |letter: usize| match letter & judged {
            0 => (state + step) % BAD,
            _ => BAD,
        };
        (0..16).map(one).collect()
    };
    let good = (0..BAD).map(|state| (Verdict::CurrentlyTrue, next(state)));
    good.chain([(Verdict::Bad, vec![BAD; 16])]).collect()
}
