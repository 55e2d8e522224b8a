//! Code words: decoding, the rules of refusal 10, and the evaluator.

use crate::lane::Lane;
use crate::plan::{Plan, Span, NO_PORT};
use crate::sums;

const MOST_WORDS: usize = 64;
const MOST_DEPTH: usize = 8;

#[derive(Clone, Copy, Debug, PartialEq, Eq)]
pub enum Operator {
    Add,
    Subtract,
    Equal,
    AtLeast,
    And,
    Or,
    Not,
    Implies,
}

#[derive(Clone, Copy, Debug, PartialEq, Eq)]
enum Word {
    Push(i32),
    /// The top times 4096 plus the operand.
    Extend(i32),
    Load(usize),
    Store(usize),
    At {
        component: usize,
        location: usize,
    },
    /// The component's last port; none for "none yet".
    Last {
        component: usize,
        port: Option<usize>,
    },
    Apply(Operator),
}

/// What a span is for.
#[derive(Clone, Copy, Debug, PartialEq, Eq)]
enum Role {
    Guard,
    /// An action or a transfer.
    Update,
    Proposition,
}

/// The word's meaning; none for unknown kinds and operators.
fn decode(word: u16) -> Option<Word> {
    let operand = word & 0x0fff;
    let component = usize::from(operand >> 8);
    let low = operand as u8;
    Some(match word >> 12 {
        0 => Word::Push(operand.into()),
        1 => Word::Extend(operand.into()),
        2 => Word::Load(operand.into()),
        3 => Word::Store(operand.into()),
        4 => Word::At {
            component,
            location: low.into(),
        },
        5 => Word::Last {
            component,
            port: (low != NO_PORT).then_some(low.into()),
        },
        6 => Word::Apply(operator(operand)?),
        _ => return None,
    })
}

fn operator(operand: u16) -> Option<Operator> {
    use Operator::*;
    [Add, Subtract, Equal, AtLeast, And, Or, Not, Implies]
        .get(usize::from(operand))
        .copied()
}

/// Whether every span of the plan keeps the code rules.
pub fn all_spans_lawful(plan: &Plan) -> bool {
    let owner = |n: usize| plan.variables.get(n).map(|variable| variable.owner);
    let transitions = plan.transitions.iter().all(|t| {
        let own = |n: usize| owner(n) == Some(t.component);
        lawful(plan, t.guard, Role::Guard, &own) && lawful(plan, t.action, Role::Update, &own)
    });
    let interactions = plan.interactions.iter().all(|i| {
        let taking_part = |n: usize| owner(n).is_some_and(|component| i.ports[component].is_some());
        lawful(plan, i.guard, Role::Guard, &taking_part)
            && lawful(plan, i.transfer, Role::Update, &taking_part)
    });
    let any = |n: usize| owner(n).is_some();
    let propositions = plan
        .propositions
        .iter()
        .all(|&p| lawful(plan, p, Role::Proposition, &any));
    transitions && interactions && propositions
}

/// Whether one span keeps the code rules; `nameable` tells which variables it may name.
fn lawful(plan: &Plan, span: Span, role: Role, nameable: &dyn Fn(usize) -> bool) -> bool {
    let Some(words) = plan.words(span) else {
        return false;
    };
    if words.is_empty() {
        return role != Role::Proposition;
    }
    let end = if role == Role::Update { 0 } else { 1 };
    words.len() <= MOST_WORDS && end_depth(plan, words, role, nameable) == Some(end)
}

/// The depth after the last word; none where a word breaks a rule.
fn end_depth(
    plan: &Plan,
    words: &[u16],
    role: Role,
    nameable: &dyn Fn(usize) -> bool,
) -> Option<usize> {
    let mut depth = 0_usize;
    for &word in words {
        let word = decode(word)?;
        if !may_stand(plan, word, role, nameable) {
            return None;
        }
        let (pops, pushes) = effect(word);
        depth = depth.checked_sub(pops)? + pushes;
        if depth > MOST_DEPTH {
            return None;
        }
    }
    Some(depth)
}

/// Whether a word is allowed in a span of this role and names what the plan has.
fn may_stand(plan: &Plan, word: Word, role: Role, nameable: &dyn Fn(usize) -> bool) -> bool {
    let proposition = role == Role::Proposition;
    match word {
        Word::Push(_) | Word::Extend(_) | Word::Apply(_) => true,
        Word::Load(variable) => nameable(variable),
        Word::Store(variable) => role == Role::Update && nameable(variable),
        Word::At {
            component,
            location,
        } => {
            proposition
                && plan
                    .components
                    .get(component)
                    .is_some_and(|c| location < c.locations)
        }
        Word::Last { component, port } => {
            proposition
                && plan
                    .components
                    .get(component)
                    .is_some_and(|c| port.is_none_or(|p| p < c.ports))
        }
    }
}

/// How many values a word pops, and how many it then pushes.
fn effect(word: Word) -> (usize, usize) {
    match word {
        Word::Push(_) | Word::Load(_) | Word::At { .. } | Word::Last { .. } => (0, 1),
        Word::Store(_) => (1, 0),
        Word::Extend(_) | Word::Apply(Operator::Not) => (1, 1),
        Word::Apply(_) => (2, 1),
    }
}

/// Whether a guard or proposition of a lawful plan is true; an empty guard is.
pub fn holds(plan: &Plan, span: Span, lane: &Lane) -> bool {
    let stack = run(plan, span, lane, &mut lane.values.clone());
    stack.last().is_none_or(|&top| top != 0)
}

/// Runs an action or transfer of a lawful plan on the lane's values.
pub fn update(plan: &Plan, span: Span, lane: &mut Lane) {
    let mut values = lane.values.clone();
    run(plan, span, lane, &mut values);
    lane.values = values;
}

/// The stack after a span of a lawful plan.
fn run(plan: &Plan, span: Span, lane: &Lane, values: &mut [i32]) -> Vec<i32> {
    let mut stack = Vec::new();
    for &word in plan
        .words(span)
        .expect("a lawful span ends within the code")
    {
        match decode(word).expect("a lawful span has known words") {
            Word::Push(number) => stack.push(number),
            Word::Extend(number) => {
                let top = pop(&mut stack);
                stack.push(sums::extend(top, number));
            }
            Word::Load(variable) => stack.push(values[variable]),
            Word::Store(variable) => values[variable] = pop(&mut stack),
            Word::At {
                component,
                location,
            } => stack.push((lane.locations[component] == location).into()),
            Word::Last { component, port } => {
                stack.push((lane.last_ports[component] == port).into())
            }
            Word::Apply(Operator::Not) => {
                let top = pop(&mut stack);
                stack.push((top == 0).into());
            }
            Word::Apply(operator) => {
                let right = pop(&mut stack);
                let left = pop(&mut stack);
                stack.push(apply(operator, left, right));
            }
        }
    }
    stack
}

fn pop(stack: &mut Vec<i32>) -> i32 {
    stack.pop().expect("a lawful span pops what it pushed")
}

/// An operator on two values; `not` looks at the right one alone.
pub fn apply(operator: Operator, left: i32, right: i32) -> i32 {
    let (l, r) = (left != 0, right != 0);
    match operator {
        Operator::Add => sums::add(left, right),
        Operator::Subtract => sums::subtract(left, right),
        Operator::Equal => (left == right).into(),
        Operator::AtLeast => (left >= right).into(),
        Operator::And => (l && r).into(),
        Operator::Or => (l || r).into(),
        Operator::Not => (!r).into(),
        Operator::Implies => (!l || r).into(),
    }
}
