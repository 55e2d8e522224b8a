//! Random lawful plans of every size, most of them with moves to make.

use reference::draft::{Component, Draft, Interaction, Span, Transition, Variable};
use reference::lane::Lane;
use reference::plan::Plan;

use crate::oracle;
use crate::rng::Rng;
use crate::words::{Role, Scope, Writer};

pub struct Generated {
    pub draft: Draft,
    /// The greatest depth that its code reaches.
    pub depth: usize,
}

struct Sizes {
    components: usize,
    variables: usize,
    transitions: usize,
    interactions: usize,
    propositions: usize,
    states: usize,
    /// The states of each added oracle.
    added: Vec<usize>,
    words: usize,
}

const SMALL: [usize; 8] = [3, 4, 20, 6, 2, 5, 90, 5];
const MEDIUM: [usize; 8] = [8, 20, 80, 20, 3, 10, 900, 10];
const MOST: [usize; 8] = [16, 64, 256, 64, 4, 32, 4096, 32];
const LEAST: [usize; 8] = [1, 0, 0, 1, 0, 1, 0, 1];
const LIVELY: [usize; 8] = [1, 0, 8, 2, 1, 2, 8, 1];

impl Sizes {
    fn new(rng: &mut Rng, added: usize) -> Sizes {
        let most = match rng.below(100) {
            0..=11 => MOST,
            12..=31 => MEDIUM,
            _ => SMALL,
        };
        let least = if rng.chance(15) { LEAST } else { LIVELY };
        let at_end = if rng.chance(20) { 80 } else { 10 };
        let mut size = |n: usize| {
            if rng.chance(at_end) {
                most[n]
            } else {
                rng.between(least[n], most[n])
            }
        };
        let words = size(6);
        Sizes {
            components: size(0),
            variables: size(1),
            transitions: size(2),
            interactions: size(3),
            propositions: size(4).min(words),
            states: size(5),
            added: (0..added).map(|_| size(7)).collect(),
            words,
        }
    }
}

/// A lawful plan; its starting state is bad now and then.
pub fn plan(rng: &mut Rng) -> Generated {
    let added = rng.pick(&[0, 0, 0, 1, 1, 2, 2, 3]);
    with_added(rng, added)
}

/// A lawful plan with so many added oracles.
fn with_added(rng: &mut Rng, added: usize) -> Generated {
    let sizes = Sizes::new(rng, added);
    let mut writer = Writer::new(rng, sizes.words);
    let mut draft = Draft {
        number: rng.next() as u32,
        ..Draft::default()
    };
    draft.components = (0..sizes.components).map(|_| component(rng)).collect();
    draft.variables = (0..sizes.variables)
        .map(|_| variable(rng, sizes.components))
        .collect();
    draft.propositions = propositions(rng, &mut writer, &draft, sizes.propositions);
    for _ in 0..sizes.transitions {
        let transition = transition(rng, &mut writer, &draft);
        draft.transitions.push(transition);
    }
    share(rng, &mut draft.transitions);
    for _ in 0..sizes.interactions {
        let interaction = interaction(rng, &mut writer, &draft);
        draft.interactions.push(interaction);
    }
    writer.fill(rng);
    draft.code = writer.code;
    ranks(rng, &mut draft.interactions);
    choose_oracles(rng, &mut draft, &sizes);
    Generated {
        draft,
        depth: writer.deepest,
    }
}

fn component(rng: &mut Rng) -> Component {
    let most = rng.pick(&[2, 3, 4, 16]);
    let least = if rng.chance(15) { 1 } else { 2 };
    let locations = rng.between(least, most) as u8;
    let ports = rng.between(1, most) as u8;
    Component {
        locations,
        start: rng.below(locations.into()) as u8,
        ports,
        zero: 0,
    }
}

fn variable(rng: &mut Rng, components: usize) -> Variable {
    Variable {
        owner: rng.below(components) as u8,
        zeros: [0; 3],
        value: value(rng),
    }
}

/// A value: most often a small one, at times at an end of 32 bits or a little inside, or where kind 1 comes to an end.
pub fn value(rng: &mut Rng) -> i32 {
    match rng.below(16) {
        0 | 1 => i32::MAX - inside(rng),
        2 | 3 => i32::MIN + inside(rng),
        4 => rng.pick(&[-524_289, -524_288, 524_287, 524_288]),
        5 => rng.next() as i32,
        _ => rng.below(6) as i32 - 2,
    }
}

/// How far a value lies inside of an end.
fn inside(rng: &mut Rng) -> i32 {
    let most = rng.pick(&[0, 1, 3, 5000]);
    rng.between(0, most) as i32
}

/// The variables whose owner a test admits.
fn owned(draft: &Draft, admits: impl Fn(usize) -> bool) -> Vec<u16> {
    let admitted = draft
        .variables
        .iter()
        .enumerate()
        .filter(|(_, v)| admits(v.owner.into()));
    admitted.map(|(n, _)| n as u16).collect()
}

fn propositions(rng: &mut Rng, writer: &mut Writer, draft: &Draft, count: usize) -> Vec<Span> {
    let variables = owned(draft, |_| true);
    let scope = Scope {
        role: Role::Proposition,
        variables: &variables,
        components: &draft.components,
    };
    let room = writer.room().checked_div(count).unwrap_or(0);
    (0..count)
        .map(|_| writer.proposition(rng, &scope, room))
        .collect()
}

fn transition(rng: &mut Rng, writer: &mut Writer, draft: &Draft) -> Transition {
    let component = rng.below(draft.components.len());
    let Component {
        locations,
        start,
        ports,
        ..
    } = draft.components[component];
    let variables = owned(draft, |owner| owner == component);
    let source = if rng.chance(25) {
        start
    } else {
        rng.below(locations.into()) as u8
    };
    let port = rng.below(ports.into()) as u8;
    let destination = rng.below(locations.into()) as u8;
    let (guard, action) = spans(rng, writer, draft, &variables);
    Transition {
        component: component as u8,
        source,
        port,
        destination,
        guard,
        action,
    }
}

/// Lets some transitions share the spans of another one of their component.
fn share(rng: &mut Rng, transitions: &mut [Transition]) {
    for n in 1..transitions.len() {
        let other = transitions[rng.below(n)];
        if other.component == transitions[n].component && rng.chance(20) {
            transitions[n].guard = other.guard;
            transitions[n].action = other.action;
        }
    }
}

fn interaction(rng: &mut Rng, writer: &mut Writer, draft: &Draft) -> Interaction {
    let count = draft.components.len();
    let most = rng.pick(&[1, 1, 2, 3, 16]).min(count);
    let mut ports = [255; 16];
    for &component in &rng.shuffled(count)[..rng.between(1, most)] {
        ports[component] = port(rng, draft, component);
    }
    let variables = owned(draft, |owner| ports[owner] != 255);
    let (guard, transfer) = spans(rng, writer, draft, &variables);
    Interaction {
        ports,
        guard,
        transfer,
        rank: 0,
    }
}

/// A guard and an update over some variables.
fn spans(rng: &mut Rng, writer: &mut Writer, draft: &Draft, variables: &[u16]) -> (Span, Span) {
    let mut span = |role| {
        let components = &draft.components;
        writer.span(
            rng,
            &Scope {
                role,
                variables,
                components,
            },
        )
    };
    (span(Role::Guard), span(Role::Update))
}

/// A port of the component, most often one that a transition goes through.
fn port(rng: &mut Rng, draft: &Draft, component: usize) -> u8 {
    let own = draft
        .transitions
        .iter()
        .filter(|t| usize::from(t.component) == component);
    let through: Vec<u8> = own.map(|t| t.port).collect();
    if through.is_empty() || rng.chance(15) {
        rng.below(draft.components[component].ports.into()) as u8
    } else {
        rng.pick(&through)
    }
}

/// Random strict orders: none, sparse, dense, or a chain of some interactions or all.
fn ranks(rng: &mut Rng, interactions: &mut [Interaction]) {
    let density = rng.pick(&[0, 0, 5, 20, 50, 100]);
    let order = rng.shuffled(interactions.len());
    let ranked = if rng.chance(50) {
        order.len()
    } else {
        rng.between(1, order.len())
    };
    for low in 0..ranked {
        for high in low + 1..ranked {
            if rng.chance(density) {
                interactions[order[low]].rank |= 1 << order[high];
            }
        }
    }
    close(interactions);
}

/// Makes the ranks transitive.
fn close(interactions: &mut [Interaction]) {
    for middle in 0..interactions.len() {
        let above = interactions[middle].rank;
        for interaction in interactions
            .iter_mut()
            .filter(|i| i.rank >> middle & 1 == 1)
        {
            interaction.rank |= above;
        }
    }
}

/// Gives the draft its oracles, one after the other.
fn choose_oracles(rng: &mut Rng, draft: &mut Draft, sizes: &Sizes) {
    let letters = 1 << sizes.propositions;
    liveliest(rng, draft, |rng, draft| {
        draft.oracle = oracle::states(rng, sizes.states, letters);
        draft.first = rng.below(sizes.states) as u16;
    });
    for (k, &states) in sizes.added.iter().enumerate() {
        liveliest(rng, draft, |rng, draft| {
            draft.added.truncate(k);
            draft.added.push(oracle::states(rng, states, letters));
        });
    }
}

/// The draft as it is liveliest after a few ways to renew it, or after the first that makes it lively enough.
fn liveliest(rng: &mut Rng, draft: &mut Draft, renew: impl Fn(&mut Rng, &mut Draft)) {
    let wanted = rng.pick(&[0, 1, 1, 2, 3, 3, 3, 4, 4, 4]);
    let mut best = (0, draft.clone());
    for _ in 0..10 {
        renew(rng, draft);
        let plan = Plan::read(&draft.bytes()).expect("a generated plan is lawful");
        let found = liveliness(&plan);
        if found >= best.0 {
            best = (found, draft.clone());
        }
        if found >= wanted {
            break;
        }
    }
    *draft = best.1;
}

/// 0 for a bad start, 1 for a good one, 2 where moves from it end bad, 3 where only some do, 4 where one goes to verdict 1 and another one from
/// there on to a good state.
fn liveliness(plan: &Plan) -> usize {
    let start = Lane::start(plan);
    if !start.good(plan) {
        return 0;
    }
    let (good, bad): (Vec<Lane>, Vec<Lane>) = ends(plan, &start).partition(|end| end.good(plan));
    let leads_back = |half: &Lane| ends(plan, half).any(|end| end.good(plan));
    let mut halves = bad.iter().filter(|end| end.verdict(plan) == 1);
    if halves.any(leads_back) {
        return 4;
    }
    match (good.is_empty(), bad.is_empty()) {
        (_, true) => 1,
        (true, false) => 2,
        (false, false) => 3,
    }
}

/// What the moves from a lane lead to.
fn ends<'a>(plan: &'a Plan, lane: &'a Lane) -> impl Iterator<Item = Lane> + 'a {
    (0..plan.interactions.len()).filter_map(|i| lane.after(plan, i))
}

#[cfg(test)]
mod tests {
    use super::*;

    #[test]
    fn one_oracle_more_turns_no_bad_move_good() {
        let mut rng = Rng::new(3);
        for n in 0..900 {
            let mut draft = with_added(&mut rng, 1 + n % 3).draft;
            let more = Plan::read(&draft.bytes()).unwrap();
            draft.added.pop();
            let fewer = Plan::read(&draft.bytes()).unwrap();
            let (one, other) = (Lane::start(&more), Lane::start(&fewer));
            assert!(other.good(&fewer) || !one.good(&more));
            for i in 0..draft.interactions.len() {
                let (one, other) = (one.after(&more, i), other.after(&fewer, i));
                assert_eq!(one.is_some(), other.is_some());
                assert!(other.is_none_or(|end| end.good(&fewer)) || !one.unwrap().good(&more));
            }
        }
    }
}
