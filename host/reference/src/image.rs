//! The 312 bytes of a lane, with the rules of refusals 11 to 14.

use crate::answer::Refusal;
use crate::lane::{is_good, Lane, Moves};
use crate::plan::{OracleState, Plan, NO_PORT};

pub const IMAGE_BYTES: usize = 312;
const ORACLES: usize = 8;
const NUMBER: usize = 12;
const MARKS: usize = 16;
const LOCATIONS: usize = 24;
const LAST_PORTS: usize = 40;
const VALUES: usize = 56;

/// A lane with its marks.
#[derive(Clone, Debug, PartialEq, Eq)]
pub struct Stored {
    pub lane: Lane,
    pub marked: Moves,
}

/// Bit i for interaction i.
pub fn bits(moves: &Moves) -> u64 {
    moves
        .iter()
        .fold(0, |bits, interaction| bits | 1 << interaction)
}

/// Bytes 0 to 7.
fn head(plan: &Plan) -> [u8; ORACLES] {
    let [c, v, i] = [
        plan.components.len(),
        plan.variables.len(),
        plan.interactions.len(),
    ]
    .map(|count| count as u8);
    [b'Y', b'A', b'R', b'D', 1, c, v, i]
}

pub fn write(plan: &Plan, stored: &Stored) -> [u8; IMAGE_BYTES] {
    let lane = &stored.lane;
    let mut bytes = [0; IMAGE_BYTES];
    bytes[..ORACLES].copy_from_slice(&head(plan));
    for (n, &state) in lane.oracles.iter().enumerate() {
        bytes[ORACLES + n] = state as u8;
    }
    bytes[NUMBER..MARKS].copy_from_slice(&plan.number.to_le_bytes());
    bytes[MARKS..LOCATIONS].copy_from_slice(&bits(&stored.marked).to_le_bytes());
    bytes[LAST_PORTS..VALUES].fill(NO_PORT);
    for (c, &location) in lane.locations.iter().enumerate() {
        bytes[LOCATIONS + c] = location as u8;
    }
    for (c, &port) in lane.last_ports.iter().enumerate() {
        bytes[LAST_PORTS + c] = port.map_or(NO_PORT, |port| port as u8);
    }
    for (n, value) in lane.values.iter().enumerate() {
        bytes[VALUES + 4 * n..][..4].copy_from_slice(&value.to_le_bytes());
    }
    bytes
}

pub fn check_length(bytes: &[u8]) -> Result<&[u8; IMAGE_BYTES], Refusal> {
    bytes.try_into().map_err(|_| Refusal::ImageLength)
}

/// The lane and marks that the bytes hold, or the lowest refusal that applies.
pub fn read(plan: &Plan, bytes: &[u8]) -> Result<Stored, Refusal> {
    let stored = read_unjudged(plan, bytes)?;
    if marks_true(plan, &stored) {
        Ok(stored)
    } else {
        Err(Refusal::FalseMark)
    }
}

/// The same, whatever the marks.
pub fn read_unjudged(plan: &Plan, bytes: &[u8]) -> Result<Stored, Refusal> {
    let bytes = check_length(bytes)?;
    if bytes[..ORACLES] != head(plan) || bytes[NUMBER..MARKS] != plan.number.to_le_bytes() {
        return Err(Refusal::OtherPlan);
    }
    let stored = Stored {
        lane: read_lane(plan, bytes),
        marked: read_marks(bytes),
    };
    if state_lawful(plan, bytes, &stored.lane) {
        Ok(stored)
    } else {
        Err(Refusal::State)
    }
}

fn read_marks(bytes: &[u8; IMAGE_BYTES]) -> Moves {
    let is_set = |n: &usize| bytes[MARKS + n / 8] >> (n % 8) & 1 == 1;
    (0..8 * (LOCATIONS - MARKS)).filter(is_set).collect()
}

fn read_lane(plan: &Plan, bytes: &[u8; IMAGE_BYTES]) -> Lane {
    let components = plan.components.len();
    let port = |&port: &u8| (port != NO_PORT).then_some(port.into());
    let value = |value: &[u8]| i32::from_le_bytes([value[0], value[1], value[2], value[3]]);
    Lane {
        locations: bytes[LOCATIONS..][..components]
            .iter()
            .map(|&location| location.into())
            .collect(),
        last_ports: bytes[LAST_PORTS..][..components].iter().map(port).collect(),
        values: bytes[VALUES..][..4 * plan.variables.len()]
            .chunks_exact(4)
            .map(value)
            .collect(),
        oracles: bytes[ORACLES..][..plan.oracles.len()]
            .iter()
            .map(|&state| state.into())
            .collect(),
    }
}

/// The rule of refusal 13.
fn state_lawful(plan: &Plan, bytes: &[u8; IMAGE_BYTES], lane: &Lane) -> bool {
    let components = plan.components.len();
    let mut oracles = plan.oracles.iter().zip(&lane.oracles);
    let good = |(oracle, &state): (&Vec<OracleState>, &usize)| {
        oracle
            .get(state)
            .is_some_and(|state| is_good(state.verdict))
    };
    let judged = oracles.all(good);
    let used = plan.components.iter().enumerate().all(|(c, component)| {
        lane.locations[c] < component.locations
            && lane.last_ports[c].is_none_or(|port| port < component.ports)
    });
    let unused = bytes[ORACLES + plan.oracles.len()..NUMBER]
        .iter()
        .all(|&state| state == 0)
        && bytes[LOCATIONS + components..LAST_PORTS]
            .iter()
            .all(|&location| location == 0)
        && bytes[LAST_PORTS + components..VALUES]
            .iter()
            .all(|&port| port == NO_PORT)
        && bytes[VALUES + 4 * plan.variables.len()..]
            .iter()
            .all(|&byte| byte == 0);
    judged && used && unused
}

/// The rule of refusal 14: each mark is on an enabled interaction that does not end good, and each enabled one above it is marked too.
fn marks_true(plan: &Plan, stored: &Stored) -> bool {
    let Stored { lane, marked } = stored;
    let enabled = lane.enabled(plan);
    let is_marked_above = |mark| {
        let mut above = enabled.iter().filter(|&&above| plan.below(mark, above));
        above.all(|above| marked.contains(above))
    };
    let belongs =
        |mark| enabled.contains(&mark) && !lane.ends_good(plan, mark) && is_marked_above(mark);
    marked.iter().copied().all(belongs)
}
