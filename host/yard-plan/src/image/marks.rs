//! 14: a mark at or above the interactions, or on one that is not enabled, would end in a good state, or lies below an enabled one without a
//! mark. The reference says what is enabled and how a move ends.

use reference::lane::{Lane, Moves};
use reference::plan::Plan;

use super::places::{Image, LAST_COPY, MARKS};
use crate::faults::Fault;
use crate::judged::NO_PORT;
use crate::mend::Mend;
use crate::moves::{not_enabled, verdicts};
use crate::tables::Tables;
use crate::text::{bits, counted, list};

fn fault(image: &Image, mark: usize, why: String) -> Fault {
    let place = MARKS + mark / 8;
    let cleared = image.0[place] & !(1 << (mark % 8));
    Fault {
        number: 14,
        what: "image".to_string(),
        place,
        text: format!("mark on interaction {mark}, {why}"),
        cure: format!(
            "{LAST_COPY}; or clear bit {} here: {cleared} instead of {}",
            mark % 8,
            image.0[place]
        ),
        mend: Some(Mend::byte(place, cleared)),
    }
}

/// Marks that no interaction of the plan has.
pub fn outside(tables: &Tables, image: &Image) -> Vec<Fault> {
    let interactions = tables.interactions.len();
    let past = bits(image.marks()).filter(|&mark| mark >= interactions);
    let why = || format!("but the plan has {}", counted(interactions, "interaction"));
    past.map(|mark| fault(image, mark, why())).collect()
}

/// Marks on moves that may not be crossed off, in a lawful state. Those that are left once these are cleared may stand.
pub fn untrue(plan: &[u8], tables: &Tables, image: &Image) -> Vec<Fault> {
    let Ok(plan) = Plan::read(plan) else {
        return Vec::new();
    };
    let lane = lane(tables, image);
    let site = Site {
        enabled: lane.enabled(&plan),
        marked: bits(image.marks()).collect(),
        plan: &plan,
        tables,
        lane,
    };
    let marks = site.marked.range(..tables.interactions.len());
    let untrue = marks.filter_map(|&mark| Some(fault(image, mark, site.why(mark)?)));
    untrue.collect()
}

/// The unmarked moves that unmarked ones hold down, each with these; in an image that is accepted.
pub fn held_down(plan: &[u8], tables: &Tables, image: &Image) -> Vec<(usize, Moves)> {
    let Ok(plan) = Plan::read(plan) else {
        return Vec::new();
    };
    let mut open = lane(tables, image).enabled(&plan);
    open.retain(|&i| image.marks() >> i & 1 == 0);
    let above = |i| -> Moves {
        let above = open.iter().copied().filter(|&above| plan.below(i, above));
        above.collect()
    };
    let held = open.iter().map(|&i| (i, above(i)));
    held.filter(|(_, above)| !above.is_empty()).collect()
}

fn lane(tables: &Tables, image: &Image) -> Lane {
    let components = 0..tables.components.len();
    let port = |c| Some(image.last_port(c)).filter(|&port| port != NO_PORT);
    Lane {
        locations: components
            .clone()
            .map(|c| image.location(c).into())
            .collect(),
        last_ports: components.map(|c| port(c).map(usize::from)).collect(),
        values: (0..tables.variables.len())
            .map(|n| image.value(n))
            .collect(),
        oracles: (0..tables.oracles.len())
            .map(|n| image.oracle(n).into())
            .collect(),
    }
}

/// A lane with its marks.
struct Site<'a> {
    plan: &'a Plan,
    tables: &'a Tables,
    lane: Lane,
    enabled: Moves,
    marked: Moves,
}

impl Site<'_> {
    /// Why a mark may not stand; none where neither the move nor an enabled one above it ends good, and all of them are marked.
    fn why(&self, mark: usize) -> Option<String> {
        let Some(after) = self.lane.after(self.plan, mark) else {
            let why = not_enabled(self.plan, self.tables, &self.lane, mark);
            return Some(format!("which is not enabled: {why}"));
        };
        if after.good(self.plan) {
            let verdicts = verdicts(self.plan, &after);
            return Some(format!("which would end well: {verdicts}"));
        }
        let unmarked = self.above(mark, |above| !self.marked.contains(&above));
        let untrue = self.above(mark, |above| self.lane.ends_good(self.plan, above));
        if !unmarked.is_empty() {
            Some(format!("but {} enabled and not marked", named(&unmarked)))
        } else if !untrue.is_empty() {
            Some(format!(
                "but {} enabled and may not be marked",
                named(&untrue)
            ))
        } else {
            None
        }
    }

    /// The enabled interactions above this one that a test admits.
    fn above(&self, mark: usize, admits: impl Fn(usize) -> bool) -> Vec<usize> {
        let above = self.enabled.iter().copied();
        above
            .filter(|&above| self.plan.below(mark, above) && admits(above))
            .collect()
    }
}

/// "5 above it is", "5, 7 above it are".
fn named(above: &[usize]) -> String {
    let verb = if above.len() == 1 { "is" } else { "are" };
    format!("{} above it {verb}", list(above))
}
