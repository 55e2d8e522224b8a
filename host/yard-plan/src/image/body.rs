//! 13: an oracle state out of range or not good, a location or last port out of range, or an unused entry filled.

use reference::lane::is_good;

use super::places::{
    Image, COMPONENTS, LAST_COPY, LAST_PORTS, LOCATIONS, MOST_ORACLES, ORACLES, VALUES, VARIABLES,
};
use crate::faults::Fault;
use crate::judged::NO_PORT;
use crate::mend::Mend;
use crate::tables::Tables;
use crate::text::{counted, oracle_has, oracle_state, verdict};

pub fn faults(tables: &Tables, image: &Image) -> Vec<Fault> {
    let (oracles, components) = (tables.oracles.len(), tables.components.len());
    let mut faults = Vec::new();
    faults.extend((0..oracles).filter_map(|n| oracle(tables, image, n)));
    faults.extend((oracles..MOST_ORACLES).filter_map(|n| unused_oracle(image, n)));
    faults.extend((0..components).filter_map(|c| location(tables, image, c)));
    faults.extend((components..COMPONENTS).filter_map(|c| unused_location(image, c)));
    faults.extend((0..components).filter_map(|c| last_port(tables, image, c)));
    faults.extend((components..COMPONENTS).filter_map(|c| unused_port(image, c)));
    let unused = tables.variables.len()..VARIABLES;
    faults.extend(unused.filter_map(|n| unused_value(image, n)));
    faults
}

fn fault(place: usize, text: String, cure: String, mend: Option<Mend>) -> Fault {
    Fault {
        number: 13,
        what: "image".to_string(),
        place,
        text,
        cure,
        mend,
    }
}

fn oracle(tables: &Tables, image: &Image, n: usize) -> Option<Fault> {
    let (state, states) = (image.oracle(n), &tables.oracles[n]);
    let name = oracle_state(n, state);
    let text = match states.get(usize::from(state)) {
        None => format!("{name}, but {}", oracle_has(n, states.len())),
        Some(found) if !is_good(found.verdict) => {
            let verdict = verdict(found.verdict);
            format!("{name} has {verdict}, and no lane is left in it")
        }
        Some(_) => return None,
    };
    Some(fault(ORACLES + n, text, LAST_COPY.to_string(), None))
}

fn location(tables: &Tables, image: &Image, c: usize) -> Option<Fault> {
    let (found, most) = (image.location(c), tables.components[c].locations);
    (found >= most).then(|| {
        let has = counted(most.into(), "location");
        let text = format!("component {c} at location {found}, but it has {has}");
        fault(LOCATIONS + c, text, LAST_COPY.to_string(), None)
    })
}

fn last_port(tables: &Tables, image: &Image, c: usize) -> Option<Fault> {
    let (found, most) = (image.last_port(c), tables.components[c].ports);
    (found >= most && found != NO_PORT).then(|| {
        let has = counted(most.into(), "port");
        let text = format!("last port {found} of component {c}, but it has {has}");
        let cure = format!("{LAST_COPY}; or 255 here, for none yet");
        let place = LAST_PORTS + c;
        fault(place, text, cure, Some(Mend::byte(place, NO_PORT)))
    })
}

/// An entry of an oracle, component or variable that the plan lacks.
fn unused(place: usize, entry: String, found: i32, free: u8, mend: Mend) -> Fault {
    let text = format!("{entry}, which the plan lacks, is {found}, but unused ones are {free}");
    fault(
        place,
        text,
        format!("{LAST_COPY}; or {free} here"),
        Some(mend),
    )
}

fn unused_oracle(image: &Image, n: usize) -> Option<Fault> {
    let (found, place) = (image.oracle(n), ORACLES + n);
    let entry = format!("the state of added oracle {n}");
    (found != 0).then(|| unused(place, entry, found.into(), 0, Mend::byte(place, 0)))
}

fn unused_location(image: &Image, c: usize) -> Option<Fault> {
    let (found, place) = (image.location(c), LOCATIONS + c);
    let entry = format!("the location of component {c}");
    (found != 0).then(|| unused(place, entry, found.into(), 0, Mend::byte(place, 0)))
}

fn unused_port(image: &Image, c: usize) -> Option<Fault> {
    let (found, place) = (image.last_port(c), LAST_PORTS + c);
    let entry = format!("the last port of component {c}");
    let mend = Mend::byte(place, NO_PORT);
    (found != NO_PORT).then(|| unused(place, entry, found.into(), NO_PORT, mend))
}

fn unused_value(image: &Image, n: usize) -> Option<Fault> {
    let (found, place) = (image.value(n), VALUES + 4 * n);
    let mend = Mend::fields(&[(place, 0), (place + 2, 0)]);
    (found != 0).then(|| unused(place, format!("v{n}"), found, 0, mend))
}
