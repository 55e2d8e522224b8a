//! 6: a transition names a component, location or port that the plan lacks.

use super::components::{has_locations, has_ports};
use super::Fault;
use crate::judged::Judged;
use crate::mend::Mend;
use crate::text::{counted, one_below};

pub fn faults(judged: &Judged) -> Vec<Fault> {
    let transitions = 0..judged.tables.transitions.len();
    transitions.flat_map(|n| of_transition(judged, n)).collect()
}

fn of_transition(judged: &Judged, n: usize) -> Vec<Fault> {
    let transition = &judged.tables.transitions[n];
    let component = judged.components[n];
    let (locations, ports) = (judged.locations[component], judged.ports[component]);
    let outside = |field: usize, name: &str, found: u8, most: usize| {
        (usize::from(found) >= most).then(|| {
            let has = match name {
                "port" => has_ports(judged, component),
                _ => has_locations(judged, component),
            };
            let text = format!("{name} {found}, but {has}");
            fault(judged, n, field, text, one_below(name, most), 0)
        })
    };
    let faults = [
        lacking_component(judged, n),
        outside(1, "source", transition.source, locations),
        outside(2, "port", transition.port, ports),
        outside(3, "destination", transition.destination, locations),
    ];
    faults.into_iter().flatten().collect()
}

/// A fault of a field, which its mend sets to the value.
fn fault(judged: &Judged, n: usize, field: usize, text: String, cure: String, value: u8) -> Fault {
    let place = judged.tables.transitions[n].at + field;
    Fault {
        number: 6,
        what: format!("transition {n}"),
        place,
        text,
        cure,
        mend: Some(Mend::byte(place, value)),
    }
}

fn lacking_component(judged: &Judged, n: usize) -> Option<Fault> {
    let (found, fits) = (judged.tables.transitions[n].component, judged.components[n]);
    if usize::from(found) == fits {
        return None;
    }
    let components = judged.tables.components.len();
    let has = counted(components, "component");
    let mut cure = one_below("component", components);
    if components > 1 {
        cure += &format!("; {fits} fits the rest best");
    }
    let text = format!("component {found}, but the plan has {has}");
    Some(fault(judged, n, 0, text, cure, fits as u8))
}
