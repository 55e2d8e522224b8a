//! 4: a component's locations or ports not 1 to 16, a starting location that it lacks, or its last byte not zero.

use super::Fault;
use crate::judged::{Judged, MOST};
use crate::mend::Mend;
use crate::text::{counted, one_below};

pub fn faults(judged: &Judged) -> Vec<Fault> {
    let components = 0..judged.tables.components.len();
    components.flat_map(|c| of_component(judged, c)).collect()
}

/// "component 0 has 3 locations (0 to 2)", or the most where its number is unlawful.
pub fn has_locations(judged: &Judged, component: usize) -> String {
    let stated = judged.tables.components[component].locations;
    has(component, stated, judged.locations[component], "location")
}

/// "component 0 has 3 ports (0 to 2)", or the most where its number is unlawful.
pub fn has_ports(judged: &Judged, component: usize) -> String {
    let stated = judged.tables.components[component].ports;
    has(component, stated, judged.ports[component], "port")
}

fn has(component: usize, stated: u8, number: usize, name: &str) -> String {
    if usize::from(stated) == number {
        format!("component {component} has {}", counted(number, name))
    } else {
        format!("a component has at most {}", counted(number, name))
    }
}

fn of_component(judged: &Judged, c: usize) -> Vec<Fault> {
    let component = &judged.tables.components[c];
    let fault = |field: usize, text: String, cure: String, value: usize| Fault {
        number: 4,
        what: format!("component {c}"),
        place: component.at + field,
        text,
        cure,
        mend: Some(Mend::byte(component.at + field, value as u8)),
    };
    let outside = |field: usize, number: u8, name: &str| {
        (!(1..=MOST).contains(&usize::from(number))).then(|| {
            let text = format!("{name} {number}, but a component has 1 to {MOST}");
            fault(field, text, format!("1 to {MOST} {name}"), MOST)
        })
    };
    let start = (usize::from(component.start) >= judged.locations[c]).then(|| {
        let text = format!(
            "starting location {}, but {}",
            component.start,
            has_locations(judged, c)
        );
        let cure = one_below("starting location", judged.locations[c]);
        fault(1, text, cure, 0)
    });
    let zero = (component.zero != 0).then(|| {
        let text = format!(
            "last byte {}, but it is zero in every component",
            component.zero
        );
        fault(3, text, "0".to_string(), 0)
    });
    let locations = outside(0, component.locations, "locations");
    let ports = outside(2, component.ports, "ports");
    [locations, start, ports, zero]
        .into_iter()
        .flatten()
        .collect()
}
