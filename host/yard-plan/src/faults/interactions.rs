//! 7: a port that a component lacks, a port of a component that the plan lacks, or no port at all.

use super::components::has_ports;
use super::Fault;
use crate::judged::{Judged, NO_PORT};
use crate::mend::Mend;
use crate::text::{bits, counted, list, one_below};

pub fn faults(judged: &Judged) -> Vec<Fault> {
    let interactions = 0..judged.tables.interactions.len();
    interactions
        .flat_map(|n| {
            let ports = (0..16).filter_map(move |c| port(judged, n, c));
            ports.chain(nobody(judged, n))
        })
        .collect()
}

fn fault(n: usize, place: usize, text: String, cure: String, mend: Mend) -> Fault {
    Fault {
        number: 7,
        what: format!("interaction {n}"),
        place,
        text,
        cure,
        mend: Some(mend),
    }
}

fn port(judged: &Judged, n: usize, c: usize) -> Option<Fault> {
    let interaction = &judged.tables.interactions[n];
    let components = judged.tables.components.len();
    let (port, place) = (interaction.ports[c], interaction.at + c);
    if port == NO_PORT {
        None
    } else if c >= components {
        let has = counted(components, "component");
        let text = format!("port {port} for component {c}, but the plan has {has}");
        let mend = Mend::byte(place, NO_PORT);
        Some(fault(n, place, text, "255".to_string(), mend))
    } else if usize::from(port) >= judged.ports[c] {
        let text = format!(
            "port {port} for component {c}, but {}",
            has_ports(judged, c)
        );
        let cure = format!(
            "{}, or 255 to take no part",
            one_below("port", judged.ports[c])
        );
        Some(fault(n, place, text, cure, Mend::byte(place, 0)))
    } else {
        None
    }
}

fn nobody(judged: &Judged, n: usize) -> Option<Fault> {
    let interaction = &judged.tables.interactions[n];
    let components = judged.tables.components.len();
    let ports = &interaction.ports[..components];
    if ports.iter().any(|&port| port != NO_PORT) {
        return None;
    }
    let mut cure = "a port for at least one component".to_string();
    let owners = judged.named_owners(interaction);
    if owners != 0 {
        cure += &format!(
            "; its code names variables of {}",
            list(bits(owners.into()))
        );
    }
    let parts = bits(judged.parts[n].into());
    let mend = Mend::Write(parts.map(|c| (interaction.at + c, 0)).collect());
    let text = "no component takes part".to_string();
    Some(fault(n, interaction.at, text, cure, mend))
}
