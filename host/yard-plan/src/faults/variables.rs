//! 5: an owner that the plan lacks, or bytes 1 to 3 of a variable not zero.

use super::Fault;
use crate::judged::{suitable_owners, Judged};
use crate::mend::Mend;
use crate::text::{counted, list, one_below};

pub fn faults(judged: &Judged) -> Vec<Fault> {
    let variables = 0..judged.tables.variables.len();
    variables.flat_map(|n| of_variable(judged, n)).collect()
}

fn of_variable(judged: &Judged, n: usize) -> Vec<Fault> {
    let variable = &judged.tables.variables[n];
    let fault = |field: usize, text: String, cure: String, mend: Mend| Fault {
        number: 5,
        what: format!("variable {n}"),
        place: variable.at + field,
        text,
        cure,
        mend: Some(mend),
    };
    let components = judged.tables.components.len();
    let owner = (usize::from(variable.owner) >= components).then(|| {
        let has = counted(components, "component");
        let text = format!("owner {}, but the plan has {has}", variable.owner);
        let mend = Mend::byte(variable.at, judged.owners[n] as u8);
        fault(0, text, owner_cure(judged, n), mend)
    });
    let filled = variable.zeros.iter().position(|&byte| byte != 0);
    let zeros = filled.map(|filled| {
        let found = list(variable.zeros);
        let text = format!("bytes 1 to 3 of the record are {found}, but must be zero");
        let writes = (1..4).map(|field| (variable.at + field, 0)).collect();
        fault(1 + filled, text, "zeros".to_string(), Mend::Write(writes))
    });
    owner.into_iter().chain(zeros).collect()
}

fn owner_cure(judged: &Judged, n: usize) -> String {
    let components = judged.tables.components.len();
    let owner = one_below("owner", components);
    let suit = suitable_owners(&judged.tables, n);
    match suit.len() {
        0 => format!("{owner}; none suits all the code that names it"),
        all if all == components => owner,
        _ => format!("{owner}; the code that names it allows {}", list(suit)),
    }
}
