//! 2: a count or the first oracle state outside its range; `added` has bytes 42 to 45.

use super::{added, Fault};
use crate::layout::{field, CountRule, Counts, COUNTS, FIRST, MOST_STATES};
use crate::mend::Mend;
use crate::text::{counted, one_below, thousands};

pub fn faults(bytes: &[u8]) -> Vec<Fault> {
    let laid_out = Counts::laid_out(bytes);
    let mut faults = Vec::new();
    for (n, rule) in COUNTS.iter().enumerate() {
        // The first oracle state stands between the last two counts.
        if rule.at > FIRST {
            faults.extend(first(bytes, laid_out));
        }
        let stated = field(bytes, rule.at);
        let outside = stated.filter(|&count| !rule.allows(count));
        let room = laid_out.map(|l| l.fields[n]);
        faults.extend(outside.map(|count| out_of_range(rule, count, room)));
    }
    faults.extend(added::faults(bytes, laid_out.as_ref()));
    faults
}

fn out_of_range(rule: &CountRule, stated: usize, laid_out: Option<usize>) -> Fault {
    let range = format!("{} to {}", rule.least, thousands(rule.most));
    Fault {
        number: 2,
        what: "header".to_string(),
        place: rule.at,
        text: format!("{} {stated}, but a plan has {range}", rule.name),
        cure: match laid_out {
            Some(count) => format!("{} {count}, as the sections stand", rule.name),
            None => format!("{range} {}, and a layout to match", rule.name),
        },
        mend: laid_out.map(|count| Mend::field(rule.at, count)),
    }
}

/// The first oracle state against the states, or their most where their number is not known.
fn first(bytes: &[u8], laid_out: Option<Counts>) -> Option<Fault> {
    let first = field(bytes, FIRST)?;
    let stated = Counts::stated(bytes)?;
    let known = laid_out.filter(|_| !stated.in_range()).unwrap_or(stated);
    let states = Some(known.states()).filter(|states| (1..=MOST_STATES).contains(states));
    let most = states.unwrap_or(MOST_STATES);
    if first < most {
        return None;
    }
    let has = match states {
        Some(states) => format!("the plan has {}", counted(states, "oracle state")),
        None => format!("a plan has at most {}", counted(most, "oracle state")),
    };
    Some(Fault {
        number: 2,
        what: "header".to_string(),
        place: FIRST,
        text: format!("first oracle state {first}, but {has}"),
        cure: one_below("first state", most),
        mend: Some(Mend::field(FIRST, 0)),
    })
}
