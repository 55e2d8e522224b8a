//! 2 by bytes 42 to 45: more than three added oracles, a state count in use outside its range, or one that is not in use and not zero.
//! 3 by them: lawful ones that all offsets and lengths are against.

use super::Fault;
use crate::added::{count_place, Added, MOST, PLACE};
use crate::layout::{Counts, MOST_STATES};
use crate::mend::Mend;
use crate::text::{count, list};

/// A field of the four, stated and laid out: the number of added oracles, or the states of one.
struct Field {
    oracle: Option<usize>,
    stated: usize,
    laid_out: Option<usize>,
}

fn number(stated: &Added, laid_out: Option<&Added>) -> Field {
    Field {
        oracle: None,
        stated: stated.number,
        laid_out: laid_out.map(|l| l.number),
    }
}

fn state_count(stated: &Added, laid_out: Option<&Added>, k: usize) -> Field {
    Field {
        oracle: Some(k),
        stated: stated.states[k],
        laid_out: laid_out.map(|l| l.states[k]),
    }
}

impl Field {
    fn differs(&self) -> bool {
        self.laid_out.is_some_and(|value| value != self.stated)
    }

    fn place(&self) -> usize {
        self.oracle.map_or(PLACE, count_place)
    }

    /// What a value of the field says.
    fn says(&self, value: usize) -> String {
        match self.oracle {
            None => format!("added oracles {value}"),
            Some(k) => format!("added oracle {} with {}", k + 1, count(value, "state")),
        }
    }

    fn fault(&self, number: u32, rule: String, cure: String) -> Fault {
        let place = self.place();
        Fault {
            number,
            what: "header".to_string(),
            place,
            text: format!("{}, but {rule}", self.says(self.stated)),
            cure,
            mend: self.laid_out.map(|value| Mend::byte(place, value as u8)),
        }
    }

    /// A fault of a field outside its range, which is given in words.
    fn out_of_range(&self, rule: String, range: &str) -> Fault {
        let cure = match self.laid_out {
            Some(value) => format!("{}, as the sections stand", self.says(value)),
            None => format!("{range} here, and a layout to match"),
        };
        self.fault(2, rule, cure)
    }

    fn against_the_layout(&self, example: &str) -> Fault {
        let room = self.laid_out.unwrap_or(self.stated);
        let rule = format!("all offsets and lengths are those of {room}{example}");
        let says = self.says(room);
        let cure = format!("{says}, or offsets and lengths for {}", self.stated);
        self.fault(3, rule, cure)
    }
}

/// The faults of 2.
pub fn faults(bytes: &[u8], laid_out: Option<&Counts>) -> Vec<Fault> {
    let stated = Added::stated(bytes);
    if stated.lawful() {
        return Vec::new();
    }
    let laid_out = laid_out.map(|counts| &counts.added);
    let number = wrong_number(&stated, laid_out);
    let counts = (0..MOST).filter_map(|k| wrong_count(&stated, laid_out, k));
    number.into_iter().chain(counts).collect()
}

fn wrong_number(stated: &Added, laid_out: Option<&Added>) -> Option<Fault> {
    let field = number(stated, laid_out);
    let rule = match stated.number <= MOST {
        true => format!("their state counts are {}", list(stated.states)),
        false => format!("a plan has 0 to {MOST}"),
    };
    (stated.number > MOST || field.differs())
        .then(|| field.out_of_range(rule, &format!("0 to {MOST}")))
}

/// A state count outside its range, unless the number of added oracles is what is wrong.
fn wrong_count(stated: &Added, laid_out: Option<&Added>, k: usize) -> Option<Fault> {
    let field = state_count(stated, laid_out, k);
    let told = field.differs() || laid_out.is_none() && stated.number <= MOST;
    (told && !stated.count_lawful(k)).then(|| match k < stated.number {
        true => {
            let range = format!("1 to {MOST_STATES}");
            field.out_of_range(format!("an oracle has {range}"), &range)
        }
        false => field.out_of_range(adds(stated.number), "0"),
    })
}

fn adds(oracles: usize) -> String {
    match oracles {
        0 => "the plan adds no oracle".to_string(),
        _ => format!("the plan adds {}", count(oracles, "oracle")),
    }
}

/// The faults of 3: each that differs, and is not told of under 2.
pub fn wrong_layout(stated: &Added, laid_out: &Added, example: &str) -> Vec<Fault> {
    let number = Some(number(stated, Some(laid_out))).filter(|_| stated.lawful());
    let counts = (0..MOST).filter(|&k| stated.count_lawful(k));
    let counts = counts.map(|k| state_count(stated, Some(laid_out), k));
    let differing = number.into_iter().chain(counts).filter(Field::differs);
    differing
        .map(|field| field.against_the_layout(example))
        .collect()
}
