//! A plan's tables in words.

use crate::added::Added;
use crate::expression;
use crate::faults;
use crate::faults::code::{Examiner, Role, Site};
use crate::judged::{Judged, NO_PORT};
use crate::layout::{field, number, COUNTS, FIRST, LENGTH, LETTERS, OFFSETS};
use crate::report;
use crate::start;
use crate::tables::{Interaction, State, Tables};
use crate::text::{bits, counted, list, verdict};

/// The plan's header and, unless 1, 2 or 3 applies, its tables.
pub fn plan(bytes: &[u8]) -> (String, u8) {
    let number = report::number(yard::check(bytes));
    let analysed = faults::of_plan(bytes).first_number();
    let (mut output, mut status) = report::verdict(number, analysed);
    if status == report::ACCEPTED {
        let (lines, told) = start::told(bytes);
        output += &lines;
        status = told;
    }
    output += &header(bytes);
    let told = !matches!(number, 1..=3);
    match Judged::read(bytes).filter(|_| told) {
        Some(judged) => output += &tables(&judged),
        None => output += "the tables are not shown, since the header is refused\n",
    }
    (output, status)
}

/// The header's fields as far as there are any.
fn header(bytes: &[u8]) -> String {
    let letters = &bytes[..bytes.len().min(LETTERS.len())];
    let at = |place: usize| field(bytes, place).map_or("missing".to_string(), |v| v.to_string());
    let number = number(bytes).map_or("missing".to_string(), |n| n.to_string());
    let counts = COUNTS
        .iter()
        .map(|rule| format!("{} {}", rule.name, at(rule.at)));
    let offsets = (0..8).map(|n| at(OFFSETS + 2 * n));
    format!(
        "header\n  letters \"{}\", plan number {number}\n  length {} stated, {} in the file\n  {}\n  first oracle state {}\n{}  sections at {}\n",
        letters.escape_ascii(),
        at(LENGTH),
        bytes.len(),
        list(counts),
        at(FIRST),
        added(&Added::stated(bytes)),
        list(offsets)
    )
}

/// A line for the added oracles, where bytes 42 to 45 say anything.
fn added(added: &Added) -> String {
    match (added.number, added.states) {
        (0, [0, 0, 0]) => String::new(),
        (number, states) => format!("  added oracles {number}, their states {}\n", list(states)),
    }
}

fn tables(judged: &Judged) -> String {
    let tables = &judged.tables;
    let examiner = Examiner::new(judged);
    [
        section("components", components(tables)),
        section("variables", variables(tables)),
        section("transitions", transitions(judged, &examiner)),
        section("interactions", interactions(judged, &examiner)),
        section("ranks", ranks(tables)),
        section("propositions", propositions(judged, &examiner)),
        section("oracle states", oracle(tables)),
        added_oracles(tables),
    ]
    .concat()
}

/// A heading and its lines, or "none".
pub fn section(name: &str, mut lines: Vec<String>) -> String {
    if lines.is_empty() {
        lines.push("none".to_string());
    }
    let lines: String = lines.iter().map(|line| format!("  {line}\n")).collect();
    format!("\n{name}\n{lines}")
}

fn components(tables: &Tables) -> Vec<String> {
    let components = tables.components.iter().enumerate();
    components
        .map(|(c, component)| {
            let locations = counted(component.locations.into(), "location");
            let ports = counted(component.ports.into(), "port");
            format!("{c}: {locations}, starts at {}, {ports}", component.start)
        })
        .collect()
}

fn variables(tables: &Tables) -> Vec<String> {
    let variables = tables.variables.iter().enumerate();
    variables
        .map(|(n, v)| format!("v{n}: component {}, starts at {}", v.owner, v.value))
        .collect()
}

fn transitions(judged: &Judged, examiner: &Examiner) -> Vec<String> {
    let mut lines = Vec::new();
    for (n, t) in judged.tables.transitions.iter().enumerate() {
        lines.push(format!(
            "{n}: component {}, {} -> {} through port {}",
            t.component, t.source, t.destination, t.port
        ));
        lines.extend(code_lines(judged, examiner, 2 * n));
    }
    lines
}

fn interactions(judged: &Judged, examiner: &Examiner) -> Vec<String> {
    let mut lines = Vec::new();
    let before = 2 * judged.tables.transitions.len();
    for (n, interaction) in judged.tables.interactions.iter().enumerate() {
        lines.push(format!("{n}: {}", parts(interaction)));
        lines.extend(code_lines(judged, examiner, before + 2 * n));
    }
    lines
}

/// "component 0 at port 1, component 2 at port 0"
pub fn parts(interaction: &Interaction) -> String {
    let ports = interaction.ports.iter().enumerate();
    let named = ports.filter(|(_, &port)| port != NO_PORT);
    list(named.map(|(c, port)| format!("component {c} at port {port}")))
}

/// Lines for the guard and the update of a record, of which the guard is span `n` of the plan; an empty span has none.
fn code_lines(judged: &Judged, examiner: &Examiner, n: usize) -> Vec<String> {
    let sites = examiner.sites.iter().skip(n).take(2);
    sites
        .filter(|site| site.span.length > 0 || !examiner.faults(site).is_empty())
        .map(|site| format!("     {} {}", site.role.name(), code(judged, examiner, site)))
        .collect()
}

/// A span as expressions, or its words where it breaks the code rules.
fn code(judged: &Judged, examiner: &Examiner, site: &Site) -> String {
    let span = site.span;
    let Some(words) = span.words(&judged.tables.code) else {
        let words = judged.tables.code.len();
        return format!(
            "start {}, length {}: past the {words} code words",
            span.start, span.length
        );
    };
    let lawful = examiner.faults(site).is_empty();
    match expression::read(words).filter(|_| lawful) {
        Some(code) => code.to_string(),
        None => {
            let words: Vec<String> = words.iter().map(|word| format!("{word:04x}")).collect();
            let words = words.join(" ");
            format!("start {}: {words} (breaks the code rules)", span.start)
        }
    }
}

fn ranks(tables: &Tables) -> Vec<String> {
    let rows = tables.ranks.iter().enumerate();
    rows.filter(|(_, row)| row.above != 0)
        .map(|(i, row)| format!("{i} lies below {}", list(bits(row.above))))
        .collect()
}

fn propositions(judged: &Judged, examiner: &Examiner) -> Vec<String> {
    let sites = examiner
        .sites
        .iter()
        .filter(|site| site.role == Role::Proposition);
    let numbered = sites.enumerate();
    numbered
        .map(|(k, site)| format!("p{k}: {}", code(judged, examiner, site)))
        .collect()
}

fn oracle(tables: &Tables) -> Vec<String> {
    let letters = tables.layout.counts.letters();
    let letters = (0..letters).map(|letter| format!("{letter} {}", letter_name(letter)));
    let mut lines = vec![format!("letters, by what is true: {}", list(letters))];
    lines.extend(states(&tables.oracles[0]));
    lines
}

/// A section for each added oracle.
fn added_oracles(tables: &Tables) -> String {
    let added = tables.oracles.iter().enumerate().skip(1);
    let sections = added.map(|(n, oracle)| {
        let name = format!("states of added oracle {n}");
        section(&name, states(oracle))
    });
    sections.collect()
}

fn states(oracle: &[State]) -> Vec<String> {
    let line = |(s, state): (usize, &State)| {
        let next = state.next.iter().enumerate();
        let next = next.map(|(letter, next)| format!("{letter} -> {next}"));
        let verdict = verdict(state.verdict);
        format!("{s}: {verdict}; next by letter: {}", list(next))
    };
    oracle.iter().enumerate().map(line).collect()
}

/// The propositions that are true in a letter.
fn letter_name(letter: usize) -> String {
    let names: Vec<String> = bits(letter as u64).map(|k| format!("p{k}")).collect();
    match names.is_empty() {
        true => "none".to_string(),
        false => names.join("+"),
    }
}
