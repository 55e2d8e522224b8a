//! A lane's image: what it holds, and what is wrong with it.

mod body;
mod head;
mod marks;
mod offer;
mod places;
mod swapped;

use crate::faults::{self, Analysis, Fault};
use crate::report;
use crate::show;
use crate::tables::Tables;
use crate::text::{bits, last_port, oracle_state, verdict};

use places::Image;
use swapped::Swapped;

/// The lane, or why the library refuses the plan or the image; then the lane as far as it can be told.
pub fn show(plan: &[u8], image: &[u8]) -> (String, u8) {
    let number = report::number(yard::offered(plan, image));
    let analysis = analyse(plan, image);
    let (mut output, status) = report::verdict(number, analysis.first_number());
    let swapped = Swapped::of(plan, image);
    output += swapped.map_or("", Swapped::question);
    if !swapped.is_some_and(|swapped| swapped.explains(number)) {
        output += &report::listed(&analysis);
    }
    if let (Some(tables), Some(read)) = (Tables::read(plan), Image::of(image)) {
        output += &match number {
            12 => head::own(plan, &tables, &read),
            // Past 12 the image is a lane of this plan.
            0 => {
                let offered = offer::lines(plan, &tables, image);
                lane(&tables, &read, offered) + &offer::held_down(plan, &tables, &read)
            }
            13 | 14 => lane(&tables, &read, offer::not_told()),
            _ => String::new(),
        };
    }
    (output, status)
}

/// The plan's faults, and where there are none the image's.
pub fn analyse(plan: &[u8], image: &[u8]) -> Analysis {
    let analysis = faults::of_plan(plan);
    match Tables::read(plan) {
        Some(tables) if analysis.faults.is_empty() => Analysis {
            faults: of_image(plan, &tables, image),
            rest: None,
        },
        _ => analysis,
    }
}

/// Every fault that can be told: of an image that is too long its first 312 bytes are judged too.
fn of_image(plan: &[u8], tables: &Tables, bytes: &[u8]) -> Vec<Fault> {
    let mut faults = Vec::from_iter(head::length(bytes.len()));
    let image = bytes.get(..yard::IMAGE_BYTES).and_then(Image::of);
    faults.extend(image.iter().flat_map(|image| of_whole(plan, tables, image)));
    faults
}

/// The faults of 312 bytes. An image of another plan is not judged by this one, and marks are judged in a lawful state alone: the image's
/// own, or the one that the cures of 13 give.
fn of_whole(plan: &[u8], tables: &Tables, image: &Image) -> Vec<Fault> {
    let mut faults = head::faults(plan, tables, image);
    if !head::same_plan(plan, tables, image) {
        return faults;
    }
    let body = body::faults(tables, image);
    let state = cured(image.0, &body);
    faults.extend(body);
    if let Some(state) = state.as_deref().and_then(Image::of) {
        faults.extend(marks::untrue(plan, tables, &state));
    }
    faults.extend(marks::outside(tables, image));
    faults
}

/// The image after the mends of some faults; none where one has no mend.
fn cured(bytes: &[u8], faults: &[Fault]) -> Option<Vec<u8>> {
    let mut bytes = bytes.to_vec();
    for fault in faults {
        fault.mend.as_ref()?.apply(&mut bytes);
    }
    Some(bytes)
}

fn lane(tables: &Tables, image: &Image, offered: Vec<String>) -> String {
    [
        show::section("lane", state(tables, image)),
        show::section("components", components(tables, image)),
        show::section("variables", variables(tables, image)),
        show::section("marks", moves(tables, image.marks())),
        show::section("on offer", offered),
    ]
    .concat()
}

fn state(tables: &Tables, image: &Image) -> Vec<String> {
    let mut lines = vec![format!("plan number {}", image.number())];
    lines.extend((0..tables.oracles.len()).map(|n| oracle(tables, image, n)));
    lines
}

fn oracle(tables: &Tables, image: &Image, n: usize) -> String {
    let state = image.oracle(n);
    let found = tables.oracles[n].get(usize::from(state));
    let told = found.map_or("not of this plan".to_string(), |s| verdict(s.verdict));
    format!("{}: {told}", oracle_state(n, state))
}

fn components(tables: &Tables, image: &Image) -> Vec<String> {
    let line = |c| {
        let port = last_port(image.last_port(c));
        format!("{c}: location {}, last port {port}", image.location(c))
    };
    (0..tables.components.len()).map(line).collect()
}

fn variables(tables: &Tables, image: &Image) -> Vec<String> {
    let variables = tables.variables.iter().enumerate();
    variables
        .map(|(n, v)| format!("v{n} = {} (component {})", image.value(n), v.owner))
        .collect()
}

/// The interactions of a mask with their components and ports.
fn moves(tables: &Tables, mask: u64) -> Vec<String> {
    let line = |i: usize| match tables.interactions.get(i) {
        Some(interaction) => format!("{i}: {}", show::parts(interaction)),
        None => format!("{i}: not of this plan"),
    };
    bits(mask).map(line).collect()
}
