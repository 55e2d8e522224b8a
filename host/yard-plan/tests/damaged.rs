//! Damaged plans, images and logs of the comparison's generator: the analysis finds the library's number, and its mends cure.

use compare::rng::Rng;
use compare::runs::Run;
use compare::{damage, generate, images};
use reference::plan::Plan;
use yard_plan::faults::{self, Fault, ORDER};
use yard_plan::mend::Mend;
use yard_plan::{command, image, log, report, show};

const PLANS: usize = 10_000;
const IMAGES: usize = 10_000;

fn library(plan: &[u8]) -> u32 {
    report::number(yard::check(plan))
}

/// Counts by the plan's refusals, in the order in which they are tested.
type Row = [usize; ORDER.len()];

#[derive(Debug, Default, PartialEq, Eq)]
struct Tally {
    accepted: usize,
    refused: Row,
    single: Row,
    cured: Row,
    no_mend: Row,
}

/// Causes that added oracles and ranks bring, each by its number and what its text has; the first fault of some plan, or image, has each.
const PLAN_CAUSES: [(u32, &str); 10] = [
    (1, "bytes 46 and 47 are "),
    (2, "but a plan has 0 to 3"),
    (2, "but their state counts are "),
    (2, "but an oracle has 1 to 32"),
    (2, "but the plan adds "),
    (3, "added oracle"),
    (20, ", but there are 0 bad"),
    (20, ", but added oracle "),
    (20, ", but this state has verdict 0"),
    (20, ", but this state has verdict 3"),
];
const IMAGE_CAUSES: [(u32, &str); 9] = [
    (13, ", but added oracle "),
    (13, " of added oracle 1 has verdict 0"),
    (13, " of added oracle 1 has verdict 1"),
    (13, "oracle state 1 has verdict 1"),
    (13, "the state of added oracle "),
    (14, " above it is enabled and not marked"),
    (14, " above it are enabled and not marked"),
    (14, " above it is enabled and may not be marked"),
    (14, ", which would end well: "),
];

/// Takes a fault's cause out of those not met yet.
fn meet(missing: &mut Vec<(u32, &str)>, fault: Option<&Fault>) {
    let is = |fault: &Fault, (number, text)| fault.number == number && fault.text.contains(text);
    missing.retain(|&cause| !fault.is_some_and(|fault| is(fault, cause)));
}

/// The place of a plan's refusal in the order.
fn place(number: u32) -> usize {
    let found = ORDER.iter().position(|&other| other == number);
    found.expect("a plan's refusal")
}

#[test]
fn the_first_number_is_the_librarys_and_single_faults_are_cured() {
    let mut rng = Rng::new(12);
    let mut tally = Tally::default();
    let mut missing = PLAN_CAUSES.to_vec();
    for round in 0..PLANS {
        let lawful = generate::plan(&mut rng).draft;
        let plan = damage::plan(&mut rng, &lawful);
        let number = library(&plan);
        let faults = faults::of_plan(&plan).faults;
        let first = faults.first().map_or(0, |fault| fault.number);
        assert_eq!(first, number, "round {round}: {:?}", faults.first());
        assert!(faults.iter().map(|fault| place(fault.number)).is_sorted());
        meet(&mut missing, faults.first());
        match number {
            0 => tally.accepted += 1,
            _ => tally.refused[place(number)] += 1,
        }
        if let [fault] = &faults[..] {
            mend(&mut tally, round, &plan, fault);
        }
    }
    report(&tally);
    let mended = (0..ORDER.len()).map(|n| tally.cured[n] + tally.no_mend[n]);
    assert_eq!(Vec::from_iter(mended), tally.single);
    assert!(tally.refused.iter().all(|&count| count > 0));
    assert!(tally.cured.iter().all(|&count| count > 0));
    assert_eq!(missing, []);
}

/// Applies a single fault's mend, after which the plan is accepted; where there is none, says what holds instead.
fn mend(tally: &mut Tally, round: usize, plan: &[u8], fault: &Fault) {
    let at = place(fault.number);
    tally.single[at] += 1;
    let Some(mend) = &fault.mend else {
        tally.no_mend[at] += 1;
        return without_mend(round, plan, fault);
    };
    let mut mended = plan.to_vec();
    mend.apply(&mut mended);
    let after = faults::of_plan(&mended).faults;
    assert_eq!(
        library(&mended),
        0,
        "round {round}: {fault:?}, then {after:?}"
    );
    tally.cured[at] += 1;
}

/// Three kinds of plans cannot be cured by writing bytes: fewer bytes than a header, sections laid out for a count outside its range, and a
/// file that ends before its sections do.
fn without_mend(round: usize, plan: &[u8], fault: &Fault) {
    match fault.number {
        1 => assert!(plan.len() < 48, "round {round}"),
        2 => assert!(no_count_cures(plan, fault.place), "round {round}"),
        3 => {
            assert_eq!(fault.place, plan.len(), "round {round}");
            let mut extended = plan.to_vec();
            extended.resize(given_length(fault), 0);
            assert!(!matches!(library(&extended), 1..=3), "round {round}");
        }
        number => panic!("round {round}: {number} has no mend: {fault:?}"),
    }
}

/// Whether the plan is refused whatever is written into a field: one of 16 bits, or of a byte from 42 on.
fn no_count_cures(plan: &[u8], at: usize) -> bool {
    let mut changed = plan.to_vec();
    let size = if at < 42 { 2 } else { 1 };
    (0..=u16::MAX >> (16 - 8 * size)).all(|count| {
        changed[at..at + size].copy_from_slice(&count.to_le_bytes()[..size]);
        library(&changed) != 0
    })
}

/// The length that the text says the counts give.
fn given_length(fault: &Fault) -> usize {
    let last = fault.text.rsplit(' ').next();
    last.and_then(|number| number.parse().ok()).unwrap()
}

fn report(tally: &Tally) {
    let sum = |row: &Row| row.iter().sum::<usize>();
    println!("{PLANS} plans, {} accepted", tally.accepted);
    println!("number   refused  single fault  mended and accepted  no mend");
    for (n, number) in ORDER.iter().enumerate() {
        let (refused, single) = (tally.refused[n], tally.single[n]);
        let (cured, none) = (tally.cured[n], tally.no_mend[n]);
        println!("{number:6} {refused:9} {single:13} {cured:20} {none:8}");
    }
    let (refused, single) = (sum(&tally.refused), sum(&tally.single));
    let (cured, none) = (sum(&tally.cured), sum(&tally.no_mend));
    println!("   all {refused:9} {single:13} {cured:20} {none:8}");
}

/// A lane of the plan after a few settlings and tries, or with another state or other marks.
fn lane(rng: &mut Rng, plan: &[u8], lawful: &reference::draft::Draft) -> Option<Vec<u8>> {
    let mut image = vec![0; yard::IMAGE_BYTES];
    if yard::start(plan, &mut image).kind != yard::ACCEPTED {
        return None;
    }
    for _ in 0..rng.below(4) {
        yard::settle(plan, &mut image);
    }
    for _ in 0..rng.below(4) {
        let number = rng.below(lawful.interactions.len()) as u32;
        yard::attempt(plan, &mut image, number);
    }
    Some(match rng.below(10) {
        0..=2 => images::redressed(rng, &image, lawful),
        3 | 4 => images::marked(rng, &image, lawful),
        _ => image,
    })
}

#[test]
fn the_first_number_of_an_image_is_the_librarys_and_single_faults_are_cured() {
    let mut rng = Rng::new(13);
    let mut met = [0; 15];
    let (mut single, mut cured) = (0, 0);
    let mut other = vec![0; yard::IMAGE_BYTES];
    let mut missing = IMAGE_CAUSES.to_vec();
    while met.iter().sum::<usize>() < IMAGES {
        let lawful = generate::plan(&mut rng).draft;
        let plan = lawful.bytes();
        let Some(image) = lane(&mut rng, &plan, &lawful) else {
            continue;
        };
        let damaged = images::damaged(&mut rng, &image, &lawful, &other);
        other = image;
        let number = report::number(yard::offered(&plan, &damaged));
        let analysis = image::analyse(&plan, &damaged);
        assert_eq!(analysis.first_number(), number, "{:?}", analysis.faults);
        meet(&mut missing, analysis.faults.first());
        let (output, status) = image::show(&plan, &damaged);
        assert!(!output.is_empty() && status == u8::from(number != 0));
        met[number as usize] += 1;
        if let [Fault {
            mend: Some(mend), ..
        }] = &analysis.faults[..]
        {
            let mut mended = damaged.clone();
            mend.apply(&mut mended);
            single += 1;
            cured += usize::from(yard::offered(&plan, &mended).kind == yard::ACCEPTED);
        }
    }
    println!("{IMAGES} images by number: {met:?}; single faults with a mend {single}, accepted after it {cured}");
    assert!(met[11..].iter().all(|&count| count > 0));
    assert_eq!(single, cured);
    assert_eq!(missing, []);
}

/// What the line on a log may be, with its status.
const LINES: [(&str, &str, u8); 12] = [
    ("accepted", "", 0),
    ("refused 21: ", ", an odd number, ", 1),
    ("refused 15: ", " which is bad", 1),
    ("refused 15: ", " which is currently false", 1),
    ("entry ", ": 16, the plan has ", 4),
    ("entry ", " is not enabled: its guard is false: ", 4),
    ("entry ", " has no transition from location ", 4),
    ("entry ", " has a true guard", 4),
    ("entry ", " lies above ", 4),
    ("entry ", " lie above ", 4),
    ("entry ", ", verdict 1, currently false", 4),
    ("entry ", ": bad, interaction ", 4),
];

/// A run of a lawful plan, whole or spoilt.
fn log_of(rng: &mut Rng, plan: &[u8]) -> Vec<u8> {
    let most = rng.below(8);
    let run = Run::new(rng, Plan::read(plan).unwrap(), most);
    match rng.chance(20) {
        true => run.log(),
        false => run.spoilt(rng),
    }
}

#[test]
fn a_log_is_told_in_one_line_on_which_library_and_reference_agree() {
    let mut rng = Rng::new(20);
    let mut met = [0; LINES.len()];
    for _ in 0..5_000 {
        let plan = generate::plan(&mut rng).draft.bytes();
        let log = log_of(&mut rng, &plan);
        let (output, status) = log::check(&plan, &log);
        let is = |(start, part, with): &(&str, &str, u8)| {
            output.starts_with(start) && output.contains(part) && status == *with
        };
        let found = LINES.iter().position(is);
        met[found.unwrap_or_else(|| panic!("{output}status {status}"))] += 1;
        assert_eq!(output.lines().count(), 1, "{output}");
    }
    println!("logs by line: {met:?}");
    assert!(met.iter().all(|&count| count > 0));
}

#[test]
fn no_plan_no_image_and_no_log_makes_a_command_panic() {
    let mut rng = Rng::new(14);
    for _ in 0..2_000 {
        let lawful = generate::plan(&mut rng).draft;
        let mut plan = damage::plan(&mut rng, &lawful);
        if rng.chance(40) {
            // Most often the header is kept, so that the rest is read.
            let kept = if rng.chance(80) { 48 } else { 0 };
            let from = rng.between(kept.min(plan.len()), plan.len());
            rng.fill(&mut plan[from..]);
        }
        let number = library(&plan);
        let first = match number {
            0 => "accepted".to_string(),
            _ => format!("refused {number}"),
        };
        let mut image = vec![0; rng.pick(&[0, 311, 312, 312, 312, 313])];
        rng.fill(&mut image);
        for (output, status) in [show::plan(&plan), command::check(&plan)] {
            assert_eq!(output.lines().next(), Some(&first[..]));
            assert_eq!(status, u8::from(number != 0));
        }
        let (output, status) = image::show(&plan, &image);
        assert!(output.starts_with("refused ") && status == 1);
        let (output, status) = log::check(&plan, &image);
        assert_eq!(
            output.lines().next() == Some(&first[..]),
            number != 0 || status == 0
        );
        assert!(status != report::DIFFERENT);
    }
}

#[test]
fn a_refused_start_is_told_of_an_accepted_plan() {
    let mut rng = Rng::new(18);
    let (mut started, mut refused, mut no_way, mut added) = (0, 0, 0, 0);
    for _ in 0..2_000 {
        let plan = generate::plan(&mut rng).draft.bytes();
        let number = report::number(yard::start(&plan, &mut [0; yard::IMAGE_BYTES]));
        for (output, status) in [show::plan(&plan), command::check(&plan)] {
            let told = output.starts_with("accepted\nbut a start is refused 15: ");
            assert_eq!((told, status), (number == 15, 0), "{output}");
            assert!(!output.contains("differ"), "{output}");
        }
        let (output, _) = command::check(&plan);
        started += usize::from(number == 0 && output == "accepted\n");
        no_way += usize::from(output.contains("  cure: another first oracle state"));
        added += usize::from(output.contains("  cure: another table for added oracle"));
        refused += usize::from(output.contains("  cure: other starting locations"));
    }
    println!("2000 plans: {started} started, {refused} bad at first, {no_way} and {added} bad whatever the starting state");
    assert_eq!(started + refused + no_way + added, 2_000);
    assert!(refused > 20 && no_way > 20 && added > 20);
}

/// Asserts that a try of each move told to be held down is refused 18, and of no other.
fn held_down(plan: &[u8], image: &[u8], told: &str) {
    let held = told.split("\nheld down\n").nth(1).unwrap_or("");
    let number = |line: &str| line.trim().split(':').next()?.parse::<u32>().ok();
    let told: Vec<u32> = held.lines().filter_map(number).collect();
    let tried = |&i: &u32| report::number(yard::attempt(plan, &mut image.to_vec(), i)) == 18;
    assert_eq!(told, Vec::from_iter((0..64).filter(tried)));
}

/// With nothing on offer, marks tell the two apart: of enabled moves without a mark one has none above it, and is on offer.
#[test]
fn nothing_on_offer_is_stalled_or_penned() {
    let mut rng = Rng::new(19);
    let (mut stalled, mut penned) = (0, 0);
    for _ in 0..2_000 {
        let lawful = generate::plan(&mut rng).draft;
        let plan = lawful.bytes();
        let Some(mut image) = lane(&mut rng, &plan, &lawful) else {
            continue;
        };
        yard::settle(&plan, &mut image);
        if yard::offered(&plan, &image).kind != yard::ACCEPTED {
            continue;
        }
        let kept = image.clone();
        let (output, _) = image::show(&plan, &image);
        assert_eq!(image, kept);
        let told = output.rsplit("\non offer\n").next().unwrap();
        held_down(&plan, &image, told);
        assert!(!told.contains("although"), "{told}");
        let none = told.starts_with("  none: ");
        assert_eq!(none, yard::offered_bits(&plan, &image) == 0);
        let marked = image[16..24].iter().any(|&byte| byte != 0);
        if none {
            assert_eq!(told.contains("penned"), marked, "{output}");
            assert_eq!(told.contains("stalled"), !marked, "{output}");
            *(if marked { &mut penned } else { &mut stalled }) += 1;
        }
    }
    println!("nothing on offer: {stalled} stalled, {penned} penned");
    assert!(stalled > 50 && penned > 50);
}

/// The plan after the mends of its first faults in turn, and how many they were.
fn mended(mut plan: Vec<u8>) -> (Vec<u8>, usize) {
    for steps in 0..1_000 {
        let faults = faults::of_plan(&plan).faults;
        let Some(mend) = faults.first().and_then(|fault| fault.mend.as_ref()) else {
            return (plan, steps);
        };
        mend.apply(&mut plan);
    }
    panic!("the mends do not end");
}

#[test]
fn mends_one_after_the_other_end_with_an_accepted_plan() {
    let mut rng = Rng::new(17);
    let (mut several, mut accepted, mut most) = (0, 0, 0);
    for round in 0..2_000 {
        let lawful = generate::plan(&mut rng).draft;
        let mut plan = damage::plan(&mut rng, &lawful);
        for _ in 0..rng.below(4) {
            let at = rng.below(plan.len().max(1)).max(48);
            let byte = rng.byte();
            plan.iter_mut().skip(at).take(1).for_each(|b| *b = byte);
        }
        several += usize::from(faults::of_plan(&plan).faults.len() > 1);
        let (plan, steps) = mended(plan);
        let number = library(&plan);
        assert!(number <= 3, "round {round}: {number} is left");
        accepted += usize::from(number == 0);
        most = steps.max(most);
    }
    println!("2000 plans, {several} with several faults: {accepted} accepted after at most {most} mends, the rest have none");
    assert!(several > 200 && accepted > 1_500);
}

#[test]
fn a_mend_is_a_small_change() {
    let mut rng = Rng::new(15);
    for _ in 0..2_000 {
        let lawful = generate::plan(&mut rng).draft;
        let plan = damage::plan(&mut rng, &lawful);
        for fault in faults::of_plan(&plan).faults {
            match fault.mend {
                Some(Mend::Write(writes)) => {
                    let inside = writes.iter().all(|&(at, _)| at < plan.len());
                    assert!(inside || plan.len() < 48);
                    assert!(writes
                        .iter()
                        .any(|&(at, value)| plan.get(at) != Some(&value)));
                }
                Some(Mend::Cut(length)) => assert!(length < plan.len()),
                None => assert!(fault.number <= 3 || fault.number == 10, "{fault:?}"),
            }
        }
    }
}
