//! Job 7 of 02: a box gives turns to the lanes of its roster.

use reference::answer::{Answer, Refusal};
use reference::book::{Book, Call};
use reference::draft::Draft;
use reference::image::IMAGE_BYTES;
use reference::plan::Plan;
use reference::roster::{self, Record, MOST_LANES};

use crate::sample::*;
use crate::verdicts::{lane as one_lane, two_halves, BAD, START};

const FREE: u8 = 0;
const HELD: u8 = 1;
const IDLE: (Option<usize>, Answer) = (None, Answer::Idle);
const BAD_ROSTER: (Option<usize>, Answer) = (None, Answer::Refused(Refusal::BadRoster));
/// Faults of an image of the sample's: a byte, what it becomes, and the refusal.
const FAULTS: [(usize, u8, Refusal); 3] = [
    (0, b'P', Refusal::OtherPlan),
    (24, 3, Refusal::State),
    (16, 0b100, Refusal::FalseMark),
];

/// The lanes of a box.
#[derive(Clone, Debug, PartialEq, Eq)]
struct Lanes {
    roster: Vec<Record>,
    images: Vec<u8>,
}

/// Lanes that have just been started, each with its held byte and its wait; past 255 the numbers come round.
fn lanes(plan: &Draft, records: &[(u8, u16)]) -> Lanes {
    let record = |(number, &(held, wait))| Record { number, held, wait };
    Lanes {
        roster: (0..=255).cycle().zip(records).map(record).collect(),
        images: started(plan).repeat(records.len()),
    }
}

/// Free lanes of the sample with these waits.
fn free(waits: &[u16]) -> Lanes {
    lanes(&sample(), &Vec::from_iter(waits.iter().map(|&w| (FREE, w))))
}

impl Lanes {
    fn turn(&mut self, plan: &Draft) -> (Option<usize>, Answer) {
        roster::turn(&plan.bytes(), &mut self.roster, &mut self.images)
    }

    /// The lane that has the turn on the sample.
    fn served(&mut self) -> Option<usize> {
        self.turn(&sample()).0
    }

    fn waits(&self) -> Vec<u16> {
        self.roster.iter().map(|record| record.wait).collect()
    }

    fn image(&mut self, lane: usize) -> &mut Image {
        let bytes = &mut self.images[IMAGE_BYTES * lane..][..IMAGE_BYTES];
        bytes.try_into().unwrap()
    }

    /// The turn on the sample is answered so, and changes nothing.
    fn assert_unchanged(mut self, answer: (Option<usize>, Answer)) {
        let before = self.clone();
        assert_eq!(self.turn(&sample()), answer, "{:?}", before.roster);
        assert_eq!(self, before);
    }
}

#[test]
fn a_turn_goes_to_the_lane_that_waited_longest() {
    for (short, long) in [(0, 1), (255, 256), (32_767, 32_768), (65_534, 65_535)] {
        for (waits, lane) in [
            ([long, short, short], 0),
            ([short, long, short], 1),
            ([short, short, long], 2),
        ] {
            assert_eq!(free(&waits).served(), Some(lane), "{waits:?}");
        }
    }
}

#[test]
fn the_lowest_number_has_it_on_a_tie() {
    for wait in [1, 2, 65_534, 65_535] {
        assert_eq!(free(&[wait; 8]).served(), Some(0));
        assert_eq!(free(&[0, wait, 0, wait]).served(), Some(1));
        assert_eq!(free(&[0, 0, wait, wait]).served(), Some(2));
    }
    assert_eq!(free(&[0; 8]).served(), Some(0));
}

#[test]
fn with_any_byte_but_0_a_lane_is_held() {
    for held in 0..=255 {
        let mut lanes = lanes(&sample(), &[(FREE, 5), (held, 9)]);
        let expected = if held == 0 { 1 } else { 0 };
        assert_eq!(lanes.served(), Some(expected), "{held}");
        assert_eq!(lanes.roster[1].held, held);
    }
}

/// Every roster of four lanes that are held or not and waited once or not at all, by the words of job 7.
#[test]
fn each_turn_goes_to_the_unheld_lane_that_no_other_one_comes_before() {
    for bits in 0..256_u32 {
        let record = |lane: u32| ((bits >> lane & 1) as u8, (bits >> (lane + 4) & 1) as u16);
        let records = [0, 1, 2, 3].map(record);
        let comes_before = |one: usize, other: usize| {
            let (long, short) = (records[one].1, records[other].1);
            records[one].0 == FREE && (long > short || long == short && one < other)
        };
        let is_first =
            |&lane: &usize| records[lane].0 == FREE && !(0..4).any(|i| comes_before(i, lane));
        let expected = Vec::from_iter((0..4).filter(is_first));
        let served = lanes(&sample(), &records).served();
        assert_eq!(Vec::from_iter(served), expected, "{records:?}");
    }
}

#[test]
fn the_lane_is_settled_and_no_other_lane_s_bytes_change() {
    let plan = sample();
    for lane in 0..8 {
        let mut waits = [3; 8];
        waits[lane] = 4;
        let mut lanes = free(&waits);
        lanes.images.fill(0xa5);
        *lanes.image(lane) = started(&plan);
        let mut expected = lanes.clone();
        let answer = settle(&plan, expected.image(lane));
        assert_eq!(lanes.turn(&plan), (Some(lane), answer));
        assert_eq!(lanes.images, expected.images);
    }
}

#[test]
fn its_wait_becomes_0_and_every_other_one_grows_held_or_not() {
    let records = [(FREE, 7), (HELD, 9), (FREE, 8), (255, 0), (FREE, 0)];
    let mut lanes = lanes(&sample(), &records);
    let before = lanes.roster.clone();
    assert_eq!(lanes.served(), Some(2));
    assert_eq!(lanes.waits(), [8, 10, 0, 1, 1]);
    for (old, new) in before.iter().zip(&lanes.roster) {
        assert_eq!((old.number, old.held), (new.number, new.held));
    }
}

#[test]
fn a_wait_stops_at_65535_held_or_not() {
    let ends = [65_533, 65_534, 65_535];
    let mut all_free = free(&[ends[0], ends[1], ends[2], ends[2]]);
    assert_eq!(all_free.served(), Some(2));
    assert_eq!(all_free.waits(), [65_534, 65_535, 0, 65_535]);
    let mut held = lanes(&sample(), &[(FREE, 0), (HELD, ends[1]), (2, ends[2])]);
    for _ in 0..3 {
        assert_eq!(held.served(), Some(0));
        assert_eq!(held.waits(), [0, 65_535, 65_535]);
    }
}

#[test]
fn a_held_lane_comes_to_65535_and_stays_there() {
    let mut roster = lanes(&sample(), &[(FREE, 0), (HELD, 0)]).roster;
    for turns in 1..65_600_u32 {
        roster::move_on(&mut roster, 0);
        assert_eq!(u32::from(roster[1].wait), turns.min(65_535));
    }
}

#[test]
fn lanes_of_equal_waits_have_their_turns_one_after_the_other() {
    for count in 1..=8 {
        let mut lanes = free(&vec![65_535; count]);
        for turn in 0..3 * count {
            assert_eq!(lanes.served(), Some(turn % count));
        }
    }
}

#[test]
fn with_all_held_it_is_idle_and_nothing_changes() {
    for count in 1..=8 {
        for held in [1, 2, 128, 255] {
            lanes(&sample(), &vec![(held, 65_534); count]).assert_unchanged(IDLE);
        }
    }
    let mut damaged = lanes(&sample(), &[(HELD, 0), (HELD, 1)]);
    damaged.images.fill(0);
    damaged.assert_unchanged(IDLE);
    assert_eq!((Answer::Idle.kind(), Answer::Idle.number()), (7, 0));
}

#[test]
fn the_answer_names_a_lane_that_is_committed() {
    let plan = sample();
    let mut lanes = lanes(&plan, &[(HELD, 0), (FREE, 0)]);
    for number in [1, 0, 2, 1] {
        assert_eq!(lanes.turn(&plan), (Some(1), Answer::Committed(number)));
    }
}

#[test]
fn the_answer_names_a_lane_that_is_penned_or_stalled() {
    let plan = two_halves();
    let mut lanes = lanes(&plan, &[(FREE, 0), (FREE, 1)]);
    assert_eq!(lanes.turn(&plan), (Some(1), Answer::Penned));
    assert_eq!(list(&plan, lanes.image(0), &[0, 1]), Answer::Committed(2));
    assert_eq!(lanes.turn(&plan), (Some(0), Answer::Stalled));
}

#[test]
fn a_penned_lane_s_turn_changes_its_marks_alone() {
    let plan = one_lane(&[(START, BAD)], &[]);
    let mut lanes = lanes(&plan, &[(FREE, 0), (FREE, 0)]);
    let mut expected = lanes.images.clone();
    expected[16] = 1;
    assert_eq!(lanes.turn(&plan), (Some(0), Answer::Penned));
    assert_eq!(lanes.images, expected);
}

#[test]
fn a_lane_s_refusal_uses_up_its_turn() {
    for (at, byte, refusal) in FAULTS {
        for lane in 0..3 {
            let mut waits = [65_534; 3];
            waits[lane] = 65_535;
            let mut lanes = free(&waits);
            lanes.image(lane)[at] = byte;
            let before = lanes.images.clone();
            let refused = Answer::Refused(refusal);
            assert_eq!(lanes.turn(&sample()), (Some(lane), refused));
            assert_eq!(lanes.images, before);
            waits = [65_535; 3];
            waits[lane] = 0;
            assert_eq!(lanes.waits(), waits);
            // The next turn is another lane's.
            let next = if lane == 0 { 1 } else { 0 };
            assert_eq!(lanes.turn(&sample()), (Some(next), Answer::Committed(1)));
        }
    }
}

#[test]
fn a_refused_lane_is_served_again_in_its_turn() {
    let mut lanes = free(&[0, 0]);
    lanes.image(0)[0] = 0;
    let refused = Answer::Refused(Refusal::OtherPlan);
    for number in [1, 0, 2] {
        assert_eq!(lanes.turn(&sample()), (Some(0), refused));
        let committed = Answer::Committed(number);
        assert_eq!(lanes.turn(&sample()), (Some(1), committed));
    }
}

#[test]
fn r23_no_lanes_and_more_than_eight() {
    for count in (0..20).chain([255, 256, 257, 264]) {
        let lanes = free(&vec![0; count]);
        if (1..=MOST_LANES).contains(&count) {
            assert_eq!(lanes.clone().served(), Some(0));
        } else {
            lanes.assert_unchanged(BAD_ROSTER);
        }
    }
}

#[test]
fn r23_lane_numbers_that_do_not_run_from_0() {
    for lane in 0..8 {
        for number in (0..=255).filter(|&number| usize::from(number) != lane) {
            let mut lanes = free(&[1; 8]);
            lanes.roster[lane].number = number;
            lanes.assert_unchanged(BAD_ROSTER);
        }
    }
    for numbers in [
        &[1][..],
        &[1, 0],
        &[1, 2, 3],
        &[0, 0],
        &[0, 2, 1],
        &[2, 1, 0],
    ] {
        let mut lanes = free(&vec![1; numbers.len()]);
        for (record, &number) in lanes.roster.iter_mut().zip(numbers) {
            record.number = number;
        }
        lanes.assert_unchanged(BAD_ROSTER);
    }
}

#[test]
fn r23_a_buffer_that_is_not_312_bytes_a_lane() {
    for count in 1..=8 {
        let right = IMAGE_BYTES * count;
        let lengths = [
            0,
            1,
            right - 312,
            right - 1,
            right + 1,
            right + 312,
            2 * right,
        ];
        for length in lengths.into_iter().chain([312 * 9, 312 * 257]) {
            let mut lanes = free(&vec![0; count]);
            lanes.images.resize(length, 0);
            lanes.assert_unchanged(BAD_ROSTER);
        }
    }
}

#[test]
fn r23_stands_in_for_11() {
    for length in (0..=700).filter(|&length| length != IMAGE_BYTES) {
        let mut lanes = free(&[0]);
        lanes.images.resize(length, 0);
        lanes.assert_unchanged(BAD_ROSTER);
    }
}

/// What breaks the rule of 23, one way each.
fn spoilt(lanes: &Lanes) -> [Lanes; 4] {
    let spoil = |way: fn(&mut Lanes)| {
        let mut spoilt = lanes.clone();
        way(&mut spoilt);
        spoilt
    };
    [
        spoil(|lanes| lanes.images.truncate(2 * IMAGE_BYTES - 1)),
        spoil(|lanes| lanes.roster.truncate(1)),
        spoil(|lanes| lanes.roster.swap(0, 1)),
        spoil(|lanes| lanes.roster.clear()),
    ]
}

#[test]
fn r23_comes_after_the_plan_s_numbers() {
    let mut bad_code = sample();
    bad_code.code[0] = 0xffff;
    let mut bad_added = bad_code.clone();
    bad_added.added = vec![vec![state(4, &[0, 0])]];
    for (plan, refusal) in [
        (sample().bytes()[..47].to_vec(), Refusal::Head),
        (bad_added.bytes(), Refusal::AddedOracle),
        (bad_code.bytes(), Refusal::Code),
    ] {
        let lawful = lanes(&sample(), &[(FREE, 3), (HELD, 4), (FREE, 65_535)]);
        let held = lanes(&sample(), &[(HELD, 0), (HELD, 0)]);
        for mut lanes in spoilt(&lawful).into_iter().chain([lawful, held]) {
            let before = lanes.clone();
            let answer = roster::turn(&plan, &mut lanes.roster, &mut lanes.images);
            assert_eq!(answer, (None, Answer::Refused(refusal)));
            assert_eq!(lanes, before);
        }
    }
}

#[test]
fn r23_comes_before_idle_and_before_a_lane_s_numbers() {
    let mut damaged = free(&[2, 9]);
    damaged.images.fill(0);
    let held = lanes(&sample(), &[(HELD, 0), (HELD, 0)]);
    for lanes in [damaged, held] {
        for spoilt in spoilt(&lanes) {
            spoilt.assert_unchanged(BAD_ROSTER);
        }
    }
}

/// However the host holds and frees the others, the lane is served within so many turns.
fn assert_served(roster: &[Record], lane: usize, turns: usize) {
    assert!(turns > 0, "lane {lane} waits on: {roster:?}");
    for held in 0..1_u8 << roster.len() {
        let mut roster = roster.to_vec();
        for record in &mut roster {
            record.held = held >> record.number & 1;
        }
        if roster[lane].is_held() {
            continue;
        }
        let served = roster::next(&roster).expect("a lane is free");
        if served != lane {
            roster::move_on(&mut roster, served);
            assert_served(&roster, lane, turns - 1);
        }
    }
}

/// Every roster of so many lanes with these waits.
fn every_roster(count: usize, waits: &[u16], look: &mut dyn FnMut(&[u16])) {
    let mut chosen = vec![0; count];
    for n in 0..waits.len().pow(count as u32) {
        let mut rest = n;
        for wait in &mut chosen {
            *wait = waits[rest % waits.len()];
            rest /= waits.len();
        }
        look(&chosen);
    }
}

#[test]
fn a_lane_that_stays_unheld_is_served_within_as_many_turns_as_there_are_lanes() {
    let near = [0, 1, 2, 65_533, 65_534, 65_535];
    for (count, waits) in [(1, &near[..]), (2, &near), (3, &near), (4, &near[3..])] {
        every_roster(count, waits, &mut |waits| {
            let roster = free(waits).roster;
            for lane in 0..count {
                assert_served(&roster, lane, count);
            }
        });
    }
}

/// The same by whole turns, each lane's image refused or not.
#[test]
fn a_lane_is_served_whether_its_image_is_refused_or_not() {
    for damaged in 0..8_usize {
        every_roster(3, &[0, 65_535], &mut |waits| {
            for holds in 0..64 {
                let mut lanes = free(waits);
                for lane in (0..3).filter(|lane| damaged >> lane & 1 == 1) {
                    lanes.image(lane)[0] = 0;
                }
                assert_has_its_turn(lanes, holds);
            }
        });
    }
}

/// Lane 0 stays unheld, the others are held as the bits say, two for each turn.
fn assert_has_its_turn(mut lanes: Lanes, holds: u8) {
    let mut served = Vec::new();
    for turn in 0..3 {
        for lane in 1..3 {
            lanes.roster[lane].held = holds >> (2 * turn + lane - 1) & 1;
        }
        served.extend(lanes.served());
    }
    assert!(served.contains(&0), "{served:?}");
}

#[test]
fn the_last_of_eight_may_have_to_wait_for_the_eighth_turn() {
    let mut lanes = free(&[0; 8]);
    for lane in 0..7 {
        assert_eq!(lanes.served(), Some(lane));
    }
    assert_eq!(lanes.served(), Some(7));
}

#[test]
fn each_lane_follows_a_book_of_its_own() {
    let plan = sample();
    let book = || Book::new(Plan::read(&plan.bytes()).unwrap());
    let mut books = [book(), book(), book()];
    let mut lanes = free(&[0; 3]);
    for step in 0..30_usize {
        let tried = step % 3;
        let number = (step % 4) as u32;
        let answer = attempt(&plan, lanes.image(tried), number);
        assert_eq!(books[tried].call(Call::Try(number)), (answer, 0));
        lanes.roster[step % 3].held = 0;
        lanes.roster[(step + 1) % 3].held = (step % 5) as u8;
        let (Some(served), answer) = lanes.turn(&plan) else {
            panic!("a lane is free");
        };
        assert_eq!(books[served].call(Call::Settle), (answer, 0));
        for (lane, book) in books.iter().enumerate() {
            assert_eq!(*lanes.image(lane), book.image());
        }
    }
}
