//! Planted mismatches: each has to be found and named.

use crate::Texts;

/// A text, what is replaced in it, by what, and the beginnings of all differences then found.
const PLANTED: &str = r##"
# a renamed function
header | yard_settle( | yard_settled( | yard_settle is not in the header; yard_settled: the header alone has
source | fn yard_settle( | fn yard_settled( | yard_settled is not in the header; yard_settle: the header alone has
# a missing function
header | uint32_t yard_check(const uint8_t *plan, size_t plan_len); |  | yard_check is not in the header, wanted: uint32_t (const
source | extern "C" fn yard_try( | fn yard_try( | yard_try: the header alone has uint32_t (const
# an extra function
header | uint32_t yard_check( | uint32_t yard_stop(void); uint32_t yard_check( | yard_stop: the header alone has uint32_t (void)
source | // Settles | extern "C" fn yard_stop(n: u64) -> u32 {} // | yard_stop is not in the header, wanted: uint32_t (uint64_t n)
header | uint32_t yard_check( | uint64_t yard_settle(void); uint32_t yard_check( | yard_settle is twice in the header
# swapped parameters
header | const uint8_t *plan, size_t plan_len); | size_t plan_len, const uint8_t *plan); | yard_check: the header has
header | size_t image_len, uint32_t interaction | uint32_t interaction, size_t image_len | yard_try: the header has
source | yard_start(plan: &[u8], image: &mut [u8]) | yard_start(image: &mut [u8], plan: &[u8]) | yard_start: the header has
# a renamed or missing parameter
header | uint32_t interaction | uint32_t move | yard_try: the header has
header | , uint32_t interaction |  | yard_try: the header has
# another type
header | uint32_t interaction | uint64_t interaction | yard_try: the header has
source | interaction: u32 | interaction: u64 | yard_try: the header has
source | yard_offered(plan: &[u8], image: &[u8]) | yard_offered(plan: &[u8], image: &mut [u8]) | yard_offered: the header has
source | interaction: u32 | interaction: Move | yard_try of the source cannot be read
# another result
header | uint64_t yard_offered_bits | uint32_t yard_offered_bits | yard_offered_bits: the header has uint32_t
source | interaction: u32) -> u32 | interaction: u32) -> u64 | yard_try: the header has uint32_t
# a log's calls
source | fn yard_log( | fn yard_logs( | yard_logs is not in the header; yard_log: the header alone has
header | uint64_t yard_log_index | uint32_t yard_log_index | yard_log_index: the header has uint32_t
source | yard_log(plan: &[u8], log: &[u8]) | yard_log(plan: &[u8], log: &mut [u8]) | yard_log: the header has
# a list's call
source | fn yard_list( | fn yard_lists( | yard_lists is not in the header; yard_list: the header alone has
source | yard_list(plan: &[u8], image: &mut [u8], moves: &[u8]) | yard_list(plan: &[u8], image: &[u8], moves: &[u8]) | yard_list: the header has
header | const uint8_t *moves, size_t moves_len | size_t moves_len, const uint8_t *moves | yard_list: the header has
# a turn's call
source | fn yard_turn( | fn yard_turns( | yard_turns is not in the header; yard_turn: the header alone has
source | roster: &mut [Lane] | roster: &[Lane] | yard_turn of the source cannot be read
source | roster: &mut [Lane], images: &mut [u8] | images: &mut [u8], roster: &mut [Lane] | yard_turn: the header has
header | struct yard_lane *roster, size_t lanes | struct yard_lane *roster, size_t roster_len | yard_turn: the header has
header | struct yard_lane *roster, size_t lanes | const struct yard_lane *roster, size_t lanes | yard_turn: the header has
header | uint8_t *images, size_t images_len | const uint8_t *images, size_t images_len | yard_turn: the header has
# a lane's record
header | uint16_t wait; | uint32_t wait; | wait: the header has uint32_t, wanted: uint16_t
header | uint8_t held; |  | held is not in the header, wanted: uint8_t
header | uint16_t wait; | uint16_t wait; uint8_t late; | late: the header alone has uint8_t
header | uint8_t held; | uint8_t number; | number is twice in the header; held is not in the header, wanted: uint8_t
header | uint8_t number; | uint16_t wait; uint8_t number; | wait is twice in the header
record | pub held: u8, | pub kept: u8, | kept is not in the header, wanted: uint8_t; held: the header alone has
record | pub held: u8, | pub held: u16, | held: the header has uint8_t, wanted: uint16_t
record | pub held: u8, | pub held: bool, | Lane of the source cannot be read
record | pub held: u8, | pub held: u8, pub late: u8, | late is not in the header, wanted: uint8_t
record | #[repr(C)] |  | Lane of the source cannot be read
record | pub struct Lane { | pub struct Record { | Lane of the source cannot be read
header | struct yard_lane { | struct yard_record { | the header's structures are other ones
header | struct yard_lane { | struct late { int late; }; struct yard_lane { | the header's structures are other ones
# another kind
header | YARD_PENNED = 4 | YARD_PENNED = 6 | YARD_PENNED: the header has 6, wanted: 4
calls | penned = record { kind = 4 | penned = record { kind = 3 | YARD_PENNED: the header has 4, wanted: 3
header | YARD_STALLED = 3, |  | YARD_STALLED is not in the header, wanted: 3
header | YARD_REFUSED = 5 | YARD_REFUSED = 5, YARD_LATE = 6 | YARD_LATE: the header alone has 6
header | YARD_WRONG = 6 | YARD_WRONG = 7 | YARD_WRONG: the header has 7, wanted: 6
log | record { kind = 6 | record { kind = 5 | YARD_WRONG: the header has 6, wanted: 5
header | YARD_IDLE = 7 | YARD_IDLE = 6 | YARD_IDLE: the header has 6, wanted: 7
turn | packed_turn idle = 7 | packed_turn idle = 8 | YARD_IDLE: the header has 7, wanted: 8
turn | packed_turn idle = 7 * 65536 | packed_turn idle = 7 * 256 | the kind of idle cannot be read in the definitions
# another refusal number
header | YARD_MARKED = 19 | YARD_MARKED = 28 | YARD_MARKED: the header has 28, wanted: 19
header | YARD_BAD_HEAD = 1 | YARD_BAD_HEAD = 2 | YARD_BAD_HEAD stands before YARD_BAD_COUNT; YARD_BAD_HEAD: the header has 2, wanted: 1
rules | rule 9 ( | rule 8 ( | 8 is the number of two rules; 8 is the number of two rules; YARD_BAD_ORACLE: the header has 9, wanted: 8
calls | rule 15 ( | rule 28 ( | YARD_BAD_START: the header has 15, wanted: 28
log | rule 21 ( | rule 28 ( | YARD_ODD_LOG: the header has 21, wanted: 28
load | rule 22 ( | rule 28 ( | YARD_BAD_LIST: the header has 22, wanted: 28
turn | rule 23 ( | rule 28 ( | YARD_BAD_ROSTER: the header has 23, wanted: 28
log | rule 15 ( | rule 28 ( | YARD_BAD_START: the header has 15, wanted: 28
log | rule 18 (not | rule 28 (not | YARD_OUTRANKED: the header has 18, wanted: 28
# two rules with each other's numbers
log | rule 16 (ltb i (interactions p)) ∷ rule 17 (enabled p c.state i) | rule 17 (ltb i (interactions p)) ∷ rule 16 (enabled p c.state i) | YARD_NO_SUCH_MOVE stands before YARD_NOT_ENABLED; YARD_NO_SUCH_MOVE: the header has 16, wanted: 17; YARD_NOT_ENABLED: the header has 17, wanted: 16
rules | (head_ok p) ∷ rule 2 (counts_ok p) | (counts_ok p) ∷ rule 2 (head_ok p) | YARD_BAD_COUNT: the header has 2, wanted: 1; YARD_BAD_HEAD: the header has 1, wanted: 2
rules | rule 9 (table_ok p 0) ∷ rule 20 | rule 20 (table_ok p 0) ∷ rule 9 | YARD_BAD_ORACLE stands before YARD_BAD_ADDED; YARD_BAD_ORACLE: the header has 9, wanted: 20; YARD_BAD_ADDED: the header has 20, wanted: 9
# a missing or extra refusal
header | YARD_OUTRANKED = 18, |  | YARD_OUTRANKED is not in the header, wanted: 18
image | rule 12 (head_matches p b) ∷ |  | YARD_OTHER_PLAN: the header alone has 12
calls | ∷ rule 19 ( | ∷ rule 28 (late p b) ∷ rule 19 ( | rule 28 has no name: late p b
header | YARD_MARKED = 19 | YARD_MARKED = 19, YARD_LATE = 28 | YARD_LATE: the header alone has 28
header | YARD_ODD_LOG = 21, |  | YARD_ODD_LOG is not in the header, wanted: 21
log | rule 21 (eqb (length l % 2) 0) ∷ |  | YARD_ODD_LOG: the header alone has 21
log | rule 21 (eqb (length l % 2) 0) ∷ | rule 21 (even l) ∷ | rule 21 has no name: even l; YARD_ODD_LOG: the header alone has 21
header | YARD_BAD_LIST = 22, |  | YARD_BAD_LIST is not in the header, wanted: 22
header | YARD_BAD_ROSTER = 23, |  | YARD_BAD_ROSTER is not in the header, wanted: 23
turn | rule 23 (roster_ok l k) | rule 23 (lanesOk l k) | rule 23 has no name: lanesOk l k; YARD_BAD_ROSTER: the header alone has 23
# another length of a list or of a roster
header | YARD_LIST_MOVES = 8 | YARD_LIST_MOVES = 9 | YARD_LIST_MOVES: the header has 9, wanted: 8
load | max_moves = 8 | max_moves = 16 | YARD_LIST_MOVES: the header has 8, wanted: 16
header | YARD_ROSTER_LANES = 8 | YARD_ROSTER_LANES = 9 | YARD_ROSTER_LANES: the header has 9, wanted: 8
roster | max_lanes = 8 | max_lanes = 4 | YARD_ROSTER_LANES: the header has 8, wanted: 4
# another length or place of the image
header | YARD_IMAGE_BYTES = 312 | YARD_IMAGE_BYTES = 311 | YARD_IMAGE_BYTES: the header has 311, wanted: 312
image | image_length = 312 | image_length = 320 | YARD_IMAGE_BYTES: the header has 312, wanted: 320
header | YARD_IMAGE_MARKS = 16 | YARD_IMAGE_MARKS = 15 | YARD_IMAGE_MARKS: the header has 15, wanted: 16
header | YARD_IMAGE_ORACLE = 8, |  | YARD_IMAGE_ORACLE is not in the header, wanted: 8
image | value_place v = 56 | value_place v = 60 | YARD_IMAGE_VALUES: the header has 56, wanted: 60
image | ∷ get_or qs 1 0 ∷ | ∷ | YARD_IMAGE_PLAN_NUMBER: the header has 12, wanted: 11
# another packing
header | >> 16 | >> 8 | the header's directives are other ones: Some("#define YARD_KIND(answer) (((uint32_t)(answer) >> 8) & 0xffu)")
header | >> 24 | >> 16 | the header's directives are other ones: Some("#define YARD_LANE(answer) ((uint32_t)(answer) >> 16)")
header | 65536u + 3u | 65536u + 4u | the header's directives are other ones: Some("#define YARD_OF_LANE(answer)
header | #define YARD_H | #define YARD_H 1 | the header's directives are other ones: Some("#define YARD_H 1")
calls | a.kind * 65536 | a.kind * 256 | not found: packed a
turn | i * 16777216 | i * 65536 | not found: packed_turn (served i a)
# an enumeration more or less
header | enum yard_kind { | enum { YARD_LATE = 9 }; enum yard_kind { | the header's enumerations are other ones
header | enum yard_kind { | enum yard_answer { | the header's enumerations are other ones
# what cannot be read
header | enum yard_kind { | typedef int answer; enum yard_kind { | cannot be read in the header: typedef int answer
header | YARD_PENNED = 4 | YARD_PENNED | cannot be read in the header: enum yard_kind
header | uint8_t held; | uint8_t held[1]; | cannot be read in the header: struct yard_lane
"##;

fn side<'a>(texts: &'a mut Texts, name: &str) -> &'a mut String {
    match name {
        "header" => &mut texts.header,
        "source" => &mut texts.source,
        "record" => &mut texts.record,
        "rules" => &mut texts.rules,
        "image" => &mut texts.image,
        "calls" => &mut texts.calls,
        "load" => &mut texts.load,
        "log" => &mut texts.log,
        "roster" => &mut texts.roster,
        "turn" => &mut texts.turn,
        other => panic!("no text is called {other}"),
    }
}

/// Replaces the one place where it stands.
fn edit(text: &mut String, from: &str, to: &str) {
    assert_eq!(text.matches(from).count(), 1, "{from}");
    *text = text.replace(from, to);
}

#[test]
fn each_planted_mismatch_is_found_and_named() {
    for line in PLANTED
        .lines()
        .filter(|l| !l.is_empty() && !l.starts_with('#'))
    {
        let [name, from, to, wanted] = line.split(" | ").collect::<Vec<_>>()[..] else {
            panic!("not four parts: {line}");
        };
        let mut texts = Texts::ours();
        edit(side(&mut texts, name), from, to);
        let found = texts.differences();
        let wanted: Vec<&str> = wanted.split("; ").collect();
        assert_eq!(found.len(), wanted.len(), "{line}\n{found:#?}");
        for (difference, beginning) in found.iter().zip(wanted) {
            assert!(difference.starts_with(beginning), "{line}\n{found:#?}");
        }
    }
}

#[test]
fn two_refusals_with_each_others_numbers_are_found() {
    let mut texts = Texts::ours();
    edit(&mut texts.header, "NOT_ENABLED = 17", "NOT_ENABLED = 18");
    edit(&mut texts.header, "OUTRANKED = 18", "OUTRANKED = 17");
    let found = texts.differences().join("; ");
    assert!(found.contains("YARD_NOT_ENABLED stands before YARD_OUTRANKED"));
    assert!(found.contains("YARD_NOT_ENABLED: the header has 18, wanted: 17"));
    assert!(found.contains("YARD_OUTRANKED: the header has 17, wanted: 18"));
}

/// The second of two entries moved in front of the first.
fn found_when_moved(first: &str, second: &str) -> Vec<String> {
    let mut texts = Texts::ours();
    edit(&mut texts.header, second, "");
    edit(&mut texts.header, first, &format!("{second} {first}"));
    texts.differences()
}

#[test]
fn a_field_out_of_its_order_is_found() {
    let found = found_when_moved("uint8_t number;", "uint8_t held;");
    assert_eq!(found, ["the fields of yard_lane stand in another order"]);
}

#[test]
fn a_refusal_out_of_the_order_of_the_rules_is_found() {
    let found = found_when_moved("YARD_BAD_ADDED = 20,", "YARD_BAD_CODE = 10,");
    assert_eq!(found, ["YARD_BAD_CODE stands before YARD_BAD_ADDED"]);
    let found = found_when_moved("YARD_ODD_LOG = 21,", "YARD_BAD_START = 15,");
    assert_eq!(found, ["YARD_BAD_START stands before YARD_ODD_LOG"]);
    let found = found_when_moved("YARD_FALSE_MARK = 14,", "YARD_BAD_LIST = 22,");
    assert_eq!(found, ["YARD_BAD_LIST stands before YARD_FALSE_MARK"]);
    let found = found_when_moved("YARD_BAD_CODE = 10,", "YARD_BAD_ROSTER = 23,");
    assert_eq!(found, ["YARD_BAD_ROSTER stands before YARD_BAD_CODE"]);
    let found = found_when_moved("YARD_BAD_STATE = 13,", "YARD_BAD_ROSTER = 23,");
    assert_eq!(found, ["YARD_OTHER_PLAN stands before YARD_BAD_ROSTER"]);
}
