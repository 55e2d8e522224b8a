//! 01's sample lane, and short ways to call the reference.

use reference::answer::{Answer, Refusal};
use reference::calls;
use reference::draft::{Component, Draft, Interaction, OracleState, Span, Transition, Variable};
use reference::image::IMAGE_BYTES;
use reference::log;
use reference::roster::{self, Record};

pub type Image = [u8; IMAGE_BYTES];

pub const EMPTY: Span = Span {
    start: 0,
    length: 0,
};

pub fn transition(source: u8, port: u8, destination: u8, action: Span) -> Transition {
    Transition {
        component: 0,
        source,
        port,
        destination,
        guard: EMPTY,
        action,
    }
}

/// An interaction of component 0 alone.
pub fn interaction(port: u8) -> Interaction {
    let mut ports = [255; 16];
    ports[0] = port;
    Interaction {
        ports,
        guard: EMPTY,
        transfer: EMPTY,
        rank: 0,
    }
}

pub fn state(verdict: u8, next: &[u8]) -> OracleState {
    let next = next.to_vec();
    OracleState { verdict, next }
}

fn words(start: u16, length: u16) -> Span {
    Span { start, length }
}

const CODE: [u16; 10] = [
    0x0002, 0x1328, 0x3000, 0x0000, 0x3000, 0x4002, 0x2000, 0x0000, 0x6002, 0x6004,
];

const SCALE: Component = Component {
    locations: 3,
    start: 0,
    ports: 3,
    zero: 0,
};
const TARE: Variable = Variable {
    owner: 0,
    zeros: [0; 3],
    value: 0,
};

pub fn sample() -> Draft {
    Draft {
        number: 7,
        first: 0,
        components: vec![SCALE],
        variables: vec![TARE],
        transitions: vec![
            transition(0, 1, 2, EMPTY),
            transition(0, 0, 1, words(0, 3)),
            transition(1, 1, 2, EMPTY),
            transition(2, 2, 0, words(3, 2)),
        ],
        interactions: vec![interaction(1), interaction(0), interaction(2)],
        propositions: vec![words(5, 5)],
        oracle: vec![state(2, &[0, 1]), state(0, &[1, 1])],
        added: Vec::new(),
        code: CODE.to_vec(),
    }
}

/// Adds words behind the code.
pub fn add(plan: &mut Draft, words: &[u16]) -> Span {
    let span = Span {
        start: plan.code.len() as u16,
        length: words.len() as u16,
    };
    plan.code.extend(words);
    span
}

/// The sample with words added behind its code.
pub fn with_words(words: &[u16]) -> (Draft, Span) {
    let mut draft = sample();
    let span = add(&mut draft, words);
    (draft, span)
}

/// The sample with these words as the guard of transition 0.
pub fn with_guard(words: &[u16]) -> Draft {
    let (mut draft, span) = with_words(words);
    draft.transitions[0].guard = span;
    draft
}

pub fn check(draft: &Draft) -> Answer {
    calls::check(&draft.bytes())
}

/// The image after an accepted start.
pub fn started(draft: &Draft) -> Image {
    let mut image = [0xa5; IMAGE_BYTES];
    assert_eq!(calls::start(&draft.bytes(), &mut image), Answer::Accepted);
    image
}

pub fn attempt(draft: &Draft, image: &mut Image, number: u32) -> Answer {
    calls::attempt(&draft.bytes(), image, number)
}

pub fn settle(draft: &Draft, image: &mut Image) -> Answer {
    calls::settle(&draft.bytes(), image)
}

pub fn offered(draft: &Draft, image: &Image) -> (Answer, u64) {
    calls::offered(&draft.bytes(), image)
}

/// The moves as a log or a list.
pub fn log_of(moves: &[u16]) -> Vec<u8> {
    moves
        .iter()
        .flat_map(|number| number.to_le_bytes())
        .collect()
}

/// The answer to a log of these moves, and the index.
pub fn logged(draft: &Draft, moves: &[u16]) -> (Answer, u64) {
    log::check(&draft.bytes(), &log_of(moves))
}

/// Hands in a list of these moves.
pub fn list(draft: &Draft, image: &mut Image, moves: &[u16]) -> Answer {
    calls::list(&draft.bytes(), image, &log_of(moves))
}

pub fn marks(image: &Image) -> u64 {
    u64::from_le_bytes(image[16..24].try_into().unwrap())
}

pub fn value(image: &Image, n: usize) -> i32 {
    i32::from_le_bytes(image[56 + 4 * n..][..4].try_into().unwrap())
}

/// A box of one lane that waited three turns.
const ONE_LANE: [Record; 1] = [Record {
    number: 0,
    held: 0,
    wait: 3,
}];

/// The image and start calls on a refused plan change no byte; a log or a list, odd or not, makes no difference, nor does a roster, lawful or not.
pub fn assert_plan_refused(plan: &[u8], refusal: Refusal) {
    let mut image = started(&sample());
    let before = image;
    let refused = Answer::Refused(refusal);
    assert_eq!(calls::check(plan), refused);
    assert_eq!(calls::start(plan, &mut image), refused);
    assert_eq!(calls::offered(plan, &image), (refused, 0));
    assert_eq!(calls::attempt(plan, &mut image, 1), refused);
    assert_eq!(calls::settle(plan, &mut image), refused);
    for moves in [&[][..], &[1, 0], &[1]] {
        assert_eq!(log::check(plan, moves), (refused, 0));
        assert_eq!(calls::list(plan, &mut image, moves), refused);
    }
    let mut roster = ONE_LANE;
    for lanes in [1, 0] {
        let answer = roster::turn(plan, &mut roster[..lanes], &mut image);
        assert_eq!(answer, (None, refused));
    }
    assert_eq!((image, roster), (before, ONE_LANE));
}

/// The sample's calls on a refused image change no byte; a turn is used up by it, unless its length is wrong.
pub fn assert_image_refused(image: &[u8], refusal: Refusal) {
    let plan = sample().bytes();
    let mut after = image.to_vec();
    let refused = Answer::Refused(refusal);
    assert_eq!(calls::offered(&plan, image), (refused, 0));
    assert_eq!(calls::attempt(&plan, &mut after, 1), refused);
    assert_eq!(calls::settle(&plan, &mut after), refused);
    for moves in [&[][..], &[1, 0], &[1]] {
        assert_eq!(calls::list(&plan, &mut after, moves), refused);
    }
    let mut roster = ONE_LANE;
    let (answer, wait) = match refusal {
        Refusal::ImageLength => ((None, Answer::Refused(Refusal::BadRoster)), 3),
        _ => ((Some(0), refused), 0),
    };
    assert_eq!(roster::turn(&plan, &mut roster, &mut after), answer);
    assert_eq!((after.as_slice(), roster[0].wait), (image, wait));
}
