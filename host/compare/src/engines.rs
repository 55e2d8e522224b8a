//! The calls, and the engines that are asked to make them.

use reference::book;
use yard::{Answer, Lane, Turn};

use crate::baseline;
use crate::lent::Lent;
use crate::list::List;
use crate::roster::{self, Roster};

#[derive(Clone, Copy, Debug, PartialEq, Eq)]
pub enum Call {
    Check,
    Start,
    Offered,
    Bits,
    Try(u32),
    Settle,
    List(List),
    Turn(Roster),
    Log,
    LogIndex,
}

impl Call {
    /// The call's row in the tally.
    pub fn row(self) -> usize {
        match self {
            Call::Check => 0,
            Call::Start => 1,
            Call::Offered => 2,
            Call::Bits => 3,
            Call::Try(_) => 4,
            Call::Settle => 5,
            Call::List(_) => 6,
            Call::Turn(_) => 7,
            Call::Log => 8,
            Call::LogIndex => 9,
        }
    }

    pub fn is_of_log(self) -> bool {
        matches!(self, Call::Log | Call::LogIndex)
    }

    /// What is lent beside the plan.
    pub fn lends(self) -> &'static str {
        match self {
            Call::Log | Call::LogIndex => "log",
            Call::Turn(_) => "buffer",
            _ => "image",
        }
    }

    /// What is lent on top, with its name: a list or a roster.
    pub fn on_top(&self) -> Option<(&'static str, &[u8])> {
        match self {
            Call::List(list) => Some(("list", list.bytes())),
            Call::Turn(roster) => Some(("roster", roster.bytes())),
            _ => None,
        }
    }

    /// What the book is told; nothing of a check or a log, which have no lane, nor of a turn, which has several.
    pub fn told(&self) -> Option<book::Call<'_>> {
        match self {
            Call::Check | Call::Turn(_) | Call::Log | Call::LogIndex => None,
            Call::Start => Some(book::Call::Start),
            Call::Offered | Call::Bits => Some(book::Call::Offered),
            Call::Try(number) => Some(book::Call::Try(*number)),
            Call::Settle => Some(book::Call::Settle),
            Call::List(list) => Some(book::Call::List(list.bytes())),
        }
    }
}

/// What a call returns.
#[derive(Clone, Copy, Debug, PartialEq, Eq)]
pub enum Reply {
    Answer(Answer),
    Bits(u64),
    Index(u64),
    /// And the roster that is left.
    Turn(Turn, Roster),
}

impl Reply {
    /// The bits are the index where a log was checked; a turn has its own.
    pub fn of(call: Call, answer: reference::answer::Answer, bits: u64) -> Reply {
        match call {
            Call::Bits => Reply::Bits(bits),
            Call::LogIndex => Reply::Index(bits),
            _ => Reply::Answer(Answer {
                kind: answer.kind(),
                number: answer.number(),
            }),
        }
    }

    /// The answer to a turn, and the roster after it.
    pub fn of_turn(
        lane: Option<usize>,
        answer: reference::answer::Answer,
        roster: Roster,
    ) -> Reply {
        let lane = lane.unwrap_or(0) as u32;
        let packed = (lane << 24) + (answer.kind() << 16) + answer.number();
        Reply::Turn(yard::turn_of(packed), roster)
    }
}

/// An engine with the interface of yard.h.
#[derive(Clone, Copy)]
pub struct Engine {
    pub name: &'static str,
    pub check: fn(&[u8]) -> Answer,
    pub start: fn(&[u8], &mut [u8]) -> Answer,
    pub offered: fn(&[u8], &[u8]) -> Answer,
    pub bits: fn(&[u8], &[u8]) -> u64,
    pub attempt: fn(&[u8], &mut [u8], u32) -> Answer,
    pub settle: fn(&[u8], &mut [u8]) -> Answer,
    pub list: fn(&[u8], &mut [u8], &[u8]) -> Answer,
    pub turn: fn(&[u8], &mut [Lane], &mut [u8]) -> Turn,
    pub log: fn(&[u8], &[u8]) -> Answer,
    pub log_index: fn(&[u8], &[u8]) -> u64,
}

pub const LIBRARY: Engine = Engine {
    name: "library",
    check: yard::check,
    start: yard::start,
    offered: yard::offered,
    bits: yard::offered_bits,
    attempt: yard::attempt,
    settle: yard::settle,
    list: yard::list,
    turn: yard::turn,
    log: yard::log,
    log_index: yard::log_index,
};

pub const BASELINE: Engine = Engine {
    name: "C baseline",
    check: baseline::check,
    start: baseline::start,
    offered: baseline::offered,
    bits: baseline::offered_bits,
    attempt: baseline::attempt,
    settle: baseline::settle,
    list: baseline::list,
    turn: baseline::turn,
    log: baseline::log,
    log_index: baseline::log_index,
};

impl Engine {
    /// Makes the call; image or log is lent for writing only where the call may write, a list for reading, and a roster for writing.
    pub fn make(&self, call: Call, plan: &[u8], lent: &mut Lent, on_top: &mut Lent) -> Reply {
        Reply::Answer(match call {
            Call::Check => (self.check)(plan),
            Call::Start => (self.start)(plan, lent.bytes_mut()),
            Call::Offered => (self.offered)(plan, lent.locked()),
            Call::Bits => return Reply::Bits((self.bits)(plan, lent.locked())),
            Call::Try(number) => (self.attempt)(plan, lent.bytes_mut(), number),
            Call::Settle => (self.settle)(plan, lent.bytes_mut()),
            Call::List(_) => (self.list)(plan, lent.bytes_mut(), on_top.locked()),
            Call::Turn(_) => return self.give_turn(plan, on_top, lent),
            Call::Log => (self.log)(plan, lent.locked()),
            Call::LogIndex => return Reply::Index((self.log_index)(plan, lent.locked())),
        })
    }

    fn give_turn(&self, plan: &[u8], roster: &mut Lent, images: &mut Lent) -> Reply {
        let lanes = roster::lanes(roster.bytes_mut());
        let turn = (self.turn)(plan, lanes, images.bytes_mut());
        Reply::Turn(turn, Roster::new(roster.bytes()))
    }
}
