//! What a call answers: a kind and a number.

/// Why a call was refused; the first that applies, in the order of this list, is the answer.
#[derive(Clone, Copy, Debug, PartialEq, Eq)]
pub enum Refusal {
    Head = 1,
    Count = 2,
    Layout = 3,
    Component = 4,
    Variable = 5,
    Transition = 6,
    Interaction = 7,
    Rank = 8,
    Oracle = 9,
    AddedOracle = 20,
    Code = 10,
    ImageLength = 11,
    /// In the place of 11.
    BadRoster = 23,
    OtherPlan = 12,
    State = 13,
    FalseMark = 14,
    BadList = 22,
    OddLog = 21,
    BadStart = 15,
    NoSuchMove = 16,
    NotEnabled = 17,
    Outranked = 18,
    Marked = 19,
}

/// Why an entry of a log is wrong; the first that applies, in the order of this list, is the answer.
#[derive(Clone, Copy, Debug, PartialEq, Eq)]
pub enum Cause {
    NoSuchMove = 16,
    NotEnabled = 17,
    /// An enabled interaction that ends good lies above it.
    Outranked = 18,
    /// It ends bad.
    Bad = 0,
}

#[derive(Clone, Copy, Debug, PartialEq, Eq)]
pub enum Answer {
    Accepted,
    /// The interaction; of a list the number of its entries.
    Committed(usize),
    /// The interaction; of a list the index of its first entry that is not allowed, the number of entries where only the end is not good.
    Cancelled(usize),
    Stalled,
    Penned,
    Refused(Refusal),
    Wrong(Cause),
    /// A turn, where all lanes are held.
    Idle,
}

impl Answer {
    pub fn kind(self) -> u32 {
        match self {
            Answer::Accepted => 0,
            Answer::Committed(_) => 1,
            Answer::Cancelled(_) => 2,
            Answer::Stalled => 3,
            Answer::Penned => 4,
            Answer::Refused(_) => 5,
            Answer::Wrong(_) => 6,
            Answer::Idle => 7,
        }
    }

    pub fn number(self) -> u32 {
        match self {
            Answer::Committed(number) | Answer::Cancelled(number) => number as u32,
            Answer::Refused(refusal) => refusal as u32,
            Answer::Wrong(cause) => cause as u32,
            Answer::Accepted | Answer::Stalled | Answer::Penned | Answer::Idle => 0,
        }
    }
}

/// An answer that is a refusal where there is one.
pub fn answer_of(result: Result<Answer, Refusal>) -> Answer {
    result.unwrap_or_else(Answer::Refused)
}
