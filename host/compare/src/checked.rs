//! One call on every engine and on the reference, and whether they agree.

use reference::answer::Answer;
use reference::calls;
use reference::log;
use reference::roster;
use reference::sums;

use crate::causes::cause;
use crate::difference::Difference;
use crate::engines::{Call, Engine, Reply, BASELINE, LIBRARY};
use crate::fault::{self, Case};
use crate::halves::halves;
use crate::lent::{End, Lent, LentPlan, ENDS};
use crate::lists::listed;
use crate::logs::shown;
use crate::older::Has;
use crate::ranking::Ranked;
use crate::roster::Roster;
use crate::tally::Tally;
use crate::turns::Made;

/// The longest image, list, roster and buffer of images, lawful or not, and the longest log have fewer bytes.
const ROOM: usize = 3000;

/// The call's result, on which all agree.
pub struct Outcome {
    pub answer: Answer,
    /// The bits of the moves on offer, or the index of a log's first wrong entry.
    pub bits: u64,
    /// The image, the log as it was, or the buffer of images.
    pub image: Vec<u8>,
    /// Of a turn, the lane that had it.
    pub lane: Option<usize>,
    /// Of a turn, the roster after it.
    pub roster: Option<Roster>,
}

impl Outcome {
    pub fn reply(&self, call: Call) -> Reply {
        match self.roster {
            Some(roster) => Reply::of_turn(self.lane, self.answer, roster),
            None => Reply::of(call, self.answer, self.bits),
        }
    }
}

pub type Checked<T> = Result<T, Box<Difference>>;

/// One call, made by each engine in turn.
struct Question<'a> {
    call: Call,
    number: u64,
    plan: &'a LentPlan,
    /// The image, the log or the buffer of images.
    lent: &'a [u8],
}

pub struct Comparer {
    seed: u64,
    library: Engine,
    /// Another build of the library.
    older: Option<Engine>,
    lent: Lent,
    /// The list or the roster.
    on_top: Lent,
}

impl Comparer {
    pub fn new(seed: u64) -> Comparer {
        Comparer::with(seed, LIBRARY)
    }

    /// With another engine in the library's place.
    pub fn with(seed: u64, library: Engine) -> Comparer {
        Comparer {
            seed,
            library,
            older: None,
            lent: Lent::new(ROOM),
            on_top: Lent::new(ROOM),
        }
    }

    /// With an older build as well.
    pub fn and_older(mut self, engine: Engine) -> Comparer {
        self.older = Some(engine);
        self
    }

    /// What all of them have.
    pub fn has(&self) -> Has {
        self.older.map_or(Has::ALL, Has::of)
    }

    /// The names of all that are compared.
    pub fn names(&self) -> String {
        let engines = [self.library].into_iter().chain(self.others());
        let names = engines.map(|engine| engine.name).chain(["reference"]);
        names.collect::<Vec<_>>().join(", ")
    }

    fn others(&self) -> impl Iterator<Item = Engine> {
        [BASELINE].into_iter().chain(self.older)
    }

    /// Holds the library, lent its buffers at either end, and the others, at one end in turn, against the reference.
    pub fn compare(
        &mut self,
        tally: &mut Tally,
        plan: &LentPlan,
        lent: &[u8],
        call: Call,
    ) -> Checked<Outcome> {
        let (outcome, past) = sums::counted(|| by_reference(call, plan.bytes(), lent));
        tally.past(past);
        count(tally, plan.bytes(), lent, call, &outcome);
        let question = Question {
            call,
            number: tally.calls,
            plan,
            lent,
        };
        for end in ENDS {
            self.hold(self.library, end, &question, &outcome)?;
        }
        let in_turn = ENDS[tally.calls as usize % 2];
        for other in self.others() {
            self.hold(other, in_turn, &question, &outcome)?;
        }
        Ok(outcome)
    }

    fn hold(
        &mut self,
        engine: Engine,
        end: End,
        question: &Question,
        outcome: &Outcome,
    ) -> Checked<()> {
        let reply = self.ask(engine, end, question);
        let expected = outcome.reply(question.call);
        let after = self.lent.bytes();
        let what = if reply != expected {
            "answer, or roster of a turn"
        } else if after != outcome.image {
            "image"
        } else if keeps_all(question.call, outcome.answer) && after != question.lent {
            "image of a refused call, an idle turn or a list that was not committed"
        } else if !keeps_roster(question.call, outcome) {
            "roster of a turn that no lane had"
        } else {
            return Ok(());
        };
        Err(Box::new(Difference {
            what,
            call: question.call,
            call_number: question.number,
            said: (engine.name, reply),
            expected: ("reference", expected),
            first_byte: first_difference(after, &outcome.image),
            plan: question.plan.bytes().to_vec(),
            lent: question.lent.to_vec(),
        }))
    }

    /// Lends the plan, a copy of the image, log or buffer, and of the list or roster, and makes the call.
    fn ask(&mut self, engine: Engine, end: End, question: &Question) -> Reply {
        self.lent.put(end, question.lent);
        let on_top = question.call.on_top().map(|(name, bytes)| {
            self.on_top.put(end, bytes);
            (name, addresses(self.on_top.bytes()))
        });
        let plan = question.plan.at(end);
        let case = Case {
            seed: self.seed,
            call_number: question.number,
            engine: engine.name,
            call: question.call,
            end,
            plan: addresses(plan),
            lent: addresses(self.lent.bytes()),
            on_top,
        };
        fault::during(&case, || {
            engine.make(question.call, plan, &mut self.lent, &mut self.on_top)
        })
    }
}

/// Whether no byte of the image or of the buffer may change.
fn keeps_all(call: Call, answer: Answer) -> bool {
    let is_list = matches!(call, Call::List(_));
    matches!(answer, Answer::Refused(_) | Answer::Idle)
        || is_list && answer.kind() != yard::COMMITTED
}

/// Whether a roster is as it was where no lane had the turn.
fn keeps_roster(call: Call, outcome: &Outcome) -> bool {
    match call {
        Call::Turn(roster) if outcome.lane.is_none() => outcome.roster == Some(roster),
        _ => true,
    }
}

fn addresses(bytes: &[u8]) -> std::ops::Range<usize> {
    let start = bytes.as_ptr().addr();
    start..start + bytes.len()
}

/// Counts the call, its answer and what they show.
fn count(tally: &mut Tally, plan: &[u8], lent: &[u8], call: Call, outcome: &Outcome) {
    let answer = outcome.answer;
    tally.count(call, answer);
    if let Call::Turn(roster) = &call {
        return count_turn(tally, plan, lent, roster, outcome);
    }
    if let Some(cause) = cause(call, plan, lent, answer) {
        tally.cause(cause);
    }
    if call == Call::Log {
        let shown = shown(plan, lent, answer);
        shown.into_iter().for_each(|what| tally.shown(what));
    }
    if let Call::List(list) = &call {
        let listed = listed(plan, lent, list, answer);
        listed.into_iter().for_each(|what| tally.listed(what));
    }
    let halves = halves(call, plan, lent, answer);
    halves.into_iter().for_each(|what| tally.half(what));
    if let Some(ranked) = Ranked::read(call, plan, lent) {
        let facts = ranked.facts(call, answer, outcome.bits);
        facts.into_iter().for_each(|fact| tally.fact(fact));
    }
}

fn count_turn(tally: &mut Tally, plan: &[u8], images: &[u8], roster: &Roster, outcome: &Outcome) {
    let made = Made {
        plan,
        roster: &roster.records(),
        images,
        lane: outcome.lane,
        answer: outcome.answer,
    };
    let (turned, no_turn) = (made.turned(), made.no_turn());
    turned.into_iter().for_each(|what| tally.turned(what));
    no_turn.into_iter().for_each(|what| tally.no_turn(what));
}

fn turn_by_reference(plan: &[u8], roster: Roster, images: &[u8]) -> Outcome {
    let (mut records, mut image) = (roster.records(), images.to_vec());
    let (lane, answer) = roster::turn(plan, &mut records, &mut image);
    Outcome {
        answer,
        bits: 0,
        image,
        lane,
        roster: Some(Roster::of(&records)),
    }
}

fn by_reference(call: Call, plan: &[u8], lent: &[u8]) -> Outcome {
    let mut image = lent.to_vec();
    let (answer, bits) = match call {
        Call::Check => (calls::check(plan), 0),
        Call::Start => (calls::start(plan, &mut image), 0),
        Call::Offered | Call::Bits => calls::offered(plan, &image),
        Call::Try(number) => (calls::attempt(plan, &mut image, number), 0),
        Call::Settle => (calls::settle(plan, &mut image), 0),
        Call::List(list) => (calls::list(plan, &mut image, list.bytes()), 0),
        Call::Turn(roster) => return turn_by_reference(plan, roster, lent),
        Call::Log | Call::LogIndex => log::check(plan, lent),
    };
    Outcome {
        answer,
        bits,
        image,
        lane: None,
        roster: None,
    }
}

pub fn first_difference(left: &[u8], right: &[u8]) -> Option<usize> {
    left.iter().zip(right).position(|(l, r)| l != r)
}
