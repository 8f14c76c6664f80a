//! The three engines, the calls and the memory that is lent to them.
use crate::{library, naive, plain};

pub const MOST_RELAYS: usize = 256;
pub const MOST_TABLETS: usize = 4096;
pub const TOP_LIMIT: u32 = 4096;

/// All that a caller lends. A call takes what it needs of it.
#[derive(Clone, Debug, Default, PartialEq, Eq)]
pub struct Memory {
    pub relays: Vec<u32>,
    pub tablets: Vec<u32>,
    pub moves: Vec<u32>,
    pub tally: Vec<u32>,
    pub sheet: Vec<u32>,
    pub roster: Vec<u8>,
}

#[derive(Clone, Copy, Debug, PartialEq, Eq)]
pub enum Call {
    Check,
    Find(u32),
    Enrol(u32),
    Withdraw(u32),
    Add(u32, u32),
    Remove(u32),
    Set(u32, u32),
    Read,
    Sheet,
    Stretch(u32),
}

/// A reply as the paper lists it: refusal, relay, passed, moves. That of a check or a sheet has the refusal alone, a reading's the scheme
/// behind it. A stretch, which bears no refusal, has where it starts and how long it is, behind a 0.
pub type Numbers = [u32; 4];

/// What an accepted call replies past the 0, or why it is refused.
pub type Outcome = Result<[u32; 3], u32>;

#[derive(Clone, Copy, Debug, PartialEq, Eq)]
pub enum Engine {
    Library,
    Plain,
    Naive,
}

pub const ENGINES: [Engine; 3] = [Engine::Library, Engine::Plain, Engine::Naive];

impl Engine {
    pub fn name(self) -> &'static str {
        match self {
            Engine::Library => "library",
            Engine::Plain => "plain Rust",
            Engine::Naive => "naive",
        }
    }

    #[inline]
    pub fn run(self, scheme: u32, memory: &mut Memory, call: Call) -> Numbers {
        match self {
            Engine::Library => library::call(scheme, memory, call),
            Engine::Plain => plain::call(scheme, memory, call),
            Engine::Naive => naive::call(scheme, memory, call),
        }
    }
}

/// What the station counts: an accepted call's own kind and its moves, or one more refusal. A call that takes no tally is not counted, and
/// neither is anything where the tally has not four numbers.
fn count(tally: &mut [u32], call: Call, reply: Numbers) {
    let [refusal, _, _, moves] = reply;
    let [enrolments, withdrawals, all_moves, refusals] = tally else { return };
    match call {
        Call::Check | Call::Read | Call::Sheet | Call::Stretch(_) => return,
        _ if refusal != 0 => *refusals = refusals.saturating_add(1),
        Call::Enrol(_) => *enrolments = enrolments.saturating_add(1),
        Call::Withdraw(_) => *withdrawals = withdrawals.saturating_add(1),
        _ => {}
    }
    *all_moves = all_moves.saturating_add(moves);
}

/// The reply with this outcome, counted.
pub fn reply(tally: &mut [u32], call: Call, outcome: Outcome) -> Numbers {
    let reply = match outcome {
        Ok([relay, passed, moves]) => [0, relay, passed, moves],
        Err(_) if matches!(call, Call::Stretch(_)) => [0; 4],
        Err(refusal) => [refusal, 0, 0, 0],
    };
    count(tally, call, reply);
    reply
}

/// Every engine on a copy of the memory. Replies and all lent numbers must be the same; the answer is the reply and the memory afterwards.
pub fn agree(scheme: u32, memory: &Memory, call: Call) -> (Numbers, Memory) {
    let [library, plain, naive] = ENGINES.map(|engine| {
        let mut lent = memory.clone();
        (engine.run(scheme, &mut lent, call), lent)
    });
    assert_eq!(library, naive, "{call:?} under scheme {scheme} on {memory:?}");
    assert_eq!(plain, naive, "plain Rust: {call:?} under scheme {scheme} on {memory:?}");
    library
}
