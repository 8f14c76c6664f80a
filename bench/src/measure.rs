//! The measured calls: once each for callgrind, and many times over against the clock.
use crate::cases;
use crate::engine::{agree, Call, Engine, Memory, Numbers, ENGINES};
use std::hint::black_box;
use std::thread::sleep;
use std::time::{Duration, Instant};

/// callgrind counts what happens in here and nothing else, and writes the sum down whenever it ends.
#[no_mangle]
#[inline(never)]
pub fn measured_call(engine: Engine, scheme: u32, memory: &mut Memory, call: Call) -> Numbers {
    engine.run(scheme, memory, call)
}

/// Every case once by every engine, in order. They have run and agreed before, so nothing is met for the first time where it counts.
pub fn for_callgrind() {
    for case in cases::all() {
        let (memory, call) = case.lend();
        agree(case.scheme, &memory, call);
        for engine in ENGINES {
            black_box(measured_call(engine, case.scheme, &mut memory.clone(), call));
        }
    }
}

const ROUNDS: usize = 401;

/// Of the naive engine, which is slow, every tenth round will do.
fn runs_in(engine: Engine, round: usize) -> bool {
    engine != Engine::Naive || round.is_multiple_of(10)
}

/// A naive call may last longer than the scheduler lets a thread run on a busy machine. Who comes from a rest has a whole slice ahead.
fn rest(engine: Engine) {
    if engine == Engine::Naive {
        sleep(Duration::from_micros(200));
    }
}

/// One call on a fresh copy of the memory, in nanoseconds.
fn time(engine: Engine, scheme: u32, memory: &Memory, lent: &mut Memory, call: Call) -> u64 {
    lent.clone_from(memory);
    let start = Instant::now();
    black_box(measured_call(engine, scheme, lent, call));
    start.elapsed().as_nanos() as u64
}

/// The three engines' medians. They take turns, so that what else the machine does falls on all of them.
fn medians(scheme: u32, memory: &Memory, call: Call) -> [u64; 3] {
    let mut lent = memory.clone();
    let mut times = [const { Vec::new() }; 3];
    for round in 0..ROUNDS {
        for (engine, times) in ENGINES.into_iter().zip(&mut times).filter(|(engine, _)| runs_in(*engine, round)) {
            rest(engine);
            times.push(time(engine, scheme, memory, &mut lent, call));
        }
    }
    times.map(|mut times| {
        times.sort();
        times[times.len() / 2]
    })
}

/// A line to each case: the moves that it makes, and the medians of the three engines.
pub fn against_the_clock() {
    for case in cases::all() {
        let (memory, call) = case.lend();
        let ([refusal, _, _, moves], _) = agree(case.scheme, &memory, call);
        assert_eq!(refusal, 0, "{case:?}");
        let [library, plain, naive] = medians(case.scheme, &memory, call);
        println!("{moves} {library} {plain} {naive}");
    }
}
