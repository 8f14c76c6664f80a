//! What was measured, read back.
use crate::cases::{self, Case, Kind};
use crate::engine::Engine;
use std::{fs, path::Path};

/// What a call costs the library, plain Rust and the naive engine.
#[derive(Clone, Copy, Debug)]
pub struct Cost(pub [u64; 3]);

impl Cost {
    pub fn of(self, engine: Engine) -> f64 {
        self.0[engine as usize] as f64
    }

    pub fn library(self) -> u64 {
        self.0[Engine::Library as usize]
    }

    /// How many times as much as plain Rust the library takes.
    pub fn of_plain(self) -> f64 {
        self.of(Engine::Library) / self.of(Engine::Plain)
    }

    /// How many times as much as the library the naive engine takes.
    pub fn naive_of(self) -> f64 {
        self.of(Engine::Naive) / self.of(Engine::Library)
    }
}

pub struct Measured {
    pub case: Case,
    pub moves: u32,
    pub instructions: Cost,
    pub nanoseconds: Cost,
}

fn numbers(text: &str) -> Vec<u64> {
    text.split_whitespace().map(|n| n.parse().expect("a number")).collect()
}

/// The sums of callgrind's parts, one to a measured call.
fn totals(dump: &str) -> Vec<u64> {
    dump.lines().filter_map(|line| line.strip_prefix("totals: ")).flat_map(numbers).collect()
}

fn file(folder: &Path, name: &str) -> String {
    let path = folder.join(name);
    fs::read_to_string(&path).unwrap_or_else(|e| panic!("{}: {e}", path.display()))
}

/// The results of both runs, in the order of the cases.
pub fn read(folder: &Path) -> Vec<Measured> {
    let cases = cases::all();
    let totals = totals(&file(folder, "callgrind.out"));
    let clock: Vec<Vec<u64>> = file(folder, "clock").lines().map(numbers).collect();
    // When the program ends callgrind writes a last part, with nothing in it.
    assert_eq!(totals.len(), 3 * cases.len() + 1, "callgrind counted another number of calls");
    assert_eq!(clock.len(), cases.len(), "the clock ran for another number of cases");
    let measured = cases.into_iter().zip(totals.chunks_exact(3)).zip(clock);
    measured
        .map(|((case, t), c)| Measured { case, moves: c[0] as u32, instructions: Cost([t[0], t[1], t[2]]), nanoseconds: Cost([c[1], c[2], c[3]]) })
        .collect()
}

/// The one result of a case.
pub fn of(all: &[Measured], case: Case) -> &Measured {
    all.iter().find(|m| m.case == case).expect("every case is measured")
}

/// How many times the instructions of a check a call takes an engine, with the same size, scheme and limit.
pub fn of_check(all: &[Measured], m: &Measured, engine: Engine) -> f64 {
    let check = of(all, Case { kind: Kind::Check, ..m.case });
    m.instructions.of(engine) / check.instructions.of(engine)
}
