//! `docs/BENCH.md`.
use crate::cases::{Case, Kind, KINDS, LIMITS, SIZES};
use crate::engine::{Engine, ENGINES};
use crate::results::{of, of_check, Cost, Measured};
use crate::table::{by_limit, by_ring, grouped, ratio, table, thousands};

const LARGEST: usize = SIZES.len() - 1;

const HEAD: &str = include_str!("head.md");

pub fn page(all: &[Measured]) -> String {
    let mut page = [HEAD, &targets(all), &readings(all), &growth(all), &moves(all)].join("\n");
    for size in (0..SIZES.len()).rev() {
        page += &every_case(all, size);
    }
    page
}

/// A cell to each limit.
fn each_limit(all: &[Measured], size: usize, scheme: u32, kind: Kind, cell: impl Fn(&Measured) -> String) -> Vec<String> {
    LIMITS.map(|limit| cell(of(all, Case { size, scheme, limit, kind }))).to_vec()
}

/// A cell to each limit of each ring, the largest first.
fn each_ring(all: &[Measured], scheme: u32, kind: Kind, cell: impl Fn(&Measured) -> String) -> Vec<String> {
    (0..SIZES.len()).rev().flat_map(|size| each_limit(all, size, scheme, kind, &cell)).collect()
}

// ---- the targets

/// In thousands of instructions, for the two schemes. A withdrawal has 30 more for each hole that is filled.
const TARGETS: [(Kind, [u64; 2]); 7] = [
    (Kind::Check, [240, 325]),
    (Kind::Find, [240, 325]),
    (Kind::Enrol, [260, 345]),
    (Kind::Withdraw, [260, 345]),
    (Kind::Add, [430, 560]),
    (Kind::Remove, [430, 560]),
    (Kind::Set, [430, 560]),
];

fn target_cell(m: &Measured, target: u64) -> String {
    let holes = if m.case.kind == Kind::Withdraw { m.moves as u64 } else { 0 };
    let count = m.instructions.library();
    let mark = if count <= 1000 * (target + 30 * holes) { "" } else { "**" };
    format!("{mark}{}{mark}", thousands(count))
}

fn targets(all: &[Measured]) -> String {
    let cells = |(kind, targets): (Kind, [u64; 2]), scheme: u32| {
        let target = targets[scheme as usize];
        let more = if kind == Kind::Withdraw { " + 30 a hole" } else { "" };
        let mut cells = each_limit(all, LARGEST, scheme, kind, |m| target_cell(m, target));
        cells.insert(0, format!("{target}{more}"));
        cells
    };
    let columns = [vec!["target".to_string()], by_limit("limit")].concat();
    let table = table("call", &TARGETS, |(kind, _)| kind.name(), &columns, cells);
    format!("## Targets\n\nThousands of instructions at 256 × 4,096. What is above its target stands in bold.\n\n{table}")
}

// ---- reading beside the check

const READINGS: &str = "\
## Reading a roster

A roster that fills its tables is meant to cost about a check. Instructions of reading by those of the check on the same ring:

";

const SCRATCH: &str = "
Both the library and plain Rust first clear scratch for the largest roster: 35 thousand instructions on every ring, at one a byte. Plain Rust copies
the entries twice at one a byte, too, and the library once: its loop over the roster's bytes takes several at a time.
";

fn readings(all: &[Measured]) -> String {
    let cells = |engine, scheme| each_ring(all, scheme, Kind::Read, |m| ratio(of_check(all, m, engine)));
    [READINGS, &table("engine", &ENGINES, Engine::name, &by_ring(), cells), SCRATCH].concat()
}

// ---- growth

const GROWTH: &str = "\
## Growth

By what factor the instructions grow from 16 × 256 to 64 × 1,024 and from there to 256 × 4,096, the greatest of the four limits.
Tablets grow 4-fold at each step, tablets × log relays 6-fold and then 5.33-fold, tablets × relays 16-fold.

";

/// From one size to the next: the greatest factor of the four limits, of an engine's instructions.
fn factor(all: &[Measured], size: usize, scheme: u32, kind: Kind, engine: Engine) -> f64 {
    let count = |size, limit| of(all, Case { size, scheme, limit, kind }).instructions.of(engine);
    LIMITS.into_iter().map(|limit| count(size + 1, limit) / count(size, limit)).fold(0.0, f64::max)
}

fn growth(all: &[Measured]) -> String {
    let cells = |kind, scheme| ENGINES.map(|engine| [0, 1].map(|size| ratio(factor(all, size, scheme, kind, engine))).join(", ")).to_vec();
    [GROWTH, &table("call", &KINDS, Kind::name, &ENGINES.map(|engine| engine.name().to_string()), cells)].concat()
}

// ---- every case

fn moves(all: &[Measured]) -> String {
    let kinds = [Kind::Enrol, Kind::Withdraw, Kind::Add, Kind::Remove, Kind::Set];
    let cells = |kind, scheme| each_ring(all, scheme, kind, |m| grouped(m.moves as u64));
    let table = table("call", &kinds, Kind::name, &by_ring(), cells);
    format!("## Moves\n\nThe other calls make none.\n\n{table}")
}

/// What the calls cost the library, and beside it plain Rust and the naive engine.
fn costs(all: &[Measured], size: usize, what: &str, cost: fn(&Measured) -> Cost, figure: fn(u64) -> String) -> String {
    let columns = [what, "÷ plain", "naive ÷"].map(by_limit).concat();
    let cells = |kind, scheme| {
        let library = each_limit(all, size, scheme, kind, |m| figure(cost(m).library()));
        let plain = each_limit(all, size, scheme, kind, |m| ratio(cost(m).of_plain()));
        let naive = each_limit(all, size, scheme, kind, |m| ratio(cost(m).naive_of()));
        [library, plain, naive].concat()
    };
    table("call", &KINDS, Kind::name, &columns, cells)
}

fn every_case(all: &[Measured], size: usize) -> String {
    let (relays, tablets) = SIZES[size];
    let counts = costs(all, size, "instructions, thousands", |m| m.instructions, thousands);
    let times = costs(all, size, "time, µs", |m| m.nanoseconds, |t| format!("{:.1}", t as f64 / 1000.0));
    format!("\n## {relays} relays, {} tablets\n\n{counts}\n{times}", grouped(tablets as u64))
}
