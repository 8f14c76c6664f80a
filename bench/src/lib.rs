//! What the library's calls cost, in instructions and in time, beside two other engines that give the same answers: the library's algorithms
//! in plain Rust, and the rule as it is told. `bench/run` puts the figures into `docs/`.

pub mod cases;
pub mod engine;
pub mod library;
pub mod measure;
pub mod naive;
pub mod page;
pub mod plain;
pub mod plot;
pub mod positions;
#[path = "../../tests/random.rs"]
pub mod random;
pub mod results;
pub mod roster;
pub mod table;
