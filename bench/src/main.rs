//! `bench/run` runs this: `callgrind` under callgrind, `clock` without, and `write` to put the results of both into `docs/`.
use std::{env, fs, io, path::Path};
use wairepomuro_bench::{measure, page, plot, results};

fn write(results: &Path, docs: &Path) -> io::Result<()> {
    let all = results::read(results);
    fs::write(docs.join("BENCH.md"), page::page(&all))?;
    fs::write(docs.join("bench.svg"), plot::plot(&all))
}

fn main() -> io::Result<()> {
    let words: Vec<String> = env::args().skip(1).collect();
    match words.iter().map(String::as_str).collect::<Vec<_>>()[..] {
        ["callgrind"] => measure::for_callgrind(),
        ["clock"] => measure::against_the_clock(),
        ["write", results, docs] => write(results.as_ref(), docs.as_ref())?,
        _ => panic!("callgrind, clock, or write with the folder of the results and the one to write to"),
    }
    Ok(())
}
