//! The library's algorithms in plain Rust: what the proved code would be if nobody proved it. Nothing is allocated.
mod relays;
mod ring;
mod roster;
mod sheet;
mod survey;
mod tablets;

use crate::engine::{reply, Call, Memory, Numbers, Outcome};
use crate::positions;
use survey::Survey;

fn look(survey: &mut Survey, scheme: u32, lent: &Memory) -> Result<(), u32> {
    match () {
        _ if !positions::known(scheme) => Err(1),
        _ if !survey.look_over(scheme, &lent.relays, &lent.tablets) => Err(2),
        _ => Ok(()),
    }
}

fn outcome(scheme: u32, lent: &mut Memory, call: Call) -> Outcome {
    let survey = &mut Survey::blank();
    // A reading looks over the roster's entries instead.
    if call != Call::Read {
        look(survey, scheme, lent)?;
    }
    match call {
        Call::Check => Ok([0; 3]),
        Call::Find(t) => tablets::find(survey, &lent.tablets, t),
        Call::Enrol(t) => tablets::enrol(scheme, survey, lent, t),
        Call::Withdraw(t) => tablets::withdraw(survey, lent, t),
        Call::Add(r, limit) => relays::add(scheme, survey, lent, r, limit),
        Call::Remove(r) => relays::remove(scheme, survey, lent, r),
        Call::Set(r, limit) => relays::set(scheme, survey, lent, r, limit),
        Call::Read => roster::read(survey, lent),
        Call::Sheet => sheet::write(scheme, survey, lent),
        Call::Stretch(r) => Ok(sheet::stretch(scheme, survey, lent, r)),
    }
}

pub fn call(scheme: u32, lent: &mut Memory, call: Call) -> Numbers {
    let outcome = outcome(scheme, lent, call);
    reply(&mut lent.tally, call, outcome)
}

/// A table as its places: number, and what stands beside it.
fn places(table: &[u32]) -> &[[u32; 2]] {
    table.as_chunks().0
}

fn places_mut(table: &mut [u32]) -> &mut [[u32; 2]] {
    table.as_chunks_mut().0
}

/// Where a number stands among the entries of a table, or where it belongs.
fn spot(entries: &[[u32; 2]], number: u32) -> Result<usize, usize> {
    entries.binary_search_by_key(&number, |e| e[0])
}

/// The entries with one more, the last place being unused.
fn put_in(places: &mut [[u32; 2]], at: usize, entry: [u32; 2]) {
    places.copy_within(at..places.len() - 1, at + 1);
    places[at] = entry;
}

/// The entries with one less.
fn take_out(entries: &mut [[u32; 2]], at: usize) {
    entries.copy_within(at + 1.., at);
    *entries.last_mut().expect("one was there") = [0, 0];
}
