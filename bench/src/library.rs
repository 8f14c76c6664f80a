//! The library, through its Rust face.
use crate::engine::{Call, Memory, Numbers};
use wairepomuro::raw;

pub fn call(scheme: u32, m: &mut Memory, call: Call) -> Numbers {
    let mut lent = raw::Lent { relays: &mut m.relays, tablets: &mut m.tablets, moves: &mut m.moves, tally: &mut m.tally };
    match call {
        Call::Check => [raw::check(scheme, lent.relays, lent.tablets), 0, 0, 0],
        Call::Find(t) => raw::find(scheme, lent.relays, lent.tablets, lent.tally, t),
        Call::Enrol(t) => raw::enrol(scheme, &mut lent, t),
        Call::Withdraw(t) => raw::withdraw(scheme, &mut lent, t),
        Call::Add(r, limit) => raw::add(scheme, &mut lent, r, limit),
        Call::Remove(r) => raw::remove(scheme, &mut lent, r),
        Call::Set(r, limit) => raw::set(scheme, &mut lent, r, limit),
        Call::Read => {
            let (refusal, scheme) = raw::read(&m.roster, lent.relays, lent.tablets);
            [refusal, scheme, 0, 0]
        }
        Call::Sheet => [raw::sheet(scheme, lent.relays, lent.tablets, &mut m.sheet), 0, 0, 0],
        Call::Stretch(r) => {
            let part = raw::stretch(scheme, lent.relays, lent.tablets, &m.sheet, r);
            [0, start(&m.sheet, part), part.len() as u32, 0]
        }
    }
}

/// Where a part of a sheet starts.
fn start(sheet: &[u32], part: &[u32]) -> u32 {
    ((part.as_ptr() as usize - sheet.as_ptr() as usize) / size_of::<u32>()) as u32
}
