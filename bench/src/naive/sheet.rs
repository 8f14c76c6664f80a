//! The sheet and its stretches as they are told: the tablets sorted by relay and then by number.
use super::{place, Entry, Right};
use crate::engine::Outcome;

fn listed(ring: &Right) -> Vec<Entry> {
    let mut tablets = ring.tablets.clone();
    tablets.sort_by_key(|t| (t.beside, t.number));
    tablets
}

pub fn write(ring: &Right, sheet: &mut [u32]) -> Outcome {
    let listed = listed(ring);
    let part = sheet.get_mut(..listed.len()).ok_or(12u32)?;
    part.iter_mut().zip(&listed).for_each(|(place, t)| *place = t.number);
    Ok([0; 3])
}

/// Where the relay's tablets start and how many they are, where the sheet is the ring's and the relay is there.
pub fn stretch(ring: &Right, sheet: &[u32], r: u32) -> [u32; 3] {
    let listed = listed(ring);
    let theirs = sheet.get(..listed.len()).is_some_and(|part| part.iter().eq(listed.iter().map(|t| &t.number)));
    if !theirs || place(&ring.relays, r).is_err() {
        return [0; 3];
    }
    let count = |of: fn(&u32, &u32) -> bool| listed.iter().filter(|t| of(&t.beside, &r)).count() as u32;
    [count(u32::lt), count(u32::eq), 0]
}
