//! Reading a roster: the blocks go into scratch, are looked over there, and go from there into the lent tables.
use super::places_mut;
use super::survey::Survey;
use crate::engine::{Memory, Outcome, MOST_RELAYS, MOST_TABLETS};
use crate::roster::{entry, Roster, ENTRY_BYTES};

/// A block's entries, at the start of a scratch table.
fn entries<'a>(block: &[[u8; ENTRY_BYTES]], table: &'a mut [u32]) -> &'a [u32] {
    places_mut(table).iter_mut().zip(block).for_each(|(place, bytes)| *place = entry(bytes));
    &table[..2 * block.len()]
}

/// The entries in a lent table, and zeros in every place left over.
fn fill(table: &mut [u32], entries: &[u32]) {
    let (used, rest) = table.split_at_mut(entries.len());
    used.copy_from_slice(entries);
    rest.fill(0);
}

pub fn read(survey: &mut Survey, lent: &mut Memory) -> Outcome {
    let Roster { relays, tablets, scheme } = Roster::open(lent)?;
    let (mut own_relays, mut own_tablets) = ([0; 2 * MOST_RELAYS], [0; 2 * MOST_TABLETS]);
    let (relays, tablets) = (entries(relays, &mut own_relays), entries(tablets, &mut own_tablets));
    let right = survey.look_over(scheme, relays, tablets);
    if !right || 2 * survey.ring.n != relays.len() || 2 * survey.m != tablets.len() {
        return Err(11);
    }
    fill(&mut lent.relays, relays);
    fill(&mut lent.tablets, tablets);
    Ok([scheme, 0, 0])
}
