//! Reading a roster: its entries as tables, checked and then written.
use super::{right, write};
use crate::engine::{Memory, Outcome};
use crate::roster::{entry, Roster};

pub fn read(lent: &mut Memory) -> Outcome {
    let Roster { relays, tablets, scheme } = Roster::open(lent)?;
    let (n, m) = (relays.len(), tablets.len());
    let [relays, tablets] = [relays, tablets].map(|block| block.iter().flat_map(entry).collect::<Vec<u32>>());
    let full = right(scheme, &relays, &tablets).filter(|ring| ring.relays.len() == n && ring.tablets.len() == m);
    let ring = full.ok_or(11u32)?;
    write(&mut lent.relays, &ring.relays);
    write(&mut lent.tablets, &ring.tablets);
    Ok([scheme, 0, 0])
}
