//! A roster's bytes: written for every engine, and opened for the two that are not the library.
use crate::engine::{Memory, MOST_RELAYS, MOST_TABLETS};
use crate::positions;

const TRAILER_BYTES: usize = 20;
pub const ENTRY_BYTES: usize = 8;

/// How far it is from the end back to the start of the last so many entries.
fn back(entries: usize) -> usize {
    TRAILER_BYTES + ENTRY_BYTES * entries
}

/// The roster of right tables.
pub fn write(scheme: u32, relays: &[u32], tablets: &[u32]) -> Vec<u8> {
    let [relays, tablets] = [relays, tablets].map(|table| table.chunks(2).filter(|e| e[0] != 0).flatten().collect::<Vec<_>>());
    let (n, m) = (relays.len() / 2, tablets.len() / 2);
    let trailer = [back(n + m), n, back(m), m, scheme as usize].map(|x| x as u32);
    relays.into_iter().chain(tablets).chain(&trailer).flat_map(|x| x.to_le_bytes()).collect()
}

/// The two blocks, and the scheme that the trailer names.
pub struct Roster<'a> {
    pub relays: &'a [[u8; ENTRY_BYTES]],
    pub tablets: &'a [[u8; ENTRY_BYTES]],
    pub scheme: u32,
}

/// The first numbers of these bytes.
#[inline]
fn numbers<const N: usize>(bytes: &[u8]) -> [u32; N] {
    let words = bytes.as_chunks().0;
    std::array::from_fn(|k| u32::from_le_bytes(words[k]))
}

/// An entry's number, and what stands beside it.
#[inline]
pub fn entry(bytes: &[u8; ENTRY_BYTES]) -> [u32; 2] {
    numbers(bytes)
}

/// Has a table whole places, enough of them and not too many?
fn fit(table: &[u32], entries: usize, most: usize) -> bool {
    table.len().is_multiple_of(2) && (entries..=most).contains(&(table.len() / 2))
}

impl Roster<'_> {
    /// The bytes as a roster, where their shape is right.
    fn shaped(bytes: &[u8]) -> Option<Roster<'_>> {
        let (blocks, trailer) = bytes.split_last_chunk::<TRAILER_BYTES>()?;
        let [relays_back, n, tablets_back, m, scheme] = numbers(trailer).map(|x| x as usize);
        let counts = n <= MOST_RELAYS && m <= MOST_TABLETS;
        let right = counts && tablets_back == back(m) && relays_back == back(n + m) && bytes.len() == relays_back;
        right.then(|| {
            let (relays, tablets) = blocks.as_chunks().0.split_at(n);
            Roster { relays, tablets, scheme: scheme as u32 }
        })
    }

    /// The lent roster, once nothing but its content can be refused.
    pub fn open(lent: &Memory) -> Result<Roster<'_>, u32> {
        let roster = Roster::shaped(&lent.roster).ok_or(10u32)?;
        match () {
            _ if !positions::known(roster.scheme) => Err(1),
            _ if !fit(&lent.relays, roster.relays.len(), MOST_RELAYS) => Err(12),
            _ if !fit(&lent.tablets, roster.tablets.len(), MOST_TABLETS) => Err(12),
            _ => Ok(roster),
        }
    }
}
