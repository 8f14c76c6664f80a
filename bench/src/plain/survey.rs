//! Are the lent tables right, and what does the check learn on its way?
use super::ring::{Ring, Row};
use super::places;
use crate::engine::{MOST_RELAYS, MOST_TABLETS, TOP_LIMIT};
use crate::positions;

pub struct Survey {
    pub ring: Ring,
    pub row: Row,
    pub m: usize,
    /// For each slot one more than the place of its greatest tablet.
    pub last: [u16; MOST_RELAYS],
    /// For each tablet its home and its relay's slot.
    pub home: [u8; MOST_TABLETS],
    pub slot: [u8; MOST_TABLETS],
}

fn unused(places: &[[u32; 2]]) -> bool {
    places.iter().all(|e| *e == [0, 0])
}

/// The entries of a relay table, where it has the shape of one.
fn relay_entries(relays: &[u32]) -> Option<&[[u32; 2]]> {
    let places = places(relays);
    let n = places.iter().take_while(|e| e[0] != 0).count();
    let (used, rest) = places.split_at(n);
    let rising = used.windows(2).all(|w| w[0][0] < w[1][0]);
    let limited = used.iter().all(|e| e[1] <= TOP_LIMIT);
    (relays.len().is_multiple_of(2) && places.len() <= MOST_RELAYS && rising && limited && unused(rest)).then_some(used)
}

impl Survey {
    pub fn blank() -> Survey {
        Survey { ring: Ring::blank(), row: Row::blank(), m: 0, last: [0; MOST_RELAYS], home: [0; MOST_TABLETS], slot: [0; MOST_TABLETS] }
    }

    pub fn look_over(&mut self, scheme: u32, relays: &[u32], tablets: &[u32]) -> bool {
        if !tablets.len().is_multiple_of(2) || tablets.len() / 2 > MOST_TABLETS {
            return false;
        }
        let Some(relays) = relay_entries(relays) else { return false };
        self.ring.fill(scheme, relays);
        self.row.fill(&self.ring);
        self.place_all(scheme, places(tablets))
    }

    /// Places the tablets by rising number, as far as the table has any, and compares.
    fn place_all(&mut self, scheme: u32, tablets: &[[u32; 2]]) -> bool {
        let mut before = 0;
        let mut from = (0, 0);
        let learnt = self.home.iter_mut().zip(&mut self.slot);
        let mut m = 0;
        for (&[number, relay], (home, slot)) in tablets.iter().zip(learnt) {
            if number <= before {
                break;
            }
            before = number;
            let position = positions::tablet(scheme, number);
            from = (position, self.ring.next_home(from, position));
            *home = from.1 as u8;
            let k = self.row.next[*home as usize];
            *slot = k;
            if self.row.room[k as usize] == 0 || self.ring.number(k) != relay {
                return false;
            }
            self.row.take(k);
            m += 1;
            self.last[k as usize] = m;
        }
        self.m = m as usize;
        unused(&tablets[self.m..])
    }
}
