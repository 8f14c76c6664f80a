//! The sheet, its stretches and the balanced limit, beside the second program.
mod rings;
mod second;

use rings::{ring, seeds, shared_positions, Pools, Random};
use second::flat;
use wairepomuro::raw;

struct Tables {
    scheme: u32,
    relays: Vec<u32>,
    tablets: Vec<u32>,
}

fn some_tables(random: &mut Random, shared: &[[u32; 2]]) -> Tables {
    let scheme = random.below(2) as u32;
    let (r, t) = (random.below(12), random.below(60));
    let pools = Pools::new(random, scheme, r + 1, t + 1, shared);
    let ring = ring(random, scheme, &pools, r, t, 9);
    let relays = flat(&ring.relays, 2 * (ring.relays.len() + random.below(3)));
    let tablets = flat(&ring.tablets, 2 * (ring.tablets.len() + random.below(3)));
    Tables { scheme, relays, tablets }
}

impl Tables {
    fn used(&self) -> usize {
        self.tablets.chunks_exact(2).filter(|e| e[0] != 0).count()
    }

    fn agree(&self, lent: &mut [u32]) -> u32 {
        let mut expected = lent.to_vec();
        let refusal = second::sheet(self.scheme, &self.relays, &self.tablets, &mut expected);
        assert_eq!(raw::sheet(self.scheme, &self.relays, &self.tablets, lent), refusal);
        assert_eq!(lent, expected);
        refusal
    }

    /// The part, by where it starts and how long it is.
    fn agree_on_stretch(&self, lent: &[u32], relay: u32) {
        let (start, length) = second::stretch(self.scheme, &self.relays, &self.tablets, lent, relay);
        let part = raw::stretch(self.scheme, &self.relays, &self.tablets, lent, relay);
        assert_eq!(part.as_ptr(), lent[start..].as_ptr(), "relay {relay}");
        assert_eq!(part, &lent[start..start + length], "relay {relay}");
    }
}

#[test]
fn sheets_and_stretches() {
    let shared = shared_positions();
    for seed in seeds() {
        let mut random = Random(seed);
        for _ in 0..1_500 {
            let mut tables = some_tables(&mut random, &shared);
            let mut lent = vec![0xdddd; tables.used() + random.below(4)];
            assert_eq!(tables.agree(&mut lent), 0);
            let relays: Vec<u32> = tables.relays.chunks_exact(2).map(|e| e[0]).collect();
            for &relay in relays.iter().chain(&[0, 1, u32::MAX]) {
                tables.agree_on_stretch(&lent, relay);
            }
            // one short, another sheet, other tables, the other scheme, no scheme
            let relay = relays.first().copied().unwrap_or(5);
            if tables.used() > 0 {
                let short = &mut lent.clone()[..tables.used() - 1];
                assert_eq!(tables.agree(short), 12);
                tables.agree_on_stretch(short, relay);
                let mut other = lent.clone();
                other[random.below(tables.used())] ^= 1;
                tables.agree_on_stretch(&other, relay);
                let at = random.below(tables.tablets.len());
                tables.tablets[at] ^= 1;
                tables.agree(&mut lent.clone());
                tables.agree_on_stretch(&lent, relay);
                tables.tablets[at] ^= 1;
            }
            for scheme in [1 - tables.scheme, 2, u32::MAX] {
                tables.scheme = scheme;
                tables.agree(&mut lent.clone());
                tables.agree_on_stretch(&lent, relay);
            }
        }
    }
}

#[test]
fn the_drills_sheet() {
    let tables = Tables {
        scheme: 0,
        relays: vec![4, 0, 10, 1, 20, 2, 30, 1, 0, 0],
        tablets: vec![3, 10, 5, 20, 12, 20, 31, 30, 0, 0],
    };
    let mut lent = [7; 6];
    assert_eq!(tables.agree(&mut lent), 0);
    assert_eq!(lent, [3, 5, 12, 31, 7, 7]);
    for relay in [0, 4, 10, 11, 20, 30, 31] {
        tables.agree_on_stretch(&lent, relay);
    }
    assert_eq!(raw::stretch(0, &tables.relays, &tables.tablets, &lent, 20), [5, 12]);
    let empty = raw::stretch(0, &tables.relays, &tables.tablets, &lent, 4);
    assert!(empty.is_empty() && empty.as_ptr() == lent.as_ptr());
    assert_eq!(tables.agree(&mut lent[..3]), 12);
    assert_eq!(raw::sheet(0, &[], &[], &mut []), 0);
}

#[test]
fn balanced_limits() {
    assert_eq!(raw::balance(5, 4, 10, 4), (0, 4));
    assert_eq!(wairepomuro::balanced_limit(5, 4, 10, 4), Ok(4));
    let edges = [0, 1, 2, 3, 7, 255, 256, 257, 999, 1000, 1001, 4095, 4096, 4097, u32::MAX];
    for p in edges {
        for q in edges {
            for tablets in edges {
                for relays in edges {
                    assert_eq!(raw::balance(p, q, tablets, relays), second::balance(p, q, tablets, relays), "{p}/{q}, {tablets}, {relays}");
                }
            }
        }
    }
    for seed in seeds() {
        let mut random = Random(seed);
        for _ in 0..50_000 {
            let q = 1 + random.below(1_000) as u32;
            let p = q + random.below(1_001 - q as usize) as u32;
            let (tablets, relays) = (random.below(4_097) as u32, 1 + random.below(256) as u32);
            assert_eq!(raw::balance(p, q, tablets, relays), second::balance(p, q, tablets, relays));
        }
    }
}
