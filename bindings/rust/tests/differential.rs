//! The library beside the second program: random rings and calls, with every lent number compared, of refused calls too.
mod rings;
mod second;

use rings::{agree, blank, ring, seeds, shared_positions, some_call, Pools, Random};
use second::{flat, Memory};

/// Runs of calls from empty tables, crowded and roomy, with tables of as many places as fill up.
#[test]
fn runs_from_empty_tables() {
    let shared = shared_positions();
    let mut calls = 0;
    let mut refused = [0u32; 10];
    for seed in seeds() {
        let mut random = Random(seed);
        for _ in 0..220 {
            let scheme = random.below(2) as u32;
            let pools = {
                let (r, t) = (1 + random.below(14), 1 + random.below(60));
                Pools::new(&mut random, scheme, r, t, &shared)
            };
            let greatest = random.pick(&[1, 2, 3, 8, 30]);
            let short = if random.one_in(3) { random.below(12) } else { 3 * 60 };
            let mut memory = blank(random.below(16), random.below(50), short);
            if random.one_in(4) {
                memory.tally = random.pick(&[&[][..], &[7, 8, 9], &[u32::MAX, u32::MAX - 1, u32::MAX - 2, u32::MAX], &[1, 2, 3, 4, 5]]).to_vec();
            }
            for _ in 0..130 {
                let call = some_call(&mut random, &pools, greatest);
                refused[agree(scheme, &mut memory, call)[0] as usize] += 1;
                calls += 1;
            }
        }
    }
    println!("{calls} calls, by refusal number: {refused:?}");
    assert!(calls >= 100_000);
    for number in [0, 3, 4, 5, 6, 7, 8, 9] {
        assert!(refused[number] > 0, "no call gave {number}");
    }
}

/// One thing wrong in lent tables, or nothing: an entry changed, numbers swapped, a table cut, the other scheme.
fn damage(random: &mut Random, scheme: &mut u32, memory: &mut Memory) {
    fn entry(random: &mut Random, table: &mut [u32]) -> Option<usize> {
        (table.len() >= 2).then(|| 2 * random.below(table.len() / 2))
    }
    let table = if random.one_in(2) { &mut memory.relays } else { &mut memory.tablets };
    match random.below(12) {
        0 => *scheme = random.pick(&[1 - *scheme, 2, u32::MAX]),
        1 => _ = table.pop(),
        2 => table.push(random.pick(&[0, 1, u32::MAX])),
        3 => {
            if let Some(i) = entry(random, table) {
                table[i] = random.pick(&[0, 1, u32::MAX, table[i].wrapping_add(1)]);
            }
        }
        4 => {
            if let Some(i) = entry(random, table) {
                table[i + 1] = random.pick(&[0, 4096, 4097, u32::MAX, table[i + 1].wrapping_add(1), table[i + 1].wrapping_sub(1)]);
            }
        }
        5 => {
            if let (Some(i), Some(k)) = (entry(random, table), entry(random, table)) {
                table.swap(i + 1, k + 1);
            }
        }
        6 => {
            if let (Some(i), Some(k)) = (entry(random, table), entry(random, table)) {
                table.swap(i, k);
            }
        }
        7 => {
            if let Some(i) = entry(random, table) {
                table[i] = 0;
                table[i + 1] = 0;
            }
        }
        8 => {
            let last = table.len();
            if last > 0 {
                table[last - 1 - random.below(2.min(last))] = 1 + random.below(9) as u32;
            }
        }
        9 => {
            let more = random.pick(&[512, 514, 8192, 8194]);
            if table.len() < more {
                table.resize(more, 0);
            }
        }
        _ => {}
    }
}

#[test]
fn damaged_tables() {
    let shared = shared_positions();
    let mut refused = [0u32; 10];
    for seed in seeds() {
        let mut random = Random(seed);
        for _ in 0..9_000 {
            let mut scheme = random.below(2) as u32;
            let (r, t) = (random.below(9), random.below(25));
            let pools = Pools::new(&mut random, scheme, r + 2, t + 8, &shared);
            let greatest = random.pick(&[1, 3, 9]);
            let ring = ring(&mut random, scheme, &pools, r, t, greatest);
            let mut memory = blank(0, 0, random.below(40));
            memory.relays = flat(&ring.relays, 2 * (ring.relays.len() + random.below(3)));
            memory.tablets = flat(&ring.tablets, 2 * (ring.tablets.len() + random.below(3)));
            damage(&mut random, &mut scheme, &mut memory);
            let call = some_call(&mut random, &pools, greatest);
            refused[agree(scheme, &mut memory, call)[0] as usize] += 1;
        }
    }
    println!("by refusal number: {refused:?}");
    assert!(refused[..9].iter().all(|&n| n > 0), "a number was never given");
}

/// Rings of every size up to the largest that may be, full or nearly so.
#[test]
fn rings_of_every_size() {
    let shared = shared_positions();
    for seed in seeds() {
        let mut random = Random(seed);
        for (relays, tablets) in [(1, 40), (20, 200), (64, 1_024), (130, 2_500), (256, 4_096)] {
            for scheme in [0, 1] {
                let pools = Pools::new(&mut random, scheme, relays + relays / 2, tablets + tablets / 2, &shared);
                let greatest = 2 * (tablets / relays) as u32 + 1;
                let ring = ring(&mut random, scheme, &pools, relays, tablets, greatest);
                let mut memory = blank(0, 0, 3 * 4_096);
                memory.relays = flat(&ring.relays, 2 * relays);
                memory.tablets = flat(&ring.tablets, 2 * tablets);
                for _ in 0..50 {
                    let call = some_call(&mut random, &pools, greatest);
                    agree(scheme, &mut memory, call);
                }
            }
        }
    }
}
