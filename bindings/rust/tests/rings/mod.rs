//! Random numbers, rings and calls, and the library's calls on the second program's memory.
#![allow(dead_code)]
use crate::second::{self, Call, Memory};
use std::time::{SystemTime, UNIX_EPOCH};

#[path = "../../../../tests/random.rs"]
mod random;

pub use random::Random;

/// Seeds that are always run, and a fresh one, which is printed.
pub fn seeds() -> Vec<u64> {
    let fresh = SystemTime::now().duration_since(UNIX_EPOCH).unwrap().as_nanos() as u64;
    println!("fresh seed: {fresh}");
    vec![1, 20, 300, fresh]
}

/// Pairs of relays that share a position under scheme 1, from among scattered numbers.
pub fn shared_positions() -> Vec<[u32; 2]> {
    let scattered = (1..=300_000u32).map(|i| i.wrapping_mul(2_654_435_769));
    let mut all: Vec<(u32, u32)> = scattered.map(|r| (second::relay_position(1, r), r)).collect();
    all.sort();
    all.windows(2).filter(|w| w[0].0 == w[1].0).map(|w| [w[0].1, w[1].1]).collect()
}

/// Numbers that calls of a run draw on, so that they meet again.
pub struct Pools {
    pub relays: Vec<u32>,
    pub tablets: Vec<u32>,
}

impl Pools {
    pub fn new(random: &mut Random, scheme: u32, relays: usize, tablets: usize, shared: &[[u32; 2]]) -> Pools {
        let mut pools = Pools { relays: numbers(random, relays), tablets: numbers(random, tablets) };
        if scheme == 1 && random.one_in(2) && relays >= 2 {
            for pair in pools.relays.chunks_exact_mut(2).take(3) {
                pair.copy_from_slice(&random.pick(shared));
            }
        }
        pools
    }
}

/// Scattered, close together, or round the top of the ring.
fn numbers(random: &mut Random, count: usize) -> Vec<u32> {
    let kind = random.below(4);
    let base = random.draw() as u32;
    (0..count.max(1))
        .map(|_| match kind {
            0 => random.draw() as u32,
            1 => 1 + random.below(2 * count + 3) as u32,
            2 => u32::MAX - random.below(2 * count + 3) as u32,
            _ => base.wrapping_add(random.below(3 * count + 3) as u32),
        })
        .collect()
}

pub fn some_call(random: &mut Random, pools: &Pools, greatest_limit: u32) -> Call {
    let relay = if random.one_in(60) { 0 } else { random.pick(&pools.relays) };
    let tablet = if random.one_in(60) { 0 } else { random.pick(&pools.tablets) };
    let limit = match random.below(40) {
        0 => 4096,
        1 => 4097,
        2 => u32::MAX,
        _ => random.below(greatest_limit as usize + 1) as u32,
    };
    match random.below(20) {
        0..=2 => Call::Add(relay, limit),
        3 => Call::Remove(relay),
        4 => Call::Set(relay, limit),
        5..=12 => Call::Enrol(tablet),
        13..=16 => Call::Withdraw(tablet),
        _ => Call::Find(tablet),
    }
}

/// The library's answer, on the same memory.
pub fn library(scheme: u32, m: &mut Memory, call: Call) -> [u32; 4] {
    use wairepomuro::raw;
    if let Call::Find(t) = call {
        return raw::find(scheme, &m.relays, &m.tablets, &mut m.tally, t);
    }
    let mut lent = raw::Lent { relays: &mut m.relays, tablets: &mut m.tablets, moves: &mut m.moves, tally: &mut m.tally };
    match call {
        Call::Add(r, limit) => raw::add(scheme, &mut lent, r, limit),
        Call::Remove(r) => raw::remove(scheme, &mut lent, r),
        Call::Set(r, limit) => raw::set(scheme, &mut lent, r, limit),
        Call::Enrol(t) => raw::enrol(scheme, &mut lent, t),
        Call::Withdraw(t) => raw::withdraw(scheme, &mut lent, t),
        Call::Find(_) => unreachable!(),
    }
}

/// Both on copies of the same memory; every number that is lent is compared. The memory goes on as the library left it.
pub fn agree(scheme: u32, memory: &mut Memory, call: Call) -> [u32; 4] {
    let before = memory.clone();
    let checked = match scheme {
        0 | 1 => 2 * second::right(scheme, &memory.relays, &memory.tablets).is_none() as u32,
        _ => 1,
    };
    assert_eq!(wairepomuro::raw::check(scheme, &memory.relays, &memory.tablets), checked, "{before:?} under scheme {scheme}");
    let mut expected = memory.clone();
    let reply = second::call(scheme, &mut expected, call);
    let answer = library(scheme, memory, call);
    assert_eq!(answer, reply, "{call:?} under scheme {scheme} on {before:?}");
    assert_eq!(*memory, expected, "{call:?} under scheme {scheme} on {before:?}");
    reply
}

/// Blank memory of so many places. The move list holds marks, so that a stray write shows.
pub fn blank(relay_places: usize, tablet_places: usize, move_numbers: usize) -> Memory {
    Memory {
        relays: vec![0; 2 * relay_places],
        tablets: vec![0; 2 * tablet_places],
        moves: (0..move_numbers as u32).map(|i| 0xa000_0000 + i).collect(),
        tally: vec![0; 4],
    }
}

/// A right ring of so many relays and at most so many tablets, made by the second program's placement.
pub fn ring(random: &mut Random, scheme: u32, pools: &Pools, relays: usize, tablets: usize, greatest_limit: u32) -> second::Ring {
    let mut ring = second::Ring::default();
    for &r in pools.relays.iter().filter(|&&r| r != 0).take(relays) {
        ring.relays.insert(r, random.below(greatest_limit as usize + 1) as u32);
    }
    let room: usize = ring.relays.values().map(|&l| l as usize).sum();
    let mut chosen: Vec<u32> = pools.tablets.iter().copied().filter(|&t| t != 0).collect();
    chosen.sort();
    chosen.dedup();
    random.shuffle(&mut chosen);
    chosen.truncate(tablets.min(room));
    chosen.sort();
    ring.tablets = second::placement(scheme, &ring.relays, chosen.iter()).expect("no more than the room");
    ring
}
