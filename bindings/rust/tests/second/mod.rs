//! A second program for the six calls, rosters, sheets and the balanced limit, from document 01 alone: maps, sets and sorted orders, and every placement made afresh. It shares
//! nothing with the library.
#![allow(dead_code)]
use std::collections::{BTreeMap, BTreeSet};

/// Relays with their limits, tablets with their relays.
#[derive(Clone, Debug, Default, PartialEq, Eq)]
pub struct Ring {
    pub relays: BTreeMap<u32, u32>,
    pub tablets: BTreeMap<u32, u32>,
}

#[derive(Clone, Copy, Debug, PartialEq, Eq)]
pub enum Call {
    Add(u32, u32),
    Remove(u32),
    Set(u32, u32),
    Enrol(u32),
    Withdraw(u32),
    Find(u32),
}

/// All that a caller lends.
#[derive(Clone, Debug, PartialEq, Eq)]
pub struct Memory {
    pub relays: Vec<u32>,
    pub tablets: Vec<u32>,
    pub moves: Vec<u32>,
    pub tally: Vec<u32>,
}

// ---- the ring

pub fn fnv(bytes: &[u8]) -> u32 {
    bytes.iter().fold(2166136261, |h, &b| (h ^ b as u32).wrapping_mul(16777619))
}

fn position(scheme: u32, tag: u8, number: u32) -> u32 {
    match scheme {
        0 => number,
        1 => {
            let b = number.to_le_bytes();
            fnv(&[tag, b[0], b[1], b[2], b[3]])
        }
        _ => unreachable!("the scheme was checked"),
    }
}

pub fn relay_position(scheme: u32, relay: u32) -> u32 {
    position(scheme, b'R', relay)
}

pub fn tablet_position(scheme: u32, tablet: u32) -> u32 {
    position(scheme, b'T', tablet)
}

/// The relays by position and then number: the ring, from its start to its top.
type Circle = BTreeSet<(u32, u32)>;

fn circle(scheme: u32, relays: &BTreeMap<u32, u32>) -> Circle {
    relays.keys().map(|&r| (relay_position(scheme, r), r)).collect()
}

/// A tablet's clockwise order: from its own position to the top, and round.
fn order(scheme: u32, circle: &Circle, tablet: u32) -> impl Iterator<Item = u32> + '_ {
    let at = (tablet_position(scheme, tablet), 0);
    circle.range(at..).chain(circle.range(..at)).map(|&(_, r)| r)
}

pub fn order_by_map(scheme: u32, relays: &BTreeMap<u32, u32>, tablet: u32) -> Vec<u32> {
    order(scheme, &circle(scheme, relays), tablet).collect()
}

/// The order again, by sorting distances: slow, and nearer to the paper's words.
pub fn order_by_distance(scheme: u32, relays: &BTreeMap<u32, u32>, tablet: u32) -> Vec<u32> {
    let at = tablet_position(scheme, tablet);
    let mut all: Vec<u32> = relays.keys().copied().collect();
    all.sort_by_key(|&r| (relay_position(scheme, r).wrapping_sub(at), r));
    all
}

// ---- the rule

pub fn placement<'a>(scheme: u32, relays: &BTreeMap<u32, u32>, tablets: impl Iterator<Item = &'a u32>) -> Option<BTreeMap<u32, u32>> {
    let circle = circle(scheme, relays);
    let mut load: BTreeMap<u32, u32> = relays.keys().map(|&r| (r, 0)).collect();
    let mut placed = BTreeMap::new();
    for &t in tablets {
        let r = order(scheme, &circle, t).find(|r| load[r] < relays[r])?;
        *load.get_mut(&r).unwrap() += 1;
        placed.insert(t, r);
    }
    Some(placed)
}

fn loads(ring: &Ring) -> BTreeMap<u32, u32> {
    let mut load: BTreeMap<u32, u32> = ring.relays.keys().map(|&r| (r, 0)).collect();
    for r in ring.tablets.values() {
        *load.get_mut(r).unwrap() += 1;
    }
    load
}

// ---- lent tables

fn entries(numbers: &[u32], most: usize) -> Option<BTreeMap<u32, u32>> {
    if numbers.len() % 2 != 0 || numbers.len() / 2 > most {
        return None;
    }
    let places: Vec<(u32, u32)> = numbers.chunks(2).map(|e| (e[0], e[1])).collect();
    let used = places.iter().take_while(|e| e.0 != 0).count();
    let rising = places[..used].windows(2).all(|w| w[0].0 < w[1].0);
    let blank = places[used..].iter().all(|&e| e == (0, 0));
    (rising && blank).then(|| places[..used].iter().copied().collect())
}

/// The tables as a ring, where they are right.
pub fn right(scheme: u32, relays: &[u32], tablets: &[u32]) -> Option<Ring> {
    let ring = Ring { relays: entries(relays, 256)?, tablets: entries(tablets, 4096)? };
    if ring.relays.values().any(|&limit| limit > 4096) {
        return None;
    }
    (placement(scheme, &ring.relays, ring.tablets.keys())? == ring.tablets).then_some(ring)
}

pub fn flat(entries: &BTreeMap<u32, u32>, length: usize) -> Vec<u32> {
    let mut numbers: Vec<u32> = entries.iter().flat_map(|(&k, &v)| [k, v]).collect();
    numbers.resize(length, 0);
    numbers
}

// ---- the calls

fn outcome(scheme: u32, lent: &Memory, call: Call) -> Result<([u32; 3], Ring, Vec<[u32; 3]>), u32> {
    if scheme > 1 {
        return Err(1);
    }
    let before = right(scheme, &lent.relays, &lent.tablets).ok_or(2u32)?;
    let (number, limit) = match call {
        Call::Add(r, limit) | Call::Set(r, limit) => (r, limit),
        Call::Remove(x) | Call::Enrol(x) | Call::Withdraw(x) | Call::Find(x) => (x, 0),
    };
    if number == 0 {
        return Err(3);
    }
    if limit > 4096 {
        return Err(4);
    }
    let there = match call {
        Call::Add(..) | Call::Remove(_) | Call::Set(..) => before.relays.contains_key(&number),
        Call::Enrol(_) | Call::Withdraw(_) | Call::Find(_) => before.tablets.contains_key(&number),
    };
    match call {
        Call::Add(..) | Call::Enrol(_) if there => return Err(6),
        Call::Remove(_) | Call::Set(..) | Call::Withdraw(_) | Call::Find(_) if !there => return Err(5),
        Call::Add(..) if before.relays.len() == lent.relays.len() / 2 => return Err(7),
        Call::Enrol(_) if before.tablets.len() == lent.tablets.len() / 2 => return Err(7),
        _ => {}
    }
    let circle = circle(scheme, &before.relays);
    if let Call::Find(t) = call {
        let relay = before.tablets[&t];
        let passed = order(scheme, &circle, t).take_while(|&r| r != relay).count();
        return Ok(([relay, passed as u32, 0], before, vec![]));
    }
    let mut relays = before.relays.clone();
    let mut tablets: BTreeSet<u32> = before.tablets.keys().copied().collect();
    match call {
        Call::Add(r, limit) | Call::Set(r, limit) => _ = relays.insert(r, limit),
        Call::Remove(r) => _ = relays.remove(&r),
        Call::Enrol(t) => _ = tablets.insert(t),
        Call::Withdraw(t) => _ = tablets.remove(&t),
        Call::Find(_) => {}
    }
    if (relays.values().map(|&l| l as u64).sum::<u64>()) < tablets.len() as u64 {
        return Err(8);
    }
    let placed = placement(scheme, &relays, tablets.iter()).expect("the limits suffice");
    let moves: Vec<[u32; 3]> =
        placed.iter().filter_map(|(&t, &new)| before.tablets.get(&t).filter(|&&old| old != new).map(|&old| [t, old, new])).collect();
    if moves.len() > lent.moves.len() / 3 {
        return Err(9);
    }
    let load = loads(&before);
    let full = |r: &u32| load[r] == before.relays[r];
    let (relay, passed) = match call {
        Call::Enrol(t) => (placed[&t], order(scheme, &circle, t).take_while(full).count()),
        Call::Withdraw(t) => {
            let relay = before.tablets[&t];
            (relay, order(scheme, &circle, t).take_while(|&r| r != relay).count())
        }
        _ => (number, 0),
    };
    Ok(([relay, passed as u32, moves.len() as u32], Ring { relays, tablets: placed }, moves))
}

/// The call on lent memory: the reply as four numbers.
pub fn call(scheme: u32, lent: &mut Memory, call: Call) -> [u32; 4] {
    match outcome(scheme, lent, call) {
        Err(refusal) => {
            if lent.tally.len() == 4 {
                lent.tally[3] = lent.tally[3].saturating_add(1);
            }
            [refusal, 0, 0, 0]
        }
        Ok(([relay, passed, moves], ring, list)) => {
            lent.relays = flat(&ring.relays, lent.relays.len());
            lent.tablets = flat(&ring.tablets, lent.tablets.len());
            for (place, m) in lent.moves.chunks_exact_mut(3).zip(&list) {
                place.copy_from_slice(m);
            }
            if lent.tally.len() == 4 {
                match call {
                    Call::Enrol(_) => lent.tally[0] = lent.tally[0].saturating_add(1),
                    Call::Withdraw(_) => lent.tally[1] = lent.tally[1].saturating_add(1),
                    _ => {}
                }
                lent.tally[2] = lent.tally[2].saturating_add(moves);
            }
            [0, relay, passed, moves]
        }
    }
}

// ---- rosters

/// Blocks, then the trailer that points back to them.
pub fn roster(scheme: u32, ring: &Ring) -> Vec<u8> {
    let blocks = [flat(&ring.relays, 2 * ring.relays.len()), flat(&ring.tablets, 2 * ring.tablets.len())].concat();
    let (n, m) = (ring.relays.len() as u32, ring.tablets.len() as u32);
    let trailer = [20 + 8 * m + 8 * n, n, 20 + 8 * m, m, scheme];
    blocks.iter().chain(&trailer).flat_map(|x| x.to_le_bytes()).collect()
}

/// The refusal number and the scheme.
pub fn read(bytes: &[u8], relays: &mut [u32], tablets: &mut [u32]) -> (u32, u32) {
    match reading(bytes, relays, tablets) {
        Err(refusal) => (refusal, 0),
        Ok((scheme, ring)) => {
            relays.copy_from_slice(&flat(&ring.relays, relays.len()));
            tablets.copy_from_slice(&flat(&ring.tablets, tablets.len()));
            (0, scheme)
        }
    }
}

fn reading(bytes: &[u8], relays: &[u32], tablets: &[u32]) -> Result<(u32, Ring), u32> {
    let body = bytes.len().checked_sub(20).ok_or(10u32)?;
    let words = |b: &[u8]| -> Vec<u32> { b.chunks_exact(4).map(|w| u32::from_le_bytes(w.try_into().unwrap())).collect() };
    let [back, n, tablets_back, m, scheme] = words(&bytes[body..])[..] else { unreachable!() };
    let (n, m) = (n as u64, m as u64);
    let shape = n <= 256
        && m <= 4096
        && tablets_back as u64 == 20 + 8 * m
        && back as u64 == 20 + 8 * m + 8 * n
        && bytes.len() as u64 == back as u64;
    if !shape {
        return Err(10);
    }
    if scheme > 1 {
        return Err(1);
    }
    let fits = |table: &[u32], count: u64, most: usize| table.len() % 2 == 0 && table.len() / 2 <= most && table.len() as u64 / 2 >= count;
    if !fits(relays, n, 256) || !fits(tablets, m, 4096) {
        return Err(12);
    }
    let block = words(&bytes[..body]);
    let (first, second) = block.split_at(2 * n as usize);
    if block.chunks(2).any(|e| e[0] == 0) {
        return Err(11);
    }
    right(scheme, first, second).map(|ring| (scheme, ring)).ok_or(11)
}

// ---- the sheet

fn tablets_by_relay(ring: &Ring) -> BTreeMap<u32, Vec<u32>> {
    let mut by: BTreeMap<u32, Vec<u32>> = ring.relays.keys().map(|&r| (r, vec![])).collect();
    for (&t, r) in &ring.tablets {
        by.get_mut(r).unwrap().push(t);
    }
    by
}

pub fn sheet(scheme: u32, relays: &[u32], tablets: &[u32], sheet: &mut [u32]) -> u32 {
    if scheme > 1 {
        return 1;
    }
    let Some(ring) = right(scheme, relays, tablets) else { return 2 };
    let list: Vec<u32> = tablets_by_relay(&ring).into_values().flatten().collect();
    if sheet.len() < list.len() {
        return 12;
    }
    sheet[..list.len()].copy_from_slice(&list);
    0
}

/// Where the stretch starts, and its length.
pub fn stretch(scheme: u32, relays: &[u32], tablets: &[u32], lent: &[u32], relay: u32) -> (usize, usize) {
    let ring = match scheme {
        0 | 1 => right(scheme, relays, tablets),
        _ => None,
    };
    let Some(ring) = ring else { return (0, 0) };
    let by = tablets_by_relay(&ring);
    let list: Vec<u32> = by.values().flatten().copied().collect();
    if !lent.starts_with(&list) || !by.contains_key(&relay) {
        return (0, 0);
    }
    (by.range(..relay).map(|(_, t)| t.len()).sum(), by[&relay].len())
}

// ---- the balanced limit

pub fn balance(p: u32, q: u32, tablets: u32, relays: u32) -> (u32, u32) {
    if p == 0 || q == 0 || relays == 0 {
        return (3, 0);
    }
    if p > 1000 || q > 1000 || p < q || tablets > 4096 || relays > 256 {
        return (4, 0);
    }
    let (wanted, places) = (p * tablets, q * relays);
    let up = wanted / places + (wanted % places != 0) as u32;
    (0, up.min(4096))
}
