//! What is proved once for all, seen on random rings: demand 3, that history plays no part, and that a withdrawal takes an enrolment back.
mod rings;
mod second;

use rings::{agree, blank, library, ring, seeds, shared_positions, Pools, Random};
use second::{flat, order_by_distance, order_by_map, Call, Memory};

fn lend(ring: &second::Ring) -> Memory {
    let mut memory = blank(0, 0, 3 * 4_096);
    memory.relays = flat(&ring.relays, 2 * (ring.relays.len() + 8));
    memory.tablets = flat(&ring.tablets, 2 * (ring.tablets.len() + 8));
    memory
}

fn some_ring(random: &mut Random, scheme: u32, shared: &[[u32; 2]]) -> second::Ring {
    let (r, t) = (1 + random.below(20), 1 + random.below(120));
    let pools = Pools::new(random, scheme, r, t, shared);
    let greatest = random.pick(&[1, 4, 12]);
    ring(random, scheme, &pools, r, t, greatest)
}

/// The second program's orders, by maps and by sorted distances, are the same.
#[test]
fn two_ways_to_the_order() {
    let shared = shared_positions();
    assert!(!shared.is_empty());
    for seed in seeds() {
        let mut random = Random(seed);
        for _ in 0..500 {
            let scheme = random.below(2) as u32;
            let ring = some_ring(&mut random, scheme, &shared);
            for &t in ring.tablets.keys() {
                assert_eq!(order_by_map(scheme, &ring.relays, t), order_by_distance(scheme, &ring.relays, t));
            }
        }
    }
}

/// No relay less, no limit lower, no tablet more: no tablet sits later in its own clockwise order.
#[test]
fn demand_3() {
    let shared = shared_positions();
    for seed in seeds() {
        let mut random = Random(seed);
        for _ in 0..400 {
            let scheme = random.below(2) as u32;
            let first = some_ring(&mut random, scheme, &shared);
            let mut memory = lend(&first);
            for _ in 0..6 {
                let call = match random.below(3) {
                    0 => Call::Add(1 + random.draw() as u32 / 2, random.below(4) as u32),
                    1 => {
                        let relays: Vec<(u32, u32)> = first.relays.iter().map(|(&r, &l)| (r, l)).collect();
                        let (r, l) = random.pick(&relays);
                        let now = memory.relays.chunks(2).find(|e| e[0] == r).map_or(l, |e| e[1]);
                        Call::Set(r, now + random.below(3) as u32)
                    }
                    _ => match memory.tablets.chunks(2).filter(|e| e[0] != 0).nth(random.below(first.tablets.len().max(1))) {
                        Some(e) => Call::Withdraw(e[0]),
                        None => continue,
                    },
                };
                library(scheme, &mut memory, call);
            }
            let second = second::right(scheme, &memory.relays, &memory.tablets).expect("the tables stay right");
            for (t, now) in &second.tablets {
                let order = order_by_distance(scheme, &second.relays, *t);
                let place = |r: &u32| order.iter().position(|x| x == r).unwrap();
                assert!(place(now) <= place(&first.tablets[t]), "tablet {t} under scheme {scheme}");
            }
        }
    }
}

/// The same relays, limits and tablets, brought in in any order and with detours, end in the same tables.
#[test]
fn history_plays_no_part() {
    let shared = shared_positions();
    for seed in seeds() {
        let mut random = Random(seed);
        for _ in 0..120 {
            let scheme = random.below(2) as u32;
            let goal = some_ring(&mut random, scheme, &shared);
            let mut ends = vec![];
            for _ in 0..3 {
                let mut memory = blank(goal.relays.len() + 2, goal.tablets.len() + 2, 3 * 4_096);
                // A relay with room for everybody, taken out at the end, lets tablets and relays come in any order.
                let spare = (1..).find(|r| !goal.relays.contains_key(r)).unwrap();
                assert_eq!(library(scheme, &mut memory, Call::Add(spare, 4_096))[0], 0);
                let mut calls: Vec<Call> = goal.relays.iter().map(|(&r, &l)| Call::Add(r, l)).collect();
                calls.extend(goal.tablets.keys().map(|&t| Call::Enrol(t)));
                random.shuffle(&mut calls);
                for call in calls {
                    assert_eq!(library(scheme, &mut memory, call)[0], 0, "{call:?}");
                    if random.one_in(5) {
                        if let Call::Enrol(t) = call {
                            assert_eq!(library(scheme, &mut memory, Call::Withdraw(t))[0], 0);
                            assert_eq!(library(scheme, &mut memory, Call::Enrol(t))[0], 0);
                        }
                    }
                }
                assert_eq!(library(scheme, &mut memory, Call::Remove(spare))[0], 0);
                ends.push((memory.relays, memory.tablets));
            }
            assert!(ends.windows(2).all(|w| w[0] == w[1]));
            assert_eq!(second::right(scheme, &ends[0].0, &ends[0].1), Some(goal));
        }
    }
}

/// Enrol and then withdraw, or add and then remove: the tables are as they stood, to the last number.
#[test]
fn there_and_back() {
    let shared = shared_positions();
    for seed in seeds() {
        let mut random = Random(seed);
        for _ in 0..400 {
            let scheme = random.below(2) as u32;
            let mut memory = lend(&some_ring(&mut random, scheme, &shared));
            let before = (memory.relays.clone(), memory.tablets.clone());
            let number = 1 + random.draw() as u32 / 2;
            let limit = random.below(6) as u32;
            for (there, back) in [(Call::Enrol(number), Call::Withdraw(number)), (Call::Add(number, limit), Call::Remove(number))] {
                if agree(scheme, &mut memory, there)[0] == 0 {
                    assert_eq!(agree(scheme, &mut memory, back)[0], 0);
                }
                assert_eq!((&memory.relays, &memory.tablets), (&before.0, &before.1));
            }
        }
    }
}
