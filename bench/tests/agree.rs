//! The three engines on random rings and calls: the same replies, and the same numbers in all lent memory, of refused calls too.
use wairepomuro_bench::engine::{agree, Call, Memory};
use wairepomuro_bench::random::Random;
use wairepomuro_bench::{cases, naive, roster};

fn some_call(random: &mut Random, relays: &[u32], tablets: &[u32], greatest: usize) -> Call {
    let (relay, tablet) = (random.pick(relays), random.pick(tablets));
    let limit = if random.below(20) == 0 { random.pick(&[4096, 4097, u32::MAX]) } else { random.below(greatest + 1) as u32 };
    match random.below(26) {
        0..=2 => Call::Add(relay, limit),
        3 => Call::Remove(relay),
        4 => Call::Set(relay, limit),
        5..=11 => Call::Enrol(tablet),
        12..=15 => Call::Withdraw(tablet),
        16..=18 => Call::Find(tablet),
        19 => Call::Check,
        20 => Call::Read,
        21..=22 => Call::Sheet,
        _ => Call::Stretch(relay),
    }
}

/// Numbers close together, so that many share a home, or spread over the ring; and 0, which no call takes.
fn pool(random: &mut Random, count: usize) -> Vec<u32> {
    let top = random.pick(&[2 * count as u32, u32::MAX]);
    let mut numbers = random.rising(count, top);
    numbers.push(0);
    numbers
}

/// Runs of calls from empty tables, in tables that are often too small, with move lists and sheets that are often too short, and with a roster
/// of the tables as they once were.
#[test]
fn runs_of_calls() {
    let mut random = Random(1);
    let mut refused = [0; 13];
    for _ in 0..1_200 {
        let scheme = random.below(2) as u32;
        let (r, t) = (1 + random.below(16), 1 + random.below(70));
        let (relays, tablets) = (pool(&mut random, r), pool(&mut random, t));
        let greatest = random.pick(&[1, 3, 8, 30]);
        let moves = random.pick(&[0, 5, 12, 210]);
        let mut memory = Memory {
            relays: vec![0; 2 * random.below(18)],
            tablets: vec![0; 2 * random.below(60)],
            moves: vec![9; moves],
            tally: vec![0; 4],
            sheet: vec![9; random.below(60)],
            roster: roster::write(scheme, &[], &[]),
        };
        for _ in 0..140 {
            if random.one_in(20) {
                memory.roster = roster::write(scheme, &memory.relays, &memory.tablets);
            }
            let call = some_call(&mut random, &relays, &tablets, greatest);
            let (reply, after) = agree(scheme, &memory, call);
            refused[reply[0] as usize] += 1;
            memory = after;
        }
    }
    assert!([0, 3, 4, 5, 6, 7, 8, 9, 12].iter().all(|&number| refused[number] > 0), "a number was never given: {refused:?}");
}

/// Right tables, with their sheet and their roster.
fn right(random: &mut Random, scheme: u32, relays: &[u32], tablets: &[u32]) -> Memory {
    let [relays, tablets] = naive::tables(scheme, relays, tablets.len().div_ceil(relays.len()) as u32, tablets);
    let roster = roster::write(scheme, &relays, &tablets);
    let sheet = vec![9; tablets.len() / 2 + random.below(3)];
    let mut memory = Memory { relays, tablets, moves: vec![9; 60], tally: vec![0; 4], sheet, roster };
    naive::call(scheme, &mut memory, Call::Sheet);
    memory
}

/// Few numbers, close together.
fn some_numbers(random: &mut Random) -> (Vec<u32>, Vec<u32>) {
    let (r, t) = (1 + random.below(9), 1 + random.below(20));
    (random.rising(r, 40), random.rising(t, 60))
}

/// One number of the lent tables or of the sheet changed, or one of them of another length, or another scheme.
#[test]
fn damaged_tables() {
    let mut random = Random(2);
    let mut refused = [0; 13];
    for _ in 0..20_000 {
        let mut scheme = random.below(2) as u32;
        let (relays, tablets) = some_numbers(&mut random);
        let mut memory = right(&mut random, scheme, &relays, &tablets);
        let mut lent = [&mut memory.relays, &mut memory.tablets, &mut memory.sheet];
        let table = &mut lent[random.below(3)];
        let at = random.below(table.len());
        match random.below(6) {
            0 => scheme = random.pick(&[1 - scheme, 2]),
            1 => table.truncate(at),
            2 => table.resize(random.pick(&[511, 512, 514, 8192, 8194]), 0),
            3 => table[at] = random.pick(&[0, 1, 4097, u32::MAX]),
            4 => table[at] = table[at].wrapping_add(1),
            _ => {}
        }
        let call = some_call(&mut random, &relays, &tablets, 30);
        refused[agree(scheme, &memory, call).0[0] as usize] += 1;
    }
    assert!(refused[..3].iter().all(|&n| n > 0), "a number was never given: {refused:?}");
}

/// A roster with one bit changed, a byte more, some fewer, another scheme, or a block's last entry blank, read into tables that may not take it.
#[test]
fn damaged_rosters() {
    let mut random = Random(4);
    let mut refused = [0; 13];
    for _ in 0..20_000 {
        let scheme = random.below(2) as u32;
        let (relays, tablets) = some_numbers(&mut random);
        let mut memory = right(&mut random, scheme, &relays, &tablets);
        for (table, most) in [(&mut memory.relays, 512), (&mut memory.tablets, 8192)] {
            let length = table.len();
            *table = vec![9; random.pick(&[length, length, length + 6, length + 1, length - 2, most, most + 2])];
        }
        let roster = &mut memory.roster;
        let (at, trailer) = (random.below(roster.len()), roster.len() - 20);
        let block_end = random.pick(&[8 * relays.len(), trailer]);
        match random.below(10) {
            0 => roster[at] ^= 1 << random.below(8),
            1 => roster.truncate(at),
            2 => roster.insert(at, 0),
            3 => roster[trailer + 16] = random.below(3) as u8,
            4 => roster[block_end - 8..block_end].fill(0),
            _ => {}
        }
        refused[agree(scheme, &memory, Call::Read).0[0] as usize] += 1;
    }
    assert!([0, 1, 10, 11, 12].iter().all(|&number| refused[number] > 0), "a number was never given: {refused:?}");
}

/// The largest rings, full or nearly so.
#[test]
fn largest_rings() {
    let mut random = Random(3);
    for round in 0..24 {
        let scheme = round % 2;
        let (relays, tablets) = (random.rising(300, u32::MAX), random.rising(4_400, u32::MAX));
        let used = 256 - random.below(2);
        let [mut relays_lent, mut tablets_lent] = naive::tables(scheme, &relays[..used], 16, &tablets[..4_080]);
        relays_lent.resize(512, 0);
        tablets_lent.resize(8_192, 0);
        let roster = roster::write(scheme, &relays_lent, &tablets_lent);
        let (moves, sheet) = (vec![9; 12_288], vec![9; 4_096]);
        let mut memory = Memory { relays: relays_lent, tablets: tablets_lent, moves, tally: vec![0; 4], sheet, roster };
        for _ in 0..20 {
            let call = some_call(&mut random, &relays, &tablets, 40);
            memory = agree(scheme, &memory, call).1;
        }
    }
}

/// Every case that is measured is a call that is accepted. A stretch is where there is something in it.
#[test]
fn cases_are_accepted() {
    for case in cases::all() {
        let (memory, call) = case.lend();
        let ([refusal, _, length, _], _) = agree(case.scheme, &memory, call);
        assert_eq!(refusal, 0, "{case:?}");
        assert!(case.kind != cases::Kind::Stretch || length > 0, "{case:?}");
    }
}
