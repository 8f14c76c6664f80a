//! The cases that document 01 lists, and bad input of every kind, each with the number that it has to give.
mod rings;
mod second;

use rings::{agree, blank, shared_positions};
use second::{Call, Memory};
use Call::{Add, Enrol, Find, Remove, Set, Withdraw};

const SCHEME: u32 = 0;

/// Relays 10, 20 and 30 with limits 1, 2 and 1, as in the drill.
fn drill() -> Memory {
    let mut memory = blank(8, 8, 24);
    for (relay, limit) in [(10, 1), (20, 2), (30, 1)] {
        assert_eq!(agree(SCHEME, &mut memory, Add(relay, limit)), [0, relay, 0, 0]);
    }
    memory
}

/// The reply, and that the moves are these.
fn replies(memory: &mut Memory, call: Call, reply: [u32; 3], moves: &[[u32; 3]]) {
    let [relay, passed, refusal] = [reply[1], reply[2], reply[0]];
    assert_eq!(agree(SCHEME, memory, call), [refusal, relay, passed, moves.len() as u32], "{call:?}");
    assert_eq!(memory.moves[..3 * moves.len()], *moves.concat(), "{call:?}");
}

#[test]
fn the_drill() {
    let mut memory = drill();
    let m = &mut memory;
    replies(m, Enrol(5), [0, 10, 0], &[]);
    replies(m, Enrol(3), [0, 10, 1], &[[5, 10, 20]]);
    replies(m, Enrol(31), [0, 20, 1], &[]);
    replies(m, Enrol(12), [0, 20, 1], &[[31, 20, 30]]);
    replies(m, Enrol(40), [8, 0, 0], &[]);
    replies(m, Enrol(12), [6, 0, 0], &[]);
    replies(m, Find(31), [0, 30, 2], &[]);
    replies(m, Withdraw(3), [0, 10, 0], &[[5, 20, 10], [31, 30, 20]]);
    replies(m, Add(4, 1), [0, 4, 0], &[[31, 20, 4]]);
    replies(m, Set(10, 0), [0, 10, 0], &[[5, 10, 20]]);
    replies(m, Find(5), [0, 20, 1], &[]);
    replies(m, Remove(20), [8, 0, 0], &[]);
    // and behind it
    replies(m, Remove(10), [0, 10, 0], &[]);
    replies(m, Withdraw(99), [5, 0, 0], &[]);
    replies(m, Set(20, 4096), [0, 20, 0], &[]);
    replies(m, Set(20, 4097), [4, 0, 0], &[]);
    // enrolments 5, 3, 31, 12; withdrawal of 3; moves 1 + 1 + 2 + 1 + 1; refusals 40, 12, 20, 99, 4097
    assert_eq!(memory.tally, [4, 1, 6, 5]);
}

#[test]
fn the_last_places() {
    let mut memory = blank(256, 4_096, 0);
    for relay in 1..=256 {
        assert_eq!(agree(1, &mut memory, Add(relay, 16)), [0, relay, 0, 0]);
    }
    assert_eq!(agree(1, &mut memory, Add(257, 16)), [7, 0, 0, 0]);
    assert_eq!(agree(1, &mut memory, Add(256, 16)), [6, 0, 0, 0]);
    let mut full = blank(1, 4_096, 3);
    assert_eq!(agree(0, &mut full, Add(7, 4_096)), [0, 7, 0, 0]);
    full.tablets = (1..=4_095).flat_map(|t| [t, 7]).chain([0, 0]).collect();
    assert_eq!(agree(0, &mut full, Enrol(u32::MAX)), [0, 7, 0, 0]);
    assert_eq!(agree(0, &mut full, Enrol(u32::MAX - 1)), [7, 0, 0, 0]);
    assert_eq!(agree(0, &mut full, Enrol(u32::MAX)), [6, 0, 0, 0]);
    assert_eq!(agree(0, &mut full, Set(7, 4_095)), [8, 0, 0, 0]);
    assert_eq!(agree(0, &mut full, Remove(7)), [8, 0, 0, 0]);
    assert_eq!(agree(0, &mut full, Withdraw(1)), [0, 7, 0, 0]);
}

/// Every call, on tables that are wrong in one way, gives this number and changes nothing but the tally.
fn all_refused(scheme: u32, memory: &Memory, number: u32) {
    for call in [Add(40, 1), Remove(10), Set(10, 2), Enrol(40), Withdraw(5), Find(5), Add(0, 5_000), Find(0)] {
        let mut m = memory.clone();
        assert_eq!(agree(scheme, &mut m, call), [number, 0, 0, 0], "{call:?}");
        let mut counted = memory.clone();
        if counted.tally.len() == 4 {
            counted.tally[3] += 1;
        }
        assert_eq!(m, counted, "{call:?}");
    }
}

fn drilled() -> Memory {
    let mut memory = drill();
    for t in [5, 3, 31, 12] {
        agree(SCHEME, &mut memory, Enrol(t));
    }
    assert_eq!(memory.tablets, [3, 10, 5, 20, 12, 20, 31, 30, 0, 0, 0, 0, 0, 0, 0, 0]);
    memory
}

fn wrong(damage: impl Fn(&mut Memory)) {
    let mut memory = drilled();
    damage(&mut memory);
    all_refused(SCHEME, &memory, 2);
}

#[test]
fn unknown_schemes() {
    for scheme in [2, 3, 256, u32::MAX] {
        all_refused(scheme, &drilled(), 1);
        all_refused(scheme, &blank(0, 0, 0), 1);
    }
}

#[test]
fn wrong_lengths() {
    wrong(|m| _ = m.relays.pop());
    wrong(|m| _ = m.tablets.pop());
    wrong(|m| m.relays.push(0));
    wrong(|m| m.tablets.push(0));
    wrong(|m| m.relays.resize(514, 0));
    wrong(|m| m.tablets.resize(8_194, 0));
    let mut memory = drilled();
    memory.relays.resize(512, 0);
    memory.tablets.resize(8_192, 0);
    assert_eq!(agree(SCHEME, &mut memory, Find(5))[0], 0);
}

#[test]
fn wrong_places() {
    // a zero between entries, equal and falling numbers, something behind the entries
    wrong(|m| m.relays[2] = 0);
    wrong(|m| m.relays.copy_within(2..4, 4));
    wrong(|m| m.relays.swap(0, 2));
    wrong(|m| m.relays[6] = 25);
    wrong(|m| m.relays[7] = 1);
    wrong(|m| m.relays[15] = 1);
    wrong(|m| m.tablets[2] = 0);
    wrong(|m| m.tablets[2..4].fill(0));
    wrong(|m| m.tablets[2] = 3);
    wrong(|m| m.tablets.swap(0, 2));
    wrong(|m| m.tablets[8] = 9);
    wrong(|m| m.tablets[9] = 10);
    wrong(|m| m.tablets[15] = 30);
}

#[test]
fn wrong_limits_and_relays() {
    wrong(|m| m.relays[5] = 4_097);
    wrong(|m| m.relays[5] = u32::MAX);
    // fewer places than tablets
    wrong(|m| m.relays[3] = 1);
    wrong(|m| m.relays[1] = 0);
    // a relay that is not there, relay 0, the wrong relay, two tablets swapped
    wrong(|m| m.tablets[7] = 31);
    wrong(|m| m.tablets[7] = 0);
    wrong(|m| m.tablets[7] = 20);
    wrong(|m| m.tablets.swap(1, 3));
    // tables of the other scheme
    let mut other = blank(8, 8, 24);
    for (relay, limit) in [(10, 1), (20, 2), (30, 1)] {
        agree(1, &mut other, Add(relay, limit));
    }
    for t in [5, 3, 31, 12] {
        agree(1, &mut other, Enrol(t));
    }
    assert_ne!(other.tablets, drilled().tablets);
    all_refused(0, &other, 2);
    all_refused(1, &drilled(), 2);
}

#[test]
fn wrong_numbers() {
    for call in [Add(0, 1), Remove(0), Set(0, 1), Enrol(0), Withdraw(0), Find(0), Add(0, 4_097), Set(0, 4_097)] {
        assert_eq!(agree(SCHEME, &mut drilled(), call)[0], 3, "{call:?}");
    }
    for call in [Add(40, 4_097), Set(10, 4_097), Set(99, 4_097), Add(10, 4_097), Add(40, u32::MAX)] {
        assert_eq!(agree(SCHEME, &mut drilled(), call)[0], 4, "{call:?}");
    }
    for call in [Remove(99), Set(99, 1), Withdraw(99), Find(99), Remove(5), Find(10)] {
        assert_eq!(agree(SCHEME, &mut drilled(), call)[0], 5, "{call:?}");
    }
    for call in [Add(10, 1), Enrol(5)] {
        assert_eq!(agree(SCHEME, &mut drilled(), call)[0], 6, "{call:?}");
    }
}

#[test]
fn full_tables() {
    let mut memory = drilled();
    memory.relays.truncate(6);
    memory.tablets.truncate(8);
    assert_eq!(agree(SCHEME, &mut memory, Add(40, 1))[0], 7);
    assert_eq!(agree(SCHEME, &mut memory, Enrol(40))[0], 7);
    assert_eq!(agree(SCHEME, &mut memory, Add(10, 1))[0], 6);
    assert_eq!(agree(SCHEME, &mut memory, Withdraw(3))[0], 0);
    assert_eq!(agree(SCHEME, &mut memory, Enrol(40))[0], 0);
}

#[test]
fn move_lists_one_short() {
    // withdrawing 3 moves two
    for (numbers, refusal) in [(0, 9), (3, 9), (5, 9), (6, 0), (7, 0), (24, 0)] {
        let mut memory = drilled();
        memory.moves.truncate(numbers);
        assert_eq!(agree(SCHEME, &mut memory, Withdraw(3))[0], refusal, "{numbers} numbers");
    }
    // adding relay 1 with room for one takes 31 from 30
    for (numbers, refusal) in [(0, 9), (2, 9), (3, 0)] {
        let mut memory = drilled();
        memory.moves.truncate(numbers);
        assert_eq!(agree(SCHEME, &mut memory, Add(1, 1))[0], refusal, "{numbers} numbers");
    }
    // enrolling 1 once there is room moves two
    for (numbers, refusal) in [(0, 9), (5, 9), (6, 0)] {
        let mut memory = drilled();
        assert_eq!(agree(SCHEME, &mut memory, Add(40, 1))[0], 0);
        memory.moves = vec![0; numbers];
        assert_eq!(agree(SCHEME, &mut memory, Enrol(1))[0], refusal, "{numbers} numbers");
    }
}

#[test]
fn empty_slices_everywhere() {
    let empty = Memory { relays: vec![], tablets: vec![], moves: vec![], tally: vec![] };
    for scheme in [0, 1] {
        for (call, number) in [(Add(1, 1), 7), (Remove(1), 5), (Set(1, 1), 5), (Enrol(1), 7), (Withdraw(1), 5), (Find(1), 5), (Find(0), 3)] {
            assert_eq!(agree(scheme, &mut empty.clone(), call), [number, 0, 0, 0], "{call:?}");
        }
    }
}

#[test]
fn tallies_of_other_lengths_stay() {
    for tally in [vec![], vec![9], vec![1, 2, 3], vec![1, 2, 3, 4, 5]] {
        let mut memory = drilled();
        memory.tally = tally.clone();
        assert_eq!(agree(SCHEME, &mut memory, Withdraw(3))[0], 0);
        assert_eq!(agree(SCHEME, &mut memory, Withdraw(3))[0], 5);
        assert_eq!(memory.tally, tally);
    }
}

#[test]
fn counts_stop() {
    let mut memory = drilled();
    memory.tally = vec![u32::MAX, u32::MAX, u32::MAX - 1, u32::MAX];
    assert_eq!(agree(SCHEME, &mut memory, Withdraw(3)), [0, 10, 0, 2]);
    assert_eq!(agree(SCHEME, &mut memory, Enrol(3)), [0, 10, 2, 2]);
    assert_eq!(agree(SCHEME, &mut memory, Enrol(3))[0], 6);
    assert_eq!(memory.tally, [u32::MAX; 4]);
}

/// Relays that share a position stand in the order of their numbers.
#[test]
fn equal_positions() {
    let pairs = shared_positions();
    assert!(!pairs.is_empty());
    for [low, high] in pairs {
        for order in [[low, high], [high, low]] {
            let mut memory = blank(2, 4, 12);
            for relay in order {
                assert_eq!(agree(1, &mut memory, Add(relay, 1))[0], 0);
            }
            assert_eq!(agree(1, &mut memory, Enrol(77)), [0, low, 0, 0]);
            assert_eq!(agree(1, &mut memory, Enrol(78)), [0, high, 1, 0]);
            assert_eq!(agree(1, &mut memory, Set(low, 2)), [0, low, 0, 1]);
            assert_eq!(agree(1, &mut memory, Set(low, 0)), [8, 0, 0, 0]);
            assert_eq!(agree(1, &mut memory, Find(78)), [0, low, 0, 0]);
        }
    }
}

/// The walk comes round past the top of the ring, and numbers may be as large as they come.
#[test]
fn the_top_of_the_ring() {
    let mut memory = blank(4, 8, 24);
    let top = u32::MAX;
    for (relay, limit) in [(1, 1), (5, 1), (top, 1)] {
        agree(0, &mut memory, Add(relay, limit));
    }
    assert_eq!(agree(0, &mut memory, Enrol(top)), [0, top, 0, 0]);
    assert_eq!(agree(0, &mut memory, Enrol(top - 1)), [0, top, 1, 1]);
    assert_eq!(memory.moves[..3], [top, top, 1]);
    assert_eq!(agree(0, &mut memory, Enrol(2)), [0, 5, 0, 0]);
    assert_eq!(agree(0, &mut memory, Remove(1)), [8, 0, 0, 0]);
    assert_eq!(agree(0, &mut memory, Withdraw(top - 1)), [0, top, 0, 1]);
    assert_eq!(agree(0, &mut memory, Find(top)), [0, top, 0, 0]);
}

/// A relay of limit 0 has no room, and stands in the order all the same.
#[test]
fn limit_zero() {
    let mut memory = blank(4, 4, 12);
    agree(0, &mut memory, Add(10, 0));
    assert_eq!(agree(0, &mut memory, Enrol(7))[0], 8);
    agree(0, &mut memory, Add(20, 1));
    assert_eq!(agree(0, &mut memory, Enrol(7)), [0, 20, 1, 0]);
    assert_eq!(agree(0, &mut memory, Find(7)), [0, 20, 1, 0]);
    assert_eq!(agree(0, &mut memory, Remove(10)), [0, 10, 0, 0]);
    assert_eq!(agree(0, &mut memory, Withdraw(7)), [0, 20, 0, 0]);
}

/// A tablet and a relay may have one number, and a call about the one leaves the other alone.
#[test]
fn one_number_for_both() {
    for scheme in [0, 1] {
        let mut memory = blank(2, 2, 6);
        assert_eq!(agree(scheme, &mut memory, Add(10, 2)), [0, 10, 0, 0]);
        assert_eq!(agree(scheme, &mut memory, Find(10)), [5, 0, 0, 0]);
        assert_eq!(agree(scheme, &mut memory, Enrol(10)), [0, 10, 0, 0]);
        assert_eq!(agree(scheme, &mut memory, Add(10, 1)), [6, 0, 0, 0]);
        assert_eq!(agree(scheme, &mut memory, Withdraw(10)), [0, 10, 0, 0]);
        assert_eq!(memory.relays, [10, 2, 0, 0]);
        assert_eq!(agree(scheme, &mut memory, Set(10, 1)), [0, 10, 0, 0]);
        assert_eq!(agree(scheme, &mut memory, Enrol(10)), [0, 10, 0, 0]);
        assert_eq!(agree(scheme, &mut memory, Remove(10)), [8, 0, 0, 0]);
    }
}

/// FNV-1a's published vectors, for the second program too.
#[test]
fn published_vectors() {
    for (bytes, hash) in [(&b""[..], 0x811c9dc5u32), (b"a", 0xe40c292c), (b"foobar", 0xbf9cf968)] {
        assert_eq!(second::fnv(bytes), hash);
    }
}
