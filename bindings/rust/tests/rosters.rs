//! Rosters: read by the library and by the second program, from every kind of bytes, with every lent number compared.
mod rings;
mod second;

use rings::{ring, seeds, shared_positions, Pools, Random};
use second::{roster, Ring};
use wairepomuro::raw;

/// Tables of so many numbers, with marks, so that a stray write or a place left over shows.
fn marked(relay_numbers: usize, tablet_numbers: usize) -> (Vec<u32>, Vec<u32>) {
    (vec![0xbbbb; relay_numbers], vec![0xcccc; tablet_numbers])
}

/// Both readers on the same bytes and the same tables.
fn agree(bytes: &[u8], relay_numbers: usize, tablet_numbers: usize) -> (u32, u32) {
    let (mut relays, mut tablets) = marked(relay_numbers, tablet_numbers);
    let (mut relays_expected, mut tablets_expected) = marked(relay_numbers, tablet_numbers);
    let expected = second::read(bytes, &mut relays_expected, &mut tablets_expected);
    assert_eq!(raw::read(bytes, &mut relays, &mut tablets), expected, "{bytes:?}");
    assert_eq!((relays, tablets), (relays_expected, tablets_expected), "{bytes:?}");
    expected
}

fn drill() -> Ring {
    Ring { relays: [(10, 1), (20, 2), (30, 1)].into(), tablets: [(3, 10), (5, 20), (12, 20), (31, 30)].into() }
}

fn put(bytes: &mut [u8], word_from_end: usize, number: u32) {
    let at = bytes.len() - 4 * word_from_end;
    bytes[at..at + 4].copy_from_slice(&number.to_le_bytes());
}

fn get(bytes: &[u8], word_from_end: usize) -> u32 {
    let at = bytes.len() - 4 * word_from_end;
    u32::from_le_bytes(bytes[at..at + 4].try_into().unwrap())
}

#[test]
fn the_smallest() {
    let bytes: Vec<u8> = [20u32, 0, 20, 0, 0].iter().flat_map(|x| x.to_le_bytes()).collect();
    assert_eq!(agree(&bytes, 0, 0), (0, 0));
    assert_eq!(agree(&bytes, 512, 8192), (0, 0));
    assert_eq!(agree(&bytes[..19], 0, 0), (10, 0));
    assert_eq!(agree(&bytes[1..], 0, 0), (10, 0));
}

/// The fault that this library was built against: the blocks are right, but under the other scheme.
#[test]
fn blocks_of_the_other_scheme() {
    let mut bytes = roster(0, &drill());
    assert_eq!(agree(&bytes, 8, 16), (0, 0));
    put(&mut bytes, 1, 1);
    assert_eq!(agree(&bytes, 8, 16), (11, 0));
    for scheme in [2, 256, u32::MAX] {
        put(&mut bytes, 1, scheme);
        assert_eq!(agree(&bytes, 8, 16), (1, 0));
    }
}

#[test]
fn every_length() {
    let whole = roster(0, &drill());
    for length in 0..400 {
        let cut: Vec<u8> = whole.iter().copied().cycle().take(length).collect();
        let expected = if length == whole.len() { 0 } else { 10 };
        assert_eq!(agree(&cut, 8, 16).0, expected, "{length} bytes");
    }
    let mut random = Random(7);
    for length in 0..400 {
        let noise: Vec<u8> = (0..length).map(|_| random.draw() as u8).collect();
        agree(&noise, 8, 16);
    }
}

#[test]
fn every_field_of_the_trailer() {
    let whole = roster(0, &drill());
    for word in 1..=5 {
        let right = get(&whole, word);
        let eight_more = right.wrapping_add(1 << 29).wrapping_mul(8);
        for number in [right.wrapping_add(1), right.wrapping_sub(1), 0, u32::MAX, 257, 4097, 1 << 29, (1 << 29) + right, eight_more] {
            let mut bytes = whole.clone();
            put(&mut bytes, word, number);
            let (refusal, _) = agree(&bytes, 8, 16);
            let expected = match (word, number) {
                (_, same) if same == right => 0,
                (1, 1) => 11,
                (1, _) => 1,
                _ => 10,
            };
            assert_eq!(refusal, expected, "word {word} as {number}");
        }
    }
}

/// Counts whose distances wrap in 32 bits to those of another shape.
#[test]
fn distances_that_wrap() {
    for (n, m) in [(1u32 << 29, 0u32), (0, 1 << 29), (1 << 29, 1 << 29), ((1 << 29) + 1, 0), (257, 0), (0, 4097)] {
        for bytes_before in [0usize, 8, 16] {
            let tablets_back = 8u32.wrapping_mul(m).wrapping_add(20);
            let back = tablets_back.wrapping_add(8u32.wrapping_mul(n));
            let mut bytes = vec![1; bytes_before];
            bytes.extend([back, n, tablets_back, m, 0].iter().flat_map(|x| x.to_le_bytes()));
            assert_eq!(agree(&bytes, 512, 8192), (10, 0));
        }
    }
}

#[test]
fn counts_past_the_most() {
    let many = Ring { relays: (1..=257).map(|r| (r, 1)).collect(), tablets: Default::default() };
    assert_eq!(agree(&roster(0, &many), 512, 8), (10, 0));
    let most = Ring { relays: (1..=256).map(|r| (r, 1)).collect(), tablets: Default::default() };
    assert_eq!(agree(&roster(0, &most), 512, 8), (0, 0));
    let tablets = |count: u32| Ring { relays: [(9, 4096)].into(), tablets: (1..=count).map(|t| (t, 9)).collect() };
    assert_eq!(agree(&roster(0, &tablets(4096)), 512, 8192), (0, 0));
    assert_eq!(agree(&roster(0, &tablets(4097)), 512, 8192), (10, 0));
}

/// Wrong entries, each a change of one word of the blocks.
#[test]
fn wrong_content() {
    let whole = roster(1, &{
        let mut ring = drill();
        ring.tablets = second::placement(1, &ring.relays, ring.tablets.keys()).unwrap();
        ring
    });
    assert_eq!(agree(&whole, 8, 16), (0, 1));
    for word in 0..14 {
        for number in [0, 1, 20, 4097, u32::MAX] {
            let mut bytes = whole.clone();
            bytes[4 * word..4 * word + 4].copy_from_slice(&u32::to_le_bytes(number));
            agree(&bytes, 8, 16);
        }
    }
    // an entry of zeros, a zero number, a relay that is not there, blocks swapped
    for (word, number) in [(0, 0), (2, 0), (6, 0), (12, 0), (7, 11), (13, 0)] {
        let mut bytes = whole.clone();
        bytes[4 * word..4 * word + 4].copy_from_slice(&u32::to_le_bytes(number));
        assert_eq!(agree(&bytes, 8, 16), (11, 0), "word {word} as {number}");
    }
    let mut bytes = whole.clone();
    bytes[..56].rotate_left(24);
    assert_eq!(agree(&bytes, 8, 16), (11, 0));
}

/// Fitness comes behind shape and scheme, and before content.
#[test]
fn tables_to_fill() {
    let whole = roster(0, &drill());
    for (relays, tablets) in [(6, 8), (8, 16), (512, 8192), (6, 8192), (512, 8)] {
        assert_eq!(agree(&whole, relays, tablets).0, 0);
    }
    for (relays, tablets) in [(4, 8), (6, 6), (7, 8), (6, 9), (514, 8), (6, 8194), (0, 0), (5, 8), (513, 8)] {
        assert_eq!(agree(&whole, relays, tablets).0, 12);
        let mut wrong = whole.clone();
        wrong[0] = 0;
        assert_eq!(agree(&wrong, relays, tablets).0, 12);
        put(&mut wrong, 1, 2);
        assert_eq!(agree(&wrong, relays, tablets).0, 1);
        put(&mut wrong, 2, 5);
        assert_eq!(agree(&wrong, relays, tablets).0, 10);
    }
}

#[test]
fn random_rosters() {
    let shared = shared_positions();
    let mut refused = [0u32; 13];
    for seed in seeds() {
        let mut random = Random(seed);
        for _ in 0..3_000 {
            let scheme = random.below(2) as u32;
            let (r, t) = (random.below(9), random.below(25));
            let pools = Pools::new(&mut random, scheme, r + 1, t + 1, &shared);
            let ring = ring(&mut random, scheme, &pools, r, t, 6);
            let mut bytes = roster(scheme, &ring);
            match random.below(6) {
                0 => put(&mut bytes, 1, random.below(3) as u32),
                1 => {
                    let at = random.below(bytes.len());
                    bytes[at] ^= 1 << random.below(8);
                }
                2 => bytes.truncate(random.below(bytes.len() + 1)),
                3 => bytes.insert(random.below(bytes.len() + 1), 0),
                _ => {}
            }
            let places = |random: &mut Random, used: usize| 2 * used + random.pick(&[0, 0, 2, 6, 1]);
            let (relays, tablets) = (places(&mut random, ring.relays.len()), places(&mut random, ring.tablets.len()));
            refused[agree(&bytes, relays, tablets).0 as usize] += 1;
        }
    }
    println!("by refusal number: {refused:?}");
    assert!([0, 1, 10, 11, 12].iter().all(|&n| refused[n] > 0));
}
