//! The program `watch` beside the second program: the examples, and random input of calls and of lines that are none.
mod rings;
mod second;

use rings::{blank, seeds, shared_positions, some_call, Pools, Random};
use second::{Call, Memory};
use std::{
    io::Write,
    path::PathBuf,
    process::{Command, Stdio},
};

fn house() -> PathBuf {
    PathBuf::from(env!("CARGO_MANIFEST_DIR")).join("../..")
}

/// What `watch` writes, and that it says nothing else.
fn watch(input: &[u8]) -> Vec<u8> {
    let program = house().join("target/bin/watch");
    assert!(program.exists(), "no {}: run `make programs` first", program.display());
    let mut run = Command::new(program).stdin(Stdio::piped()).stdout(Stdio::piped()).stderr(Stdio::piped()).spawn().unwrap();
    let mut stdin = run.stdin.take().unwrap();
    let input = input.to_vec();
    // The run may end before all is written, and the pipe with it.
    let writer = std::thread::spawn(move || _ = stdin.write_all(&input));
    let out = run.wait_with_output().unwrap();
    writer.join().unwrap();
    assert!(out.status.success() && out.stderr.is_empty(), "{out:?}");
    out.stdout
}

// ---- the same from document 01, by the second program

/// A plain decimal is how a number is written, and nothing else.
fn decimal(word: &str) -> Option<u32> {
    let n: u32 = word.parse().ok()?;
    (n.to_string() == word).then_some(n)
}

fn call(line: &[u8]) -> Option<Call> {
    let words: Vec<&str> = std::str::from_utf8(line).ok()?.split(' ').collect();
    let number = |i: usize| decimal(words[i]);
    match (words[0], words.len()) {
        ("a", 3) => Some(Call::Add(number(1)?, number(2)?)),
        ("r", 2) => Some(Call::Remove(number(1)?)),
        ("s", 3) => Some(Call::Set(number(1)?, number(2)?)),
        ("e", 2) => Some(Call::Enrol(number(1)?)),
        ("w", 2) => Some(Call::Withdraw(number(1)?)),
        ("f", 2) => Some(Call::Find(number(1)?)),
        _ => None,
    }
}

fn reply(scheme: u32, memory: &mut Memory, line: &[u8]) -> String {
    let Some(call) = call(line) else { return "?\n".into() };
    let [refusal, relay, passed, moves] = second::call(scheme, memory, call);
    let listed = memory.moves.chunks(3).take(moves as usize).map(|m| format!("m {} {} {}\n", m[0], m[1], m[2]));
    format!("{refusal} {relay} {passed} {moves}\n") + &listed.collect::<String>()
}

fn expected(input: &[u8]) -> String {
    let mut lines = input.strip_suffix(b"\n").unwrap_or(input).split(|&b| b == b'\n');
    let scheme = match lines.next() {
        _ if input.is_empty() => return String::new(),
        Some(b"scheme 0") => 0,
        Some(b"scheme 1") => 1,
        _ => return "?\n".into(),
    };
    let mut memory = blank(256, 4_096, 3 * 4_096);
    let answers = lines.map(|line| reply(scheme, &mut memory, line));
    format!("scheme {scheme}\n") + &answers.collect::<String>()
}

fn agree(input: &[u8]) -> String {
    let expected = expected(input);
    let shown = String::from_utf8_lossy(input);
    assert!(watch(input) == expected.as_bytes(), "on\n{}\n", shown.chars().take(3_000).collect::<String>());
    expected
}

// ---- input

#[test]
fn the_examples() {
    for name in ["drill", "mixed"] {
        let file = |end: &str| std::fs::read(house().join(format!("examples/{name}.{end}"))).unwrap();
        assert!(expected(&file("txt")).as_bytes() == file("out"), "examples/{name}.out");
        agree(&file("txt"));
    }
}

fn written(call: Call) -> String {
    match call {
        Call::Add(r, limit) => format!("a {r} {limit}"),
        Call::Remove(r) => format!("r {r}"),
        Call::Set(r, limit) => format!("s {r} {limit}"),
        Call::Enrol(t) => format!("e {t}"),
        Call::Withdraw(t) => format!("w {t}"),
        Call::Find(t) => format!("f {t}"),
    }
}

/// One thing wrong in a line, or several: a byte put in, taken out, doubled or changed.
fn damage(random: &mut Random, line: &mut Vec<u8>) {
    for _ in 0..1 + random.below(2) {
        let at = random.below(line.len() + 1);
        let byte = random.pick(&[b' ', b'0', b'9', b'a', b'e', b'-', b'\t', b'\r', 0, 255]);
        match random.below(4) {
            0 => line.insert(at, byte),
            1 if at < line.len() => _ = line.remove(at),
            2 if at < line.len() => line.insert(at, line[at]),
            3 if at < line.len() => line[at] = byte,
            _ => {}
        }
    }
}

/// Some line, which is mostly a call.
fn some_line(random: &mut Random, pools: &Pools, greatest: u32) -> Vec<u8> {
    let mut line = written(some_call(random, pools, greatest)).into_bytes();
    match random.below(40) {
        0..=3 => damage(random, &mut line),
        4 => line = (0..random.below(60)).map(|_| random.draw() as u8).filter(|&b| b != b'\n').collect(),
        5 => line.extend(std::iter::repeat(b'7').take(random.below(40))),
        6 if random.one_in(20) => line = vec![b'5'; 70_000],
        _ => {}
    }
    line
}

#[test]
fn random_input() {
    let shared = shared_positions();
    let (mut calls, mut others) = (0, 0);
    for seed in seeds() {
        let mut random = Random(seed);
        for _ in 0..60 {
            let scheme = random.below(2) as u32;
            let (r, t) = (1 + random.below(14), 1 + random.below(60));
            let pools = Pools::new(&mut random, scheme, r, t, &shared);
            let greatest = random.pick(&[1, 2, 3, 8, 30]);
            let mut input = format!("scheme {scheme}\n").into_bytes();
            for _ in 0..random.below(150) {
                input.extend(some_line(&mut random, &pools, greatest));
                input.push(b'\n');
            }
            if random.one_in(3) {
                input.pop();
            }
            let answers = agree(&input);
            others += answers.lines().filter(|&l| l == "?").count();
            calls += answers.lines().filter(|l| !l.starts_with(['?', 'm', 's'])).count();
        }
    }
    println!("{calls} calls, {others} lines that are none");
    assert!(calls > 5_000 && others > 200);
}

#[test]
fn first_lines() {
    for first in ["", "\n", "scheme 0", "scheme 1\n", "scheme 3\n", "scheme\n", "scheme \n", "scheme 00\n", "scheme  0\n", "scheme 0 \n"] {
        agree(first.as_bytes());
        agree(format!("{first}\na 10 1\nscheme 0\ne 5").as_bytes());
    }
    let mut random = Random(7);
    for _ in 0..200 {
        let mut first = b"scheme 1".to_vec();
        damage(&mut random, &mut first);
        first.extend(b"\na 10 1\ne 5\n");
        agree(&first);
    }
}

/// Every place of both tables filled one call at a time, and one call past each end. (The second program places all tablets afresh at each call,
/// which takes some seconds, so it runs under one scheme.)
#[test]
fn full_tables() {
    for scheme in [0, 1] {
        let relays = (1..=257u32).map(|i| format!("a {} 16\n", i * 16_000_000));
        let tablets = (1..=4_097u32).map(|i| format!("e {}\n", i.wrapping_mul(2_654_435_769)));
        let input = format!("scheme {scheme}\n") + &relays.chain(tablets).collect::<String>();
        let start = std::time::Instant::now();
        let out = watch(input.as_bytes());
        println!("scheme {scheme}: {} ms", start.elapsed().as_millis());
        let refused: Vec<&[u8]> = out.split(|&b| b == b'\n').filter(|l| l.starts_with(b"7 ")).collect();
        assert_eq!(refused, [b"7 0 0 0", b"7 0 0 0"]);
        assert!(scheme == 0 || out == expected(input.as_bytes()).as_bytes(), "scheme {scheme}");
    }
}
