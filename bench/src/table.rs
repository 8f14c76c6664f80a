//! Numbers as the page and the plot show them, and the page's tables.
use crate::cases::{LIMITS, SCHEMES, SIZES};
use std::fmt::Write;

/// With a comma to every three digits.
pub fn grouped(n: u64) -> String {
    if n < 1000 {
        n.to_string()
    } else {
        format!("{},{:03}", grouped(n / 1000), n % 1000)
    }
}

pub fn thousands(n: u64) -> String {
    grouped((n + 500) / 1000)
}

/// To three digits or so.
pub fn ratio(x: f64) -> String {
    let digits = match x {
        _ if x < 9.995 => 2,
        _ if x < 99.95 => 1,
        _ => 0,
    };
    format!("{x:.digits$}")
}

/// A ring by its size.
fn ring((relays, tablets): (usize, usize)) -> String {
    format!("{relays} × {}", grouped(tablets as u64))
}

/// A column to each limit. The first says what stands in all of them.
pub fn by_limit(what: &str) -> Vec<String> {
    let mut columns = LIMITS.map(|limit| grouped(limit as u64));
    columns[0] = format!("{what}: {}", columns[0]);
    columns.to_vec()
}

/// A column to each limit of each ring, the largest first.
pub fn by_ring() -> Vec<String> {
    SIZES.into_iter().rev().flat_map(|size| by_limit(&ring(size))).collect()
}

/// A table with a row for each of these things in each scheme. The first column says what they are.
pub fn table<T: Copy>(what: &str, things: &[T], name: fn(T) -> &'static str, columns: &[String], cells: impl Fn(T, u32) -> Vec<String>) -> String {
    let mut table = format!("| {what} | scheme | {} |\n|---|---|{}\n", columns.join(" | "), "--:|".repeat(columns.len()));
    for &thing in things {
        for scheme in SCHEMES {
            let _ = writeln!(table, "| {} | {scheme} | {} |", name(thing), cells(thing, scheme).join(" | "));
        }
    }
    table
}
