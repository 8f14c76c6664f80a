//! Pilots' tablets on relays round a ring, within the relays' limits, by one rule: limit first, then the lower number.
//!
//! This crate is a safe face for `libwairepomuro.a`, whose every function is proved to meet its promise. A [`Station`] holds the tables that the
//! library works on, of as many places as it is made with; [`raw`] has the calls on slices that the caller lends.
//!
//! ```
//! use wairepomuro::{Move, RelayNumber, Scheme, Station, TabletNumber};
//!
//! let mut station = Station::new(Scheme::DRILL, 256, 4096);
//! station.add(RelayNumber(10), 1).unwrap();
//! station.add(RelayNumber(20), 2).unwrap();
//! station.enrol(TabletNumber(5)).unwrap();
//!
//! // The lower number comes first, so 5 has to move on.
//! let reply = station.enrol(TabletNumber(3)).unwrap();
//! assert_eq!(reply.relay, RelayNumber(10));
//! assert_eq!(reply.moves, [Move { tablet: TabletNumber(5), old: RelayNumber(10), new: RelayNumber(20) }]);
//! ```
#![warn(missing_docs)]

mod refusal;
mod station;

#[allow(missing_docs)]
pub mod raw;

pub use refusal::Refusal;
pub use station::{Move, Reply, Station, Tally};

/// The limit that every relay has with balance p/q: p × tablets / (q × relays), rounded up, or 4,096 where that is more.
pub fn balanced_limit(p: u32, q: u32, tablets: u32, relays: u32) -> Result<u32, Refusal> {
    let (refusal, limit) = raw::balance(p, q, tablets, relays);
    Refusal::from_number(refusal).map_or(Ok(limit), Err)
}

/// The number of a tablet, at least 1.
#[derive(Clone, Copy, Debug, PartialEq, Eq, PartialOrd, Ord, Hash)]
pub struct TabletNumber(pub u32);

/// The number of a relay, at least 1. Tablet 10 and relay 10 may both exist.
#[derive(Clone, Copy, Debug, PartialEq, Eq, PartialOrd, Ord, Hash)]
pub struct RelayNumber(pub u32);

/// How numbers become positions on the ring.
#[derive(Clone, Copy, Debug, PartialEq, Eq, Hash)]
pub struct Scheme(pub u32);

impl Scheme {
    /// Scheme 0: the position is the number itself. For drills.
    pub const DRILL: Scheme = Scheme(0);
    /// Scheme 1: the position is FNV-1a of a tag and the number.
    pub const HASHED: Scheme = Scheme(1);
}
