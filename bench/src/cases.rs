//! What is measured: rings of three sizes, in both schemes, with four limits, and a call of each kind on each of them.
use crate::engine::{Call, Memory};
use crate::random::Random;
use crate::{naive, roster};

/// Relays and tablets.
pub const SIZES: [(usize, usize); 3] = [(16, 256), (64, 1024), (256, 4096)];
pub const SCHEMES: [u32; 2] = [0, 1];
pub const LIMITS: [u32; 4] = [16, 17, 20, 4096];

#[derive(Clone, Copy, Debug, PartialEq, Eq)]
pub enum Kind {
    Check,
    Find,
    Enrol,
    Withdraw,
    Add,
    Remove,
    Set,
    Read,
    Sheet,
    Stretch,
}

pub const KINDS: [Kind; 10] = [
    Kind::Check,
    Kind::Find,
    Kind::Enrol,
    Kind::Withdraw,
    Kind::Add,
    Kind::Remove,
    Kind::Set,
    Kind::Read,
    Kind::Sheet,
    Kind::Stretch,
];

impl Kind {
    pub fn name(self) -> &'static str {
        match self {
            Kind::Check => "check",
            Kind::Find => "find",
            Kind::Enrol => "enrol",
            Kind::Withdraw => "withdraw",
            Kind::Add => "add",
            Kind::Remove => "remove",
            Kind::Set => "set",
            Kind::Read => "read",
            Kind::Sheet => "sheet",
            Kind::Stretch => "stretch",
        }
    }
}

#[derive(Clone, Copy, Debug, PartialEq, Eq)]
pub struct Case {
    pub size: usize,
    pub scheme: u32,
    pub limit: u32,
    pub kind: Kind,
}

/// Every case, in the order in which they are measured.
pub fn all() -> Vec<Case> {
    let mut cases = Vec::new();
    for size in 0..SIZES.len() {
        for scheme in SCHEMES {
            for limit in LIMITS {
                cases.extend(KINDS.map(|kind| Case { size, scheme, limit, kind }));
            }
        }
    }
    cases
}

impl Case {
    /// How many tablets stand in the table when a relay is missing or about to be: as many as the others take.
    fn tablets_without_one(self) -> usize {
        let (relays, tablets) = SIZES[self.size];
        tablets.min((relays - 1) * self.limit as usize)
    }

    fn call(self, relay: u32, tablet: u32) -> Call {
        match self.kind {
            Kind::Check => Call::Check,
            Kind::Find => Call::Find(tablet),
            Kind::Enrol => Call::Enrol(tablet),
            Kind::Withdraw => Call::Withdraw(tablet),
            Kind::Add => Call::Add(relay, self.limit),
            Kind::Remove => Call::Remove(relay),
            Kind::Set => Call::Set(relay, if self.limit == 16 { 17 } else { 8 }),
            Kind::Read => Call::Read,
            Kind::Sheet => Call::Sheet,
            Kind::Stretch => Call::Stretch(relay),
        }
    }

    /// The memory that is lent, and the call: always about the number in the middle of the table. `bench/src/head.md` tells it in words.
    pub fn lend(self) -> (Memory, Call) {
        let (relay_places, tablet_places) = SIZES[self.size];
        let mut random = Random(2026);
        let mut relays = random.rising(relay_places, u32::MAX);
        let mut tablets = random.rising(tablet_places, u32::MAX);
        let (relay, tablet) = (relays[relay_places / 2], tablets[tablet_places / 2]);
        match self.kind {
            Kind::Enrol => tablets.retain(|&t| t != tablet),
            Kind::Add => relays.retain(|&r| r != relay),
            _ => {}
        }
        if let Kind::Add | Kind::Remove = self.kind {
            tablets.truncate(self.tablets_without_one());
        }
        let [mut relays, mut tablets] = naive::tables(self.scheme, &relays, self.limit, &tablets);
        relays.resize(2 * relay_places, 0);
        tablets.resize(2 * tablet_places, 0);
        let memory = Memory { relays, tablets, moves: vec![0; 3 * tablet_places], tally: vec![0; 4], ..Memory::default() };
        (self.with_roster_or_sheet(memory), self.call(relay, tablet))
    }

    /// A roster, with tables of zeros to read it into, or a sheet, where the call is about one.
    fn with_roster_or_sheet(self, mut memory: Memory) -> Memory {
        match self.kind {
            Kind::Read => {
                memory.roster = roster::write(self.scheme, &memory.relays, &memory.tablets);
                memory.relays.fill(0);
                memory.tablets.fill(0);
            }
            Kind::Sheet | Kind::Stretch => memory.sheet = vec![0; memory.tablets.len() / 2],
            _ => {}
        }
        if self.kind == Kind::Stretch {
            naive::call(self.scheme, &mut memory, Call::Sheet);
        }
        memory
    }
}
