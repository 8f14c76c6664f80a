use crate::{raw, Refusal, RelayNumber, Scheme, TabletNumber};

/// A tablet that has to load its approach set from another relay.
#[derive(Clone, Copy, Debug, PartialEq, Eq, Hash)]
pub struct Move {
    /// Who moves.
    pub tablet: TabletNumber,
    /// From here.
    pub old: RelayNumber,
    /// To here.
    pub new: RelayNumber,
}

/// What an accepted call replies.
#[derive(Clone, Debug, PartialEq, Eq)]
pub struct Reply {
    /// The relay added, removed or set; or the tablet's. Of a tablet that was withdrawn, the one it had.
    pub relay: RelayNumber,
    /// How many relays the tablet passed; 0 for a call on a relay.
    pub passed: u32,
    /// Every other tablet whose relay changed, by rising number.
    pub moves: Vec<Move>,
}

/// What a station counts. Each count stops at 4294967295.
#[derive(Clone, Copy, Debug, Default, PartialEq, Eq)]
pub struct Tally {
    /// Accepted enrolments.
    pub enrolments: u32,
    /// Accepted withdrawals.
    pub withdrawals: u32,
    /// Moves of accepted calls.
    pub moves: u32,
    /// Refused calls.
    pub refusals: u32,
}

/// Tables of one ring, with a move list that is always long enough, and a tally.
#[derive(Clone, Debug)]
pub struct Station {
    scheme: Scheme,
    relays: Vec<u32>,
    tablets: Vec<u32>,
    moves: Vec<u32>,
    tally: [u32; 4],
}

impl Station {
    /// Empty tables of so many places: at most 256 for relays and 4,096 for tablets, else every call gives [`Refusal::TablesNotRight`].
    pub fn new(scheme: Scheme, relay_places: usize, tablet_places: usize) -> Station {
        Station {
            scheme,
            relays: vec![0; 2 * relay_places],
            tablets: vec![0; 2 * tablet_places],
            moves: vec![0; 3 * tablet_places],
            tally: [0; 4],
        }
    }

    /// The tables of a roster, of so many places. The roster names its own scheme.
    pub fn from_roster(bytes: &[u8], relay_places: usize, tablet_places: usize) -> Result<Station, Refusal> {
        let mut station = Station::new(Scheme::DRILL, relay_places, tablet_places);
        let (refusal, scheme) = raw::read(bytes, &mut station.relays, &mut station.tablets);
        station.scheme = Scheme(scheme);
        Refusal::from_number(refusal).map_or(Ok(station), Err)
    }

    fn lent(&mut self) -> raw::Lent<'_> {
        raw::Lent { relays: &mut self.relays, tablets: &mut self.tablets, moves: &mut self.moves, tally: &mut self.tally }
    }

    fn replied(&self, reply: raw::Numbers) -> Result<Reply, Refusal> {
        let [refusal, relay, passed, moves] = reply;
        match Refusal::from_number(refusal) {
            Some(refusal) => Err(refusal),
            None => Ok(Reply { relay: RelayNumber(relay), passed, moves: self.moves[..3 * moves as usize].chunks_exact(3).map(a_move).collect() }),
        }
    }

    /// Puts in a relay with this limit.
    pub fn add(&mut self, relay: RelayNumber, limit: u32) -> Result<Reply, Refusal> {
        let reply = raw::add(self.scheme.0, &mut self.lent(), relay.0, limit);
        self.replied(reply)
    }

    /// Takes out a relay.
    pub fn remove(&mut self, relay: RelayNumber) -> Result<Reply, Refusal> {
        let reply = raw::remove(self.scheme.0, &mut self.lent(), relay.0);
        self.replied(reply)
    }

    /// Changes a relay's limit.
    pub fn set(&mut self, relay: RelayNumber, limit: u32) -> Result<Reply, Refusal> {
        let reply = raw::set(self.scheme.0, &mut self.lent(), relay.0, limit);
        self.replied(reply)
    }

    /// Puts in a tablet.
    pub fn enrol(&mut self, tablet: TabletNumber) -> Result<Reply, Refusal> {
        let reply = raw::enrol(self.scheme.0, &mut self.lent(), tablet.0);
        self.replied(reply)
    }

    /// Takes out a tablet.
    pub fn withdraw(&mut self, tablet: TabletNumber) -> Result<Reply, Refusal> {
        let reply = raw::withdraw(self.scheme.0, &mut self.lent(), tablet.0);
        self.replied(reply)
    }

    /// Finds a tablet. It changes nothing but, where it is refused, the tally.
    pub fn find(&mut self, tablet: TabletNumber) -> Result<Reply, Refusal> {
        let reply = raw::find(self.scheme.0, &self.relays, &self.tablets, &mut self.tally, tablet.0);
        self.replied(reply)
    }

    /// The relays with their limits, by rising number.
    pub fn relays(&self) -> impl Iterator<Item = (RelayNumber, u32)> + '_ {
        self.relays.chunks_exact(2).take_while(|e| e[0] != 0).map(|e| (RelayNumber(e[0]), e[1]))
    }

    /// The tablets with their relays, by rising number.
    pub fn tablets(&self) -> impl Iterator<Item = (TabletNumber, RelayNumber)> + '_ {
        self.tablets.chunks_exact(2).take_while(|e| e[0] != 0).map(|e| (TabletNumber(e[0]), RelayNumber(e[1])))
    }

    /// The tablets of one relay, by rising number; none where the relay is not there.
    pub fn tablets_of(&self, relay: RelayNumber) -> Vec<TabletNumber> {
        let mut sheet = vec![0; self.tablets().count()];
        raw::sheet(self.scheme.0, &self.relays, &self.tablets, &mut sheet);
        raw::stretch(self.scheme.0, &self.relays, &self.tablets, &sheet, relay.0).iter().map(|&t| TabletNumber(t)).collect()
    }

    /// How numbers become positions here.
    pub fn scheme(&self) -> Scheme {
        self.scheme
    }

    /// What was counted so far.
    pub fn tally(&self) -> Tally {
        let [enrolments, withdrawals, moves, refusals] = self.tally;
        Tally { enrolments, withdrawals, moves, refusals }
    }
}

fn a_move(numbers: &[u32]) -> Move {
    Move { tablet: TabletNumber(numbers[0]), old: RelayNumber(numbers[1]), new: RelayNumber(numbers[2]) }
}
