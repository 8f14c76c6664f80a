//! The calls about a tablet.
use super::survey::Survey;
use super::{places, places_mut, put_in, spot, take_out};
use crate::engine::{Memory, Outcome, MOST_RELAYS};
use crate::positions;

/// The place of a tablet that must be there.
fn place(entries: &[[u32; 2]], t: u32) -> Result<usize, u32> {
    if t == 0 {
        return Err(3);
    }
    spot(entries, t).map_err(|_| 5)
}

pub fn find(survey: &Survey, tablets: &[u32], t: u32) -> Outcome {
    let entries = &places(tablets)[..survey.m];
    let at = place(entries, t)?;
    Ok([entries[at][1], survey.ring.steps(survey.home[at], survey.slot[at]), 0])
}

/// Those who sit down one after the other: each one's place in the table and slot.
struct Chain {
    count: usize,
    place: [u16; MOST_RELAYS],
    slot: [u8; MOST_RELAYS],
}

impl Chain {
    fn blank() -> Chain {
        Chain { count: 0, place: [0; MOST_RELAYS], slot: [0; MOST_RELAYS] }
    }

    fn add(&mut self, place: usize, slot: u8) {
        self.place[self.count] = place as u16;
        self.slot[self.count] = slot;
        self.count += 1;
    }

    /// Everybody gets the relay of their slot and is listed.
    fn sit_down(&self, survey: &Survey, tablets: &mut [[u32; 2]], moves: &mut [u32]) {
        let seats = self.place.iter().zip(&self.slot).take(self.count);
        for (listed, (&j, &slot)) in moves.as_chunks_mut().0.iter_mut().zip(seats) {
            let [number, relay] = &mut tablets[j as usize];
            let new = survey.ring.number(slot);
            *listed = [*number, *relay, new];
            *relay = new;
        }
    }
}

/// The newcomer's turn from its home to the first slot with room: whoever gives way walks on. Answers with its slot and the steps.
fn turn(survey: &Survey, tablets: &[[u32; 2]], home: u8, t: u32, others: &mut Chain) -> (u8, u32) {
    let stop = survey.row.next[home as usize];
    let (mut walker, mut walker_place, mut first) = (t, None, stop);
    let mut sits = |place: Option<usize>, slot: u8| match place {
        None => first = slot,
        Some(j) => others.add(j, slot),
    };
    let mut k = if home as usize == survey.ring.n { 0 } else { home };
    let mut steps = 0;
    while k != stop {
        // A full relay without tablets has limit 0, and nobody gives way there.
        if let Some(greatest) = (survey.last[k as usize] as usize).checked_sub(1) {
            if walker < tablets[greatest][0] {
                sits(walker_place, k);
                (walker, walker_place) = (tablets[greatest][0], Some(greatest));
            }
        }
        k = if k as usize + 1 == survey.ring.n { 0 } else { k + 1 };
        steps += 1;
    }
    sits(walker_place, stop);
    (first, steps)
}

pub fn enrol(scheme: u32, survey: &Survey, lent: &mut Memory, t: u32) -> Outcome {
    let (tablets, m) = (places_mut(&mut lent.tablets), survey.m);
    if t == 0 {
        return Err(3);
    }
    let Err(at) = spot(&tablets[..m], t) else { return Err(6) };
    if m == tablets.len() {
        return Err(7);
    }
    let home = survey.ring.home(positions::tablet(scheme, t));
    if survey.row.room[survey.row.next[home as usize] as usize] == 0 {
        return Err(8);
    }
    let mut others = Chain::blank();
    let (slot, steps) = turn(survey, tablets, home, t, &mut others);
    if others.count > lent.moves.len() / 3 {
        return Err(9);
    }
    others.sit_down(survey, tablets, &mut lent.moves);
    let relay = survey.ring.number(slot);
    put_in(&mut tablets[..=m], at, [t, relay]);
    Ok([relay, steps, others.count as u32])
}

/// Who fills the hole that the tablet at a place leaves: the next tablet that had passed its slot, where that is full.
fn next_mover(survey: &Survey, at: usize) -> Option<usize> {
    let hole = survey.slot[at];
    if survey.row.room[hole as usize] > 0 {
        return None;
    }
    let seats = survey.home[..survey.m].iter().zip(&survey.slot).skip(at + 1);
    let had_passed = |(&h, &k): (&u8, &u8)| hole.wrapping_sub(h) < k.wrapping_sub(h);
    seats.map(had_passed).position(|p| p).map(|d| at + 1 + d)
}

pub fn withdraw(survey: &Survey, lent: &mut Memory, t: u32) -> Outcome {
    let tablets = &mut places_mut(&mut lent.tablets)[..survey.m];
    let at = place(tablets, t)?;
    let (relay, passed) = (tablets[at][1], survey.ring.steps(survey.home[at], survey.slot[at]));
    let mut others = Chain::blank();
    let mut hole = at;
    while let Some(j) = next_mover(survey, hole) {
        others.add(j, survey.slot[hole]);
        hole = j;
    }
    if others.count > lent.moves.len() / 3 {
        return Err(9);
    }
    others.sit_down(survey, tablets, &mut lent.moves);
    take_out(tablets, at);
    Ok([relay, passed, others.count as u32])
}
