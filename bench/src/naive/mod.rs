//! The rule as it is told: every tablet asks every relay, and every call fills afresh.
mod roster;
mod sheet;

use crate::engine::{reply, Call, Memory, Numbers, Outcome, MOST_RELAYS, MOST_TABLETS, TOP_LIMIT};
use crate::positions;

#[derive(Clone, Copy, PartialEq)]
struct Entry {
    number: u32,
    beside: u32,
}

/// A lent table's entries, where it has the shape of a table.
fn entries(numbers: &[u32], places: usize) -> Option<Vec<Entry>> {
    if !numbers.len().is_multiple_of(2) || numbers.len() / 2 > places {
        return None;
    }
    let mut all: Vec<Entry> = numbers.chunks(2).map(|e| Entry { number: e[0], beside: e[1] }).collect();
    let used = all.iter().take_while(|e| e.number != 0).count();
    let rising = all[..used].windows(2).all(|w| w[0].number < w[1].number);
    let blank = all[used..].iter().all(|e| e.number == 0 && e.beside == 0);
    all.truncate(used);
    (rising && blank).then_some(all)
}

fn write(table: &mut [u32], entries: &[Entry]) {
    table.fill(0);
    for (place, e) in table.chunks_mut(2).zip(entries) {
        place.copy_from_slice(&[e.number, e.beside]);
    }
}

/// How far each relay is from the tablet, clockwise.
fn distances<'a>(scheme: u32, places: &'a [u32], tablet: u32) -> impl Iterator<Item = u32> + 'a {
    let at = positions::tablet(scheme, tablet);
    places.iter().map(move |p| p.wrapping_sub(at))
}

fn places(scheme: u32, relays: &[Entry]) -> Vec<u32> {
    relays.iter().map(|r| positions::relay(scheme, r.number)).collect()
}

/// The first relay with room in the tablet's clockwise order, by its place in the table. Of equal distances the first is the least number.
fn first_with_room(scheme: u32, places: &[u32], room: &[u32], tablet: u32) -> Option<usize> {
    let open = distances(scheme, places, tablet).zip(room).enumerate().filter(|(_, (_, &room))| room > 0);
    open.min_by_key(|(_, (distance, _))| *distance).map(|(i, _)| i)
}

/// The rule: the tablets with their relays, and the room that is left.
fn placement(scheme: u32, relays: &[Entry], tablets: &[Entry]) -> Option<(Vec<Entry>, Vec<u32>)> {
    let places = places(scheme, relays);
    let mut room: Vec<u32> = relays.iter().map(|r| r.beside).collect();
    let mut placed = Vec::with_capacity(tablets.len());
    for t in tablets {
        let i = first_with_room(scheme, &places, &room, t.number)?;
        room[i] -= 1;
        placed.push(Entry { number: t.number, beside: relays[i].number });
    }
    Some((placed, room))
}

/// Rising tablets on relays of one limit, as lent tables have them. The limits must suffice.
pub fn tables(scheme: u32, relays: &[u32], limit: u32, tablets: &[u32]) -> [Vec<u32>; 2] {
    let relays: Vec<Entry> = relays.iter().map(|&number| Entry { number, beside: limit }).collect();
    let tablets: Vec<Entry> = tablets.iter().map(|&number| Entry { number, beside: 0 }).collect();
    let (placed, _) = placement(scheme, &relays, &tablets).expect("the limits suffice");
    [relays, placed].map(|entries| entries.iter().flat_map(|e| [e.number, e.beside]).collect())
}

/// How many relays come before place i of the relay table in the tablet's clockwise order.
fn ahead(scheme: u32, relays: &[Entry], tablet: u32, i: usize) -> u32 {
    let key: Vec<(u32, usize)> = distances(scheme, &places(scheme, relays), tablet).zip(0..).collect();
    key.iter().filter(|k| **k < key[i]).count() as u32
}

/// Tables and the room that they leave, where they are right.
struct Right {
    relays: Vec<Entry>,
    tablets: Vec<Entry>,
    room: Vec<u32>,
}

fn right(scheme: u32, relays: &[u32], tablets: &[u32]) -> Option<Right> {
    let (relays, tablets) = (entries(relays, MOST_RELAYS)?, entries(tablets, MOST_TABLETS)?);
    if relays.iter().any(|r| r.beside > TOP_LIMIT) {
        return None;
    }
    let (placed, room) = placement(scheme, &relays, &tablets)?;
    (placed == tablets).then_some(Right { relays, tablets, room })
}

/// The refusals 3 to 7 of a call whose number is at place `at` of the table, or belongs there.
fn barred(number: u32, limit: u32, at: Result<usize, usize>, puts_in: bool, full: bool) -> Result<usize, u32> {
    match at {
        _ if number == 0 => Err(3),
        _ if limit > TOP_LIMIT => Err(4),
        Err(_) if !puts_in => Err(5),
        Ok(_) if puts_in => Err(6),
        Err(_) if full => Err(7),
        Ok(at) | Err(at) => Ok(at),
    }
}

fn place(entries: &[Entry], number: u32) -> Result<usize, usize> {
    entries.binary_search_by_key(&number, |e| e.number)
}

/// The relay beside the tablet at a place, and how many relays the tablet passed.
fn seat(scheme: u32, ring: &Right, at: usize) -> (u32, u32) {
    let Entry { number, beside } = ring.tablets[at];
    let i = place(&ring.relays, beside).expect("a tablet's relay is there");
    (beside, ahead(scheme, &ring.relays, number, i))
}

/// The call's own entry put in, taken out or changed; the answer is the reply's relay (0 for a newcomer, which has none yet) and number passed.
/// A call without an entry of its own changes nothing.
fn edit(scheme: u32, lent: &Memory, ring: &mut Right, call: Call) -> Result<(u32, u32), u32> {
    let full = |table: &[u32], entries: &[Entry]| table.len() / 2 == entries.len();
    match call {
        Call::Check | Call::Read | Call::Sheet | Call::Stretch(_) => Ok((0, 0)),
        Call::Find(t) => Ok(seat(scheme, ring, barred(t, 0, place(&ring.tablets, t), false, false)?)),
        Call::Enrol(t) => {
            let at = barred(t, 0, place(&ring.tablets, t), true, full(&lent.tablets, &ring.tablets))?;
            let open = first_with_room(scheme, &places(scheme, &ring.relays), &ring.room, t).ok_or(8u32)?;
            ring.tablets.insert(at, Entry { number: t, beside: 0 });
            Ok((0, ahead(scheme, &ring.relays, t, open)))
        }
        Call::Withdraw(t) => {
            let at = barred(t, 0, place(&ring.tablets, t), false, false)?;
            let seat = seat(scheme, ring, at);
            ring.tablets.remove(at);
            Ok(seat)
        }
        Call::Add(r, limit) => {
            let at = barred(r, limit, place(&ring.relays, r), true, full(&lent.relays, &ring.relays))?;
            ring.relays.insert(at, Entry { number: r, beside: limit });
            Ok((r, 0))
        }
        Call::Remove(r) => {
            let at = barred(r, 0, place(&ring.relays, r), false, false)?;
            ring.relays.remove(at);
            Ok((r, 0))
        }
        Call::Set(r, limit) => {
            let at = barred(r, limit, place(&ring.relays, r), false, false)?;
            ring.relays[at].beside = limit;
            Ok((r, 0))
        }
    }
}

fn relay_of(tablets: &[Entry], t: u32) -> Option<u32> {
    place(tablets, t).ok().map(|at| tablets[at].beside)
}

/// Fills the ring afresh and writes it, with the moves that this makes. Answers with how many they are.
fn refill(scheme: u32, lent: &mut Memory, before: &[Entry], ring: &mut Right) -> Result<u32, u32> {
    (ring.tablets, ring.room) = placement(scheme, &ring.relays, &ring.tablets).ok_or(8u32)?;
    let new = |old: &Entry| relay_of(&ring.tablets, old.number).filter(|&new| new != old.beside);
    let moves: Vec<[u32; 3]> = before.iter().filter_map(|old| new(old).map(|new| [old.number, old.beside, new])).collect();
    if moves.len() > lent.moves.len() / 3 {
        return Err(9);
    }
    lent.moves.chunks_exact_mut(3).zip(&moves).for_each(|(place, m)| place.copy_from_slice(m));
    write(&mut lent.relays, &ring.relays);
    write(&mut lent.tablets, &ring.tablets);
    Ok(moves.len() as u32)
}

fn outcome(scheme: u32, lent: &mut Memory, call: Call) -> Outcome {
    if call == Call::Read {
        return roster::read(lent);
    }
    if !positions::known(scheme) {
        return Err(1);
    }
    let mut ring = right(scheme, &lent.relays, &lent.tablets).ok_or(2u32)?;
    let before = ring.tablets.clone();
    let (relay, passed) = edit(scheme, lent, &mut ring, call)?;
    match call {
        Call::Check | Call::Find(_) => return Ok([relay, passed, 0]),
        Call::Sheet => return sheet::write(&ring, &mut lent.sheet),
        Call::Stretch(r) => return Ok(sheet::stretch(&ring, &lent.sheet, r)),
        _ => {}
    }
    let moves = refill(scheme, lent, &before, &mut ring)?;
    let newcomer = if let Call::Enrol(t) = call { relay_of(&ring.tablets, t) } else { None };
    Ok([newcomer.unwrap_or(relay), passed, moves])
}

pub fn call(scheme: u32, lent: &mut Memory, call: Call) -> Numbers {
    let outcome = outcome(scheme, lent, call);
    reply(&mut lent.tally, call, outcome)
}
