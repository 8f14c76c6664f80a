//! The calls about a relay: the ring order and the homes with one relay more or less, then every tablet placed afresh from its home.
use super::ring::{relay_key, PAST_ALL};
use super::survey::Survey;
use super::{places, places_mut, put_in, spot, take_out};
use crate::engine::{Memory, Outcome, TOP_LIMIT};
use crate::positions;

/// The place of relay r among the relays in use, or where it belongs; 3 and 4 come before what follows from that.
fn place(survey: &Survey, lent: &Memory, r: u32, limit: u32) -> Result<Result<usize, usize>, u32> {
    match () {
        _ if r == 0 => Err(3),
        _ if limit > TOP_LIMIT => Err(4),
        _ => Ok(spot(&places(&lent.relays)[..survey.ring.n], r)),
    }
}

/// One relay more, at slot s. A tablet whose home was there keeps it where it does not stand past the newcomer.
fn put_in_slot(scheme: u32, survey: &mut Survey, tablets: &[[u32; 2]], s: usize, key: u64, limit: u32) {
    let ring = &mut survey.ring;
    ring.keys.copy_within(s..ring.n, s + 1);
    ring.limits.copy_within(s..ring.n, s + 1);
    (ring.keys[s], ring.limits[s]) = (key, limit as u16);
    ring.n += 1;
    let q = (key >> 32) as u32;
    for (home, t) in survey.home.iter_mut().zip(&tablets[..survey.m]) {
        let h = *home as usize;
        if h > s || h == s && positions::tablet(scheme, t[0]) > q {
            *home = home.wrapping_add(1);
        }
    }
}

/// One relay less, at slot s.
fn take_out_slot(survey: &mut Survey, s: usize) {
    let ring = &mut survey.ring;
    ring.keys.copy_within(s + 1..ring.n, s);
    ring.limits.copy_within(s + 1..ring.n, s);
    ring.n -= 1;
    (ring.keys[ring.n], ring.limits[ring.n]) = (PAST_ALL, 0);
    survey.home[..survey.m].iter_mut().for_each(|h| *h -= (*h as usize > s) as u8);
}

/// Places every tablet afresh from its home. Answers with how many move.
fn refill(survey: &mut Survey, tablets: &mut [u32], moves: &mut [u32]) -> Result<u32, u32> {
    let Survey { ring, row, home, slot, m, .. } = survey;
    let (tablets, moves) = (&mut places_mut(tablets)[..*m], moves.as_chunks_mut().0);
    if ring.limits.iter().map(|&l| l as usize).sum::<usize>() < *m {
        return Err(8);
    }
    row.fill(ring);
    let mut count = 0;
    for ((home, slot), t) in home.iter().zip(slot.iter_mut()).zip(&*tablets) {
        *slot = row.next[*home as usize];
        row.take(*slot);
        count += (ring.number(*slot) != t[1]) as usize;
    }
    if count > moves.len() {
        return Err(9);
    }
    let moved = tablets.iter_mut().zip(slot).map(|(t, slot)| (t, ring.number(*slot))).filter(|(t, new)| t[1] != *new);
    for (([number, relay], new), listed) in moved.zip(moves) {
        *listed = [*number, *relay, new];
        *relay = new;
    }
    Ok(count as u32)
}

pub fn add(scheme: u32, survey: &mut Survey, lent: &mut Memory, r: u32, limit: u32) -> Outcome {
    let Err(at) = place(survey, lent, r, limit)? else { return Err(6) };
    if survey.ring.n == lent.relays.len() / 2 {
        return Err(7);
    }
    let key = relay_key(scheme, r);
    put_in_slot(scheme, survey, places(&lent.tablets), survey.ring.slot(key), key, limit);
    let moves = refill(survey, &mut lent.tablets, &mut lent.moves)?;
    put_in(&mut places_mut(&mut lent.relays)[..survey.ring.n], at, [r, limit]);
    Ok([r, 0, moves])
}

pub fn remove(scheme: u32, survey: &mut Survey, lent: &mut Memory, r: u32) -> Outcome {
    let at = place(survey, lent, r, 0)?.map_err(|_| 5u32)?;
    take_out_slot(survey, survey.ring.slot(relay_key(scheme, r)));
    let moves = refill(survey, &mut lent.tablets, &mut lent.moves)?;
    take_out(&mut places_mut(&mut lent.relays)[..=survey.ring.n], at);
    Ok([r, 0, moves])
}

pub fn set(scheme: u32, survey: &mut Survey, lent: &mut Memory, r: u32, limit: u32) -> Outcome {
    let at = place(survey, lent, r, limit)?.map_err(|_| 5u32)?;
    survey.ring.limits[survey.ring.slot(relay_key(scheme, r))] = limit as u16;
    let moves = refill(survey, &mut lent.tablets, &mut lent.moves)?;
    places_mut(&mut lent.relays)[at][1] = limit;
    Ok([r, 0, moves])
}
