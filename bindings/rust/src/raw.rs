//! The calls on lent numbers, as the C header has them: any numbers, any tables, slices of any length. Each answers with its reply as four
//! numbers: refusal, relay, relays passed, moves.
//!
//! The archive's functions ask nothing of what is lent but that each slice is one, and that no two overlap where one is written; Rust's
//! references say both. So these functions are safe.

/// A reply as the paper lists it: refusal, relay, passed, moves.
pub type Numbers = [u32; 4];

mod archive {
    // The calls that change tables differ in the numbers that they are about alone, and in whether the relay table is written.
    macro_rules! changing {
        ($($name:ident($relays:ty; $($number:ident),+);)+) => {
            extern "C" {
                $(pub fn $name(
                    scheme: u32,
                    relays: $relays,
                    relays_length: usize,
                    tablets: *mut u32,
                    tablets_length: usize,
                    moves: *mut u32,
                    moves_length: usize,
                    tally: *mut u32,
                    tally_length: usize,
                    $($number: u32,)+
                    reply: *mut u32,
                ) -> u32;)+
            }
        };
    }

    changing! {
        wairepomuro_add(*mut u32; relay, limit);
        wairepomuro_remove(*mut u32; relay);
        wairepomuro_set(*mut u32; relay, limit);
        wairepomuro_enrol(*const u32; tablet);
        wairepomuro_withdraw(*const u32; tablet);
    }

    extern "C" {
        pub fn wairepomuro_check(scheme: u32, relays: *const u32, relays_length: usize, tablets: *const u32, tablets_length: usize) -> u32;
        pub fn wairepomuro_find(
            scheme: u32,
            relays: *const u32,
            relays_length: usize,
            tablets: *const u32,
            tablets_length: usize,
            tally: *mut u32,
            tally_length: usize,
            tablet: u32,
            reply: *mut u32,
        ) -> u32;
        pub fn wairepomuro_balance(p: u32, q: u32, tablets: u32, relays: u32, limit: *mut u32) -> u32;
        pub fn wairepomuro_sheet(
            scheme: u32,
            relays: *const u32,
            relays_length: usize,
            tablets: *const u32,
            tablets_length: usize,
            sheet: *mut u32,
            sheet_length: usize,
        ) -> u32;
        pub fn wairepomuro_stretch(
            scheme: u32,
            relays: *const u32,
            relays_length: usize,
            tablets: *const u32,
            tablets_length: usize,
            sheet: *const u32,
            sheet_length: usize,
            relay: u32,
            start: *mut usize,
        ) -> usize;
        pub fn wairepomuro_read(
            bytes: *const u8,
            bytes_length: usize,
            relays: *mut u32,
            relays_length: usize,
            tablets: *mut u32,
            tablets_length: usize,
            scheme: *mut u32,
        ) -> u32;
    }
}

/// 0 for right tables; else 1 or 2, as every call would say.
pub fn check(scheme: u32, relays: &[u32], tablets: &[u32]) -> u32 {
    // SAFETY: each pointer and length is a slice's, and nothing is written.
    unsafe { archive::wairepomuro_check(scheme, relays.as_ptr(), relays.len(), tablets.as_ptr(), tablets.len()) }
}

/// What a call that changes the tables writes to.
pub struct Lent<'a> {
    pub relays: &'a mut [u32],
    pub tablets: &'a mut [u32],
    /// Three numbers to a move.
    pub moves: &'a mut [u32],
    /// Four numbers; a slice of another length is left as it is.
    pub tally: &'a mut [u32],
}

macro_rules! call {
    ($lent:ident, $function:ident, $scheme:expr, $($number:expr),+) => {{
        let mut reply = [0; 4];
        // SAFETY: each pointer and length is a slice's, and no two of the slices overlap.
        let refusal = unsafe {
            archive::$function(
                $scheme,
                $lent.relays.as_mut_ptr(),
                $lent.relays.len(),
                $lent.tablets.as_mut_ptr(),
                $lent.tablets.len(),
                $lent.moves.as_mut_ptr(),
                $lent.moves.len(),
                $lent.tally.as_mut_ptr(),
                $lent.tally.len(),
                $($number,)+
                reply.as_mut_ptr(),
            )
        };
        debug_assert_eq!(refusal, reply[0]);
        reply
    }};
}

pub fn add(scheme: u32, lent: &mut Lent, relay: u32, limit: u32) -> Numbers {
    call!(lent, wairepomuro_add, scheme, relay, limit)
}

pub fn remove(scheme: u32, lent: &mut Lent, relay: u32) -> Numbers {
    call!(lent, wairepomuro_remove, scheme, relay)
}

pub fn set(scheme: u32, lent: &mut Lent, relay: u32, limit: u32) -> Numbers {
    call!(lent, wairepomuro_set, scheme, relay, limit)
}

pub fn enrol(scheme: u32, lent: &mut Lent, tablet: u32) -> Numbers {
    call!(lent, wairepomuro_enrol, scheme, tablet)
}

pub fn withdraw(scheme: u32, lent: &mut Lent, tablet: u32) -> Numbers {
    call!(lent, wairepomuro_withdraw, scheme, tablet)
}

pub fn find(scheme: u32, relays: &[u32], tablets: &[u32], tally: &mut [u32], tablet: u32) -> Numbers {
    let mut reply = [0; 4];
    // SAFETY: each pointer and length is a slice's, and what is written overlaps nothing.
    let refusal = unsafe {
        archive::wairepomuro_find(
            scheme,
            relays.as_ptr(),
            relays.len(),
            tablets.as_ptr(),
            tablets.len(),
            tally.as_mut_ptr(),
            tally.len(),
            tablet,
            reply.as_mut_ptr(),
        )
    };
    debug_assert_eq!(refusal, reply[0]);
    reply
}

/// Every relay's limit with balance p/q, and the refusal number before it.
pub fn balance(p: u32, q: u32, tablets: u32, relays: u32) -> (u32, u32) {
    let mut limit = 0;
    // SAFETY: the limit is a number of ours.
    let refusal = unsafe { archive::wairepomuro_balance(p, q, tablets, relays, &mut limit) };
    (refusal, limit)
}

/// Writes the sheet of these tables; answers with the refusal number.
pub fn sheet(scheme: u32, relays: &[u32], tablets: &[u32], sheet: &mut [u32]) -> u32 {
    // SAFETY: each pointer and length is a slice's, and what is written overlaps nothing.
    unsafe {
        archive::wairepomuro_sheet(
            scheme,
            relays.as_ptr(),
            relays.len(),
            tablets.as_ptr(),
            tablets.len(),
            sheet.as_mut_ptr(),
            sheet.len(),
        )
    }
}

/// The part of the sheet that lists one relay. It is empty and starts at the sheet's beginning where the scheme is unknown, the tables are not
/// right, the sheet is not theirs, or the relay is not there.
pub fn stretch<'a>(scheme: u32, relays: &[u32], tablets: &[u32], sheet: &'a [u32], relay: u32) -> &'a [u32] {
    let mut start = 0;
    // SAFETY: each pointer and length is a slice's, and the start is a number of ours.
    let length = unsafe {
        archive::wairepomuro_stretch(
            scheme,
            relays.as_ptr(),
            relays.len(),
            tablets.as_ptr(),
            tablets.len(),
            sheet.as_ptr(),
            sheet.len(),
            relay,
            &mut start,
        )
    };
    &sheet[start..start + length]
}

/// Reads a roster into the tables; answers with the refusal number and the roster's scheme.
pub fn read(bytes: &[u8], relays: &mut [u32], tablets: &mut [u32]) -> (u32, u32) {
    let mut scheme = 0;
    // SAFETY: each pointer and length is a slice's, no two of them overlap, and the scheme is a number of ours.
    let refusal = unsafe {
        archive::wairepomuro_read(
            bytes.as_ptr(),
            bytes.len(),
            relays.as_mut_ptr(),
            relays.len(),
            tablets.as_mut_ptr(),
            tablets.len(),
            &mut scheme,
        )
    };
    (refusal, scheme)
}
