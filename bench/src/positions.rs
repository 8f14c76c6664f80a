//! Positions on the ring, for the two engines that are not the library.

const PRIME: u32 = 16777619;

pub fn known(scheme: u32) -> bool {
    scheme <= 1
}

/// FNV-1a over the tag and the number, lowest byte first.
#[inline]
fn hashed(tag: u8, number: u32) -> u32 {
    let start = (2166136261 ^ tag as u32).wrapping_mul(PRIME);
    number.to_le_bytes().into_iter().fold(start, |h, b| (h ^ b as u32).wrapping_mul(PRIME))
}

#[inline]
pub fn relay(scheme: u32, number: u32) -> u32 {
    if scheme == 0 {
        number
    } else {
        hashed(b'R', number)
    }
}

#[inline]
pub fn tablet(scheme: u32, number: u32) -> u32 {
    if scheme == 0 {
        number
    } else {
        hashed(b'T', number)
    }
}
