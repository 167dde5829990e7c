//! A hash by products of two words, each folded onto itself: the method of the crate `foldhash`, written by hand from its
//! description.

#[inline(always)]
fn fold(left: u64, right: u64) -> u64 {
    let product = u128::from(left) * u128::from(right);
    (product as u64) ^ ((product >> 64) as u64)
}

#[inline(always)]
fn word(bytes: &[u8]) -> u64 {
    u64::from_le_bytes(bytes[..8].try_into().unwrap())
}

// The first and the last word of at most 16 bytes, which may overlap.
#[inline(always)]
fn ends(bytes: &[u8]) -> (u64, u64) {
    let len = bytes.len();
    if len >= 8 {
        (word(bytes), word(&bytes[len - 8..]))
    } else if len >= 4 {
        let half = |part: &[u8]| u64::from(u32::from_le_bytes(part[..4].try_into().unwrap()));
        (half(bytes), half(&bytes[len - 4..]))
    } else if len > 0 {
        (u64::from(bytes[0]), u64::from(bytes[len / 2]) << 8 | u64::from(bytes[len - 1]))
    } else {
        (0, 0)
    }
}

/// The hash of a text.
#[inline(always)]
pub fn hash(text: &[u8]) -> u64 {
    const FIRST: u64 = 0x9e37_79b9_7f4a_7c15;
    const SECOND: u64 = 0xc2b2_ae3d_27d4_eb4f;
    let mut state = FIRST ^ text.len() as u64;
    let mut rest = text;
    while rest.len() > 16 {
        state = fold(word(rest) ^ state, word(&rest[8..]) ^ SECOND);
        rest = &rest[16..];
    }
    let (first, last) = ends(rest);
    fold(first ^ state, last ^ SECOND)
}
