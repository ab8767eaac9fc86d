//! The byte pattern of a seed, so that a script can fill buffers and name long data in a few
//! characters.

/// Byte `i` of the pattern of `seed`. All sums are meant modulo 256, so wrapping ones give the same
/// byte.
pub fn pattern_byte(seed: u64, i: u64) -> u8 {
    let sum = seed
        .wrapping_mul(37)
        .wrapping_add(i.wrapping_mul(7))
        .wrapping_add((i / 256).wrapping_mul(13))
        .wrapping_add((i / 65_536).wrapping_mul(29));
    sum as u8
}

/// The first `length` bytes of the pattern of `seed`.
pub fn pattern(length: usize, seed: u64) -> Vec<u8> {
    (0..length as u64).map(|i| pattern_byte(seed, i)).collect()
}

#[cfg(test)]
mod tests {
    use super::{pattern, pattern_byte};

    #[test]
    fn by_hand() {
        assert_eq!(pattern(4, 0), [0, 7, 14, 21]);
        assert_eq!(pattern(3, 2), [74, 81, 88]);
        // 37 + 7*256 + 13 = 1842 = 7*256 + 50
        assert_eq!(pattern_byte(1, 256), 50);
        // 7*65536 and 13*256 are multiples of 256; 29 remains
        assert_eq!(pattern_byte(0, 65_536), 29);
        assert_eq!(pattern_byte(256, 3), pattern_byte(0, 3));
    }
}
