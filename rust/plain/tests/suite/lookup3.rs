//! lookup3 against the published vectors and against a version written byte by byte.

use crate::support::Random;
use plain::hashlittle;

const SENTENCE: &[u8] = b"Four score and seven years ago";

#[test]
fn published_vectors() {
    assert_eq!(hashlittle(b"", 0), 0xdead_beef);
    assert_eq!(hashlittle(b"", 0xdead_beef), 0xbd5b_7dde);
    assert_eq!(hashlittle(SENTENCE, 0), 0x1777_0551);
    assert_eq!(hashlittle(SENTENCE, 1), 0xcd62_8161);
}

/// The same algorithm the slow way: bytes are added one by one at their shift, and the steps of
/// mixing and finishing are spelled as a table of rotations.
fn slowly(bytes: &[u8], start: u32) -> u32 {
    let mut w = [0xdead_beef_u32
        .wrapping_add(bytes.len() as u32)
        .wrapping_add(start); 3];
    let mut left = bytes.len();
    if left == 0 {
        return w[2];
    }
    for (i, &byte) in bytes.iter().enumerate() {
        let at = i % 12;
        w[at / 4] = w[at / 4].wrapping_add(u32::from(byte) << (8 * (at % 4)));
        if at == 11 && left > 12 {
            for (step, turn) in [4, 6, 8, 16, 19, 4].into_iter().enumerate() {
                let (x, y, z) = (step % 3, (step + 1) % 3, (step + 2) % 3);
                w[x] = w[x].wrapping_sub(w[z]) ^ w[z].rotate_left(turn);
                w[z] = w[z].wrapping_add(w[y]);
            }
            left -= 12;
        }
    }
    for (step, turn) in [14, 11, 25, 16, 4, 14, 24].into_iter().enumerate() {
        let (x, from) = ((step + 2) % 3, (step + 1) % 3);
        w[x] = (w[x] ^ w[from]).wrapping_sub(w[from].rotate_left(turn));
    }
    w[2]
}

#[test]
fn equals_the_slow_version() {
    let mut random = Random::new(3);
    for length in (0..200).chain([511, 512, 513, 1023, 1024, 2048, 2304, 4095, 4096]) {
        let mut bytes = vec![0; length];
        random.fill(&mut bytes);
        let start = random.next() as u32;
        assert_eq!(hashlittle(&bytes, 0), slowly(&bytes, 0), "length {length}");
        assert_eq!(
            hashlittle(&bytes, start),
            slowly(&bytes, start),
            "length {length}"
        );
    }
}
