//! The checksum of header, index and images: Bob Jenkins' lookup3, the byte-order independent
//! `hashlittle`.
//!
//! Twelve bytes at a time are added to three words and mixed. The last one to twelve bytes, filled
//! up with zeros, are added too but go through `finish` instead.

const SEED: u32 = 0xdead_beef;
const BLOCK: usize = 12;

struct Words {
    a: u32,
    b: u32,
    c: u32,
}

impl Words {
    fn add(&mut self, block: &[u8; BLOCK]) {
        let [a0, a1, a2, a3, b0, b1, b2, b3, c0, c1, c2, c3] = *block;
        self.a = self.a.wrapping_add(u32::from_le_bytes([a0, a1, a2, a3]));
        self.b = self.b.wrapping_add(u32::from_le_bytes([b0, b1, b2, b3]));
        self.c = self.c.wrapping_add(u32::from_le_bytes([c0, c1, c2, c3]));
    }

    fn mix(&mut self) {
        let Words {
            mut a,
            mut b,
            mut c,
        } = *self;
        a = a.wrapping_sub(c) ^ c.rotate_left(4);
        c = c.wrapping_add(b);
        b = b.wrapping_sub(a) ^ a.rotate_left(6);
        a = a.wrapping_add(c);
        c = c.wrapping_sub(b) ^ b.rotate_left(8);
        b = b.wrapping_add(a);
        a = a.wrapping_sub(c) ^ c.rotate_left(16);
        c = c.wrapping_add(b);
        b = b.wrapping_sub(a) ^ a.rotate_left(19);
        a = a.wrapping_add(c);
        c = c.wrapping_sub(b) ^ b.rotate_left(4);
        b = b.wrapping_add(a);
        *self = Words { a, b, c };
    }

    fn finish(self) -> u32 {
        let Words {
            mut a,
            mut b,
            mut c,
        } = self;
        c = (c ^ b).wrapping_sub(b.rotate_left(14));
        a = (a ^ c).wrapping_sub(c.rotate_left(11));
        b = (b ^ a).wrapping_sub(a.rotate_left(25));
        c = (c ^ b).wrapping_sub(b.rotate_left(16));
        a = (a ^ c).wrapping_sub(c.rotate_left(4));
        b = (b ^ a).wrapping_sub(a.rotate_left(14));
        (c ^ b).wrapping_sub(b.rotate_left(24))
    }
}

/// lookup3 over the bytes. The layer itself always starts with 0.
pub fn hashlittle(bytes: &[u8], start: u32) -> u32 {
    // The published code counts the length in 32 bits here.
    let first = SEED.wrapping_add(bytes.len() as u32).wrapping_add(start);
    let mut words = Words {
        a: first,
        b: first,
        c: first,
    };
    if bytes.is_empty() {
        return words.c;
    }
    let before_last = (bytes.len() - 1) / BLOCK * BLOCK;
    let (blocks, _) = bytes[..before_last].as_chunks();
    for block in blocks {
        words.add(block);
        words.mix();
    }
    let rest = &bytes[before_last..];
    let mut last = [0; BLOCK];
    last[..rest.len()].copy_from_slice(rest);
    words.add(&last);
    words.finish()
}

/// The checksum as the side file has it.
pub(crate) fn checksum(bytes: &[u8]) -> u32 {
    hashlittle(bytes, 0)
}
