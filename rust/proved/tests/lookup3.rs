//! The proved lookup3 against the second version, and both against the published vectors.

use std::ffi::{c_int, c_void};
use std::fmt::Write;

/// A small generator (splitmix64), so that a failure can be repeated.
struct Random(u64);

impl Random {
    fn next(&mut self) -> u64 {
        self.0 = self.0.wrapping_add(0x9e37_79b9_7f4a_7c15);
        let mut z = self.0;
        z = (z ^ (z >> 30)).wrapping_mul(0xbf58_476d_1ce4_e5b9);
        z = (z ^ (z >> 27)).wrapping_mul(0x94d0_49bb_1331_11eb);
        z ^ (z >> 31)
    }

    fn word(&mut self) -> u32 {
        self.next() as u32
    }

    fn below(&mut self, limit: usize) -> usize {
        (self.next() % limit as u64) as usize
    }

    fn bytes(&mut self, length: usize) -> Vec<u8> {
        (0..length).map(|_| self.next() as u8).collect()
    }
}

#[track_caller]
fn same(bytes: &[u8], start: u32) {
    let (proved, plain) = (
        proved::hashlittle(bytes, start),
        plain::hashlittle(bytes, start),
    );
    assert_eq!(proved, plain, "length {}, start {start:#x}", bytes.len());
}

#[test]
fn published_vectors() {
    let four_score = b"Four score and seven years ago";
    let vectors: [(&[u8], u32, u32); 4] = [
        (b"", 0, 0xdead_beef),
        (b"", 0xdead_beef, 0xbd5b_7dde),
        (four_score, 0, 0x1777_0551),
        (four_score, 1, 0xcd62_8161),
    ];
    for (bytes, start, hash) in vectors {
        assert_eq!(proved::hashlittle(bytes, start), hash);
        assert_eq!(plain::hashlittle(bytes, start), hash);
    }
}

#[test]
fn every_short_length_at_every_alignment() {
    let mut random = Random(1);
    let buffer = random.bytes(308);
    let starts = [0, 1, 0x7fff_ffff, 0xdead_beef, u32::MAX, random.word()];
    for offset in 0..8 {
        for length in 0..=300 {
            for start in starts {
                same(&buffer[offset..offset + length], start);
            }
        }
    }
}

extern "C" {
    fn mmap(
        at: *mut c_void,
        length: usize,
        access: c_int,
        flags: c_int,
        file: c_int,
        offset: i64,
    ) -> *mut c_void;
    fn mprotect(at: *mut c_void, length: usize, access: c_int) -> c_int;
}

/// Memory of this many bytes, whole pages on every machine, with as many behind it that cannot be touched.
const ROOM: usize = 65_536;

fn room_before_the_end() -> &'static mut [u8] {
    const READ_AND_WRITE: c_int = 1 | 2;
    const PRIVATE_AND_ANONYMOUS: c_int = 2 | 32;
    // SAFETY: the map is new, nothing else points into it, and it is never given back; the slice is its first half.
    unsafe {
        let map = mmap(
            std::ptr::null_mut(),
            2 * ROOM,
            READ_AND_WRITE,
            PRIVATE_AND_ANONYMOUS,
            -1,
            0,
        );
        assert!(!map.is_null() && map as isize != -1);
        assert_eq!(mprotect(map.byte_add(ROOM), ROOM, 0), 0);
        std::slice::from_raw_parts_mut(map.cast(), ROOM)
    }
}

/// A read past the end of the slice would be a fault.
#[test]
fn slices_that_end_where_the_memory_ends() {
    let mut random = Random(5);
    let room = room_before_the_end();
    room.copy_from_slice(&random.bytes(ROOM));
    for length in (0..=300).chain([512, 1_024, 2_048, 4_095, 4_096]) {
        let bytes = &room[ROOM - length..];
        same(bytes, 0);
        same(bytes, random.word());
    }
}

/// The bytes around the slice change, the hash does not: only the slice is read.
#[test]
fn bytes_beside_the_slice_do_not_count() {
    let mut random = Random(2);
    for length in 0..=60 {
        let inside = random.bytes(length);
        let hashes = [0, 0xff].map(|around| {
            let mut buffer = vec![around; length + 32];
            buffer[16..16 + length].copy_from_slice(&inside);
            proved::hashlittle(&buffer[16..16 + length], 7)
        });
        assert_eq!(hashes[0], hashes[1], "length {length}");
    }
}

#[test]
fn random_slices() {
    let mut random = Random(3);
    for _ in 0..5_000 {
        let length = random.below(2_000);
        let bytes = random.bytes(length);
        same(&bytes, random.word());
    }
}

#[test]
fn bytes_that_are_all_equal() {
    for byte in [0, 0x7f, 0x80, 0xff] {
        let buffer = vec![byte; 600];
        for length in 0..=buffer.len() {
            same(&buffer[..length], 0);
        }
    }
}

#[test]
fn long_slices() {
    let mut random = Random(4);
    let buffer = random.bytes(100 * 1024 + 8);
    for length in [
        4_095,
        4_096,
        4_097,
        65_535,
        65_536,
        65_537,
        100_000,
        100 * 1024,
    ] {
        same(&buffer[..length], 0);
        same(&buffer[..length], random.word());
    }
    for _ in 0..300 {
        let (length, offset) = (random.below(100 * 1024 + 1), random.below(8));
        same(&buffer[offset..offset + length], random.word());
    }
}

/// What the program `vectors` must write, by the second version. `rt ci` compares the program with
/// the same file.
#[test]
fn stored_output_of_the_program_vectors() {
    let pattern: Vec<u8> = (0..4096).map(|i| (7 * i + 13 * (i / 256)) as u8).collect();
    let mut text = String::new();
    for (key, start) in [
        ("", 0),
        ("", 0xdead_beef),
        ("Four score and seven years ago", 0),
        ("Four score and seven years ago", 1),
    ] {
        writeln!(
            text,
            "\"{key}\" {start:x} {:08x}",
            plain::hashlittle(key.as_bytes(), start)
        )
        .unwrap();
    }
    let mut hash = 0;
    for (from, to) in [
        (0, 50),
        (51, 100),
        (101, 150),
        (151, 200),
        (201, 250),
        (251, 300),
        (4001, 4096),
    ] {
        let start = hash;
        for length in from..=to {
            hash = plain::hashlittle(&pattern[..length], hash);
        }
        writeln!(text, "{from}..{to} {start:x} {hash:08x}").unwrap();
    }
    for length in [512, 1000, 1024, 2048, 4095, 4096] {
        writeln!(
            text,
            "{length} 0 {:08x}",
            plain::hashlittle(&pattern[..length], 0)
        )
        .unwrap();
    }
    let stored = std::fs::read_to_string(concat!(
        env!("CARGO_MANIFEST_DIR"),
        "/../../crates/vectors/stdout"
    ))
    .unwrap();
    assert_eq!(text, stored);
}
