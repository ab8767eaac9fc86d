//! The checksum beside plain C and plain Rust, and the copy beside memcpy.

use std::hint::black_box;

use crate::clock::lowest;
use crate::table::{Table, NOT_DRAWN};

const BOUND: f64 = 1.05;
/// Below 36 bytes the call itself is a good part of the time.
const SHORT: std::ops::Range<usize> = 1..36;
const SHORT_BOUND: f64 = 1.5;
/// The short length that the picture has too, and plain Rust beside it.
const SHORT_DRAWN: usize = 12;
const LONG: [usize; 4] = [36, 64, 512, 4096];
const COPY_BOUND: f64 = 4.0;

extern "C" {
    /// c/bench/hashlittle.c
    fn hashlittle(bytes: *const u8, length: usize, start: u32) -> u32;
    /// crates/leaves
    fn leaves_copy(
        from: *const u8,
        from_length: usize,
        from_at: usize,
        to: *mut u8,
        to_length: usize,
        to_at: usize,
        n: usize,
    );
}

fn in_c(bytes: &[u8], start: u32) -> u32 {
    // SAFETY: the function reads so many bytes at the pointer and keeps neither.
    unsafe { hashlittle(bytes.as_ptr(), bytes.len(), start) }
}

fn proved_copy(from: &[u8], to: &mut [u8], n: usize) {
    assert!(n <= from.len() && n <= to.len());
    // SAFETY: both slices have n bytes from 0 on, and Rust's rules keep them apart.
    unsafe { leaves_copy(from.as_ptr(), from.len(), 0, to.as_mut_ptr(), to.len(), 0, n) }
}

fn pattern() -> Vec<u8> {
    (0..4096usize).map(|i| (7 * i + 13 * (i / 256)) as u8).collect()
}

/// Each hash is the next call's start, so that no two calls overlap. None of the functions is inlined here.
fn chained<'a>(bytes: &'a [u8], hash: impl Fn(&[u8], u32) -> u32 + 'a) -> impl FnMut() + 'a {
    let mut start = 0;
    move || start = hash(bytes, start)
}

/// Every short length, and with them each number of last bytes after none, one and two blocks; and some longer ones.
pub fn checksum(table: &mut Table) {
    let bytes = pattern();
    for length in SHORT.chain(LONG) {
        let part = &bytes[..length];
        let is_short = SHORT.contains(&length);
        let is_drawn = length == SHORT_DRAWN || !is_short;
        let bound = if is_short { SHORT_BOUND } else { BOUND };
        let group = if is_drawn { "checksum" } else { NOT_DRAWN };
        let name = format!("lookup3, {length} byte{}", if length == 1 { "" } else { "s" });
        assert_eq!(proved::hashlittle(part, 0), in_c(part, 0));
        assert_eq!(proved::hashlittle(part, 0), plain::hashlittle(part, 0));
        table.row(group, &name, "C", bound, lowest(chained(part, proved::hashlittle), chained(part, in_c)));
        if is_drawn {
            let pair = lowest(chained(part, proved::hashlittle), chained(part, plain::hashlittle));
            table.row(group, &name, "Rust", bound, pair);
        }
    }
}

pub fn copy(table: &mut Table) {
    let from = pattern();
    let (mut ours, mut theirs) = (vec![0; 4096], vec![0; 4096]);
    for n in [64, 512, 1024, 2048, 4096] {
        proved_copy(&from, &mut ours, n);
        assert_eq!(ours[..n], from[..n]);
        let pair = lowest(
            || proved_copy(black_box(&from), black_box(&mut ours), black_box(n)),
            || black_box(&mut theirs)[..black_box(n)].copy_from_slice(&black_box(&from)[..black_box(n)]),
        );
        table.row("copy", &format!("copy, {n} bytes"), "memcpy", COPY_BOUND, pair);
    }
}
