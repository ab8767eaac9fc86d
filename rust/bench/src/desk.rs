//! Take, refresh and read over a side file with n entries; P = 4096, S = 16, L = 8, e = 1024, spans of 64 bytes.

use std::hint::black_box;

use crate::clock::lowest;
use crate::side;
use crate::table::Table;

const GROUP: &str = "desk";
const BOUND: f64 = 1.5;

pub fn calls(table: &mut Table, n: u32) {
    let side = side::file(side::PAGE, 1024, n);
    let base = vec![0u8; 1024 * side::PAGE as usize];
    let mut ours = vec![0u8; side::HELD];
    let mut theirs = ours.clone();
    let mut marks = [vec![0u8; 1024], vec![0u8; 1024]];
    assert_eq!(proved::take(&side, &mut ours), 0);
    assert_eq!(plain::take(&side, &mut theirs), 0);
    assert_eq!(ours, theirs);

    let pair = lowest(
        || assert_eq!(proved::take(black_box(&side), &mut ours), 0),
        || assert_eq!(plain::take(black_box(&side), &mut theirs), 0),
    );
    table.row(GROUP, &format!("take, n = {n}"), "Rust", BOUND, pair);

    let [our_marks, their_marks] = &mut marks;
    let pair = lowest(
        || assert_eq!(proved::refresh(black_box(&side), &mut ours, our_marks), 0),
        || assert_eq!(plain::refresh(black_box(&side), &mut theirs, their_marks), 0),
    );
    table.row(GROUP, &format!("refresh, n = {n}, e = 1024"), "Rust", BOUND, pair);

    for (page, what) in [(2 * (n - 1), "with an entry"), (1, "without one")] {
        let pair = lowest(
            || assert_eq!(proved::read_part(black_box(&side), &base, &ours, page, 0, 64).number, 0),
            || assert_eq!(plain::desk_read(black_box(&side), &base, &theirs, page, 0, 64).number, 0),
        );
        table.row(GROUP, &format!("desk read, n = {n}, {what}"), "Rust", BOUND, pair);
    }
}
