//! The bytes of the side file and the ledger, number by number.

use crate::support::*;
use plain::*;

#[test]
fn open_writes_header_index_and_ledger_only() {
    let s = settings(1024, 2, 3, 6);
    let mut bench = Bench::closed(s, &[0, 1, 0]);
    let before = bench.clone();
    assert_eq!(bench.open(s, 3, 0x0102_0304), 0);

    let mut header = Vec::new();
    header.extend_from_slice(b"TWL\0");
    header.extend_from_slice(&[1, 0, 3, 0]);
    header.extend_from_slice(&[0, 4, 0, 0]);
    header.extend_from_slice(&[4, 3, 2, 1]);
    header.extend_from_slice(&[3, 0, 0, 0, 0, 0, 0, 0]);
    header.extend_from_slice(&[2, 0, 0, 0]);
    header.extend_from_slice(&0xdead_beef_u32.to_le_bytes());
    let sum = hashlittle(&header, 0);
    header.extend_from_slice(&sum.to_le_bytes());
    assert_eq!(header.len(), 36);
    assert_eq!(bench.side[..36], header[..]);
    assert!(bench.side[36..36 + 16 * 8].iter().all(|&byte| byte == 0));
    assert!(
        bench.side[36 + 16 * 8..] == before.side[36 + 16 * 8..],
        "the rest of the side file was written"
    );
    assert!(bench.ledger[..ledger_length(s)]
        .iter()
        .all(|&byte| byte == 0));
    assert!(
        bench.base == before.base && bench.pages == before.pages && bench.kinds == before.kinds
    );

    let state = bench.state;
    assert_eq!(
        (state.settings, state.end, state.closed, state.entries),
        (s, 3, 0x0102_0304, 0)
    );
    assert_eq!(
        (state.slots.pages, state.slots.changed, state.slots.used),
        ([EMPTY; 16], [0; 16], 0)
    );
    assert_eq!(
        (state.meta, state.raw),
        (Counts::default(), Counts::default())
    );
}

#[test]
fn close_writes_index_and_header_from_the_state() {
    let mut bench = Bench::example();
    assert_eq!(bench.write(3, 0, &[7; 512]), 0);
    assert_eq!(bench.write(1, 10, &[9, 9]), 0);
    let before = bench.clone();
    assert_eq!(bench.close(), 0);

    let mut first = vec![2; 512];
    first[10..12].fill(9);
    let sums = [hashlittle(&first, 0), hashlittle(&[7; 512], 0)];
    let mut index = Vec::new();
    for number in [1, 0, 1, sums[0], 3, 1, 1, sums[1]] {
        index.extend_from_slice(&u32::to_le_bytes(number));
    }
    assert_eq!(bench.side[36..68], index[..]);
    assert!(bench.side[68..36 + 128].iter().all(|&byte| byte == 0));
    let numbers: Vec<u32> = [12, 16, 20, 28, 32]
        .map(|at| number_at(&bench.side, at))
        .to_vec();
    assert_eq!(
        numbers,
        [
            1,
            4,
            2,
            hashlittle(&index, 0),
            hashlittle(&bench.side[..32], 0)
        ]
    );
    assert_eq!(bench.image(0), first);
    assert_eq!(bench.image(1), [7; 512]);
    assert!(
        bench.side[512 + 1024..] == before.side[512 + 1024..],
        "places not given were written"
    );
    assert!(
        bench.side[164..512] == before.side[164..512],
        "bytes before the images were written"
    );
    assert_eq!(
        bench.entries(),
        [[1, 0, 1, sums[0], 1], [3, 1, 1, sums[1], 1]]
    );
    assert!(bench.ledger[40..ledger_length(bench.state.settings)]
        .iter()
        .all(|&byte| byte == 0));
    assert!(
        bench.base == before.base && bench.pages == before.pages && bench.kinds == before.kinds
    );
}

#[test]
fn a_close_without_change_moves_the_tick_only() {
    let mut bench = Bench::example();
    let before = bench.clone();
    assert_eq!(bench.close(), 0);
    let mut expected = before.clone();
    expected.state.closed = 1;
    put_number(&mut expected.side, 12, 1);
    mend(&mut expected.side);
    bench.assert_same(&expected);
}

#[test]
fn the_header_has_the_end_of_the_last_close() {
    let mut bench = Bench::example();
    assert_eq!(bench.grow(1), 0);
    assert_eq!(number_at(&bench.side, 16), 4);
    assert_eq!(bench.close(), 0);
    assert_eq!(number_at(&bench.side, 16), 5);
}

#[test]
fn a_damaged_side_file_is_not_looked_at_by_the_recorder() {
    let mut bench = Bench::example();
    assert_eq!(bench.write(2, 0, &[5]), 0);
    let mut damaged = bench.clone();
    damaged.side[..512].fill(0xff);
    assert_eq!((bench.close(), damaged.close()), (0, 0));
    assert!(bench.side[..164] == damaged.side[..164]);
    assert_eq!(bench.ledger, damaged.ledger);
}
