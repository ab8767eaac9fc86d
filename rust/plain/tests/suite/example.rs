//! Document 01's example (L = 3, S = 2, page 2), both variants, over closes 1 to 8: rows a and b of
//! its table.

use crate::support::*;

const OLD: [u8; 512] = [3; 512];

fn with_page_2_changed_in_1() -> Bench {
    let mut bench = Bench::example();
    assert_eq!(bench.write(2, 0, &[71; 512]), 0);
    assert_eq!(bench.close(), 0);
    bench
}

/// Row a. Each step: index, retired places and the byte page 2 has in the base.
#[test]
fn one_change() {
    let mut bench = with_page_2_changed_in_1();
    for tick in 1..=8 {
        if tick > 1 {
            assert_eq!(bench.close(), 0);
        }
        assert_eq!(bench.state.closed, tick);
        let entry = if tick < 5 { vec![[2, 0, 1, 1]] } else { vec![] };
        assert_eq!(bench.index(), entry, "close {tick}");
        let retired = if (5..8).contains(&tick) {
            vec![(0, 5)]
        } else {
            vec![]
        };
        assert_eq!(bench.retired(), retired, "close {tick}");
        assert_eq!(
            bench.base_page(2),
            if tick < 4 { OLD } else { [71; 512] },
            "close {tick}"
        );
        assert_eq!(bench.image(0), [71; 512]);
    }
    assert_eq!(bench.place_row(0), [0, 0], "a forgotten place leaves zeros");
}

/// Row a, the place: not given at close 7, given at close 8.
#[test]
fn place_0_is_given_again_from_close_8() {
    for (change, place) in [(7, 1), (8, 0)] {
        let mut bench = with_page_2_changed_in_1();
        for _ in 2..change {
            assert_eq!(bench.close(), 0);
        }
        assert_eq!(bench.write(3, 0, &[72]), 0);
        assert_eq!(bench.close(), 0);
        assert_eq!(bench.index(), [[3, place, change, change]]);
    }
}

/// Row b: page 2 changes again in tick 2.
#[test]
fn two_changes() {
    let mut bench = with_page_2_changed_in_1();
    assert_eq!(bench.write(2, 0, &[72; 512]), 0);
    for tick in 2..=8 {
        assert_eq!(bench.close(), 0);
        let entry = if tick < 6 { vec![[2, 1, 2, 1]] } else { vec![] };
        assert_eq!(bench.index(), entry, "close {tick}");
        let retired = match tick {
            2..=4 => vec![(0, 2)],
            5 => vec![],
            _ => vec![(1, 6)],
        };
        assert_eq!(bench.retired(), retired, "close {tick}");
        assert_eq!(
            bench.base_page(2),
            if tick < 4 { OLD } else { [72; 512] },
            "close {tick}"
        );
        assert_eq!(bench.image(0), [71; 512], "the first image stays");
        assert_eq!(bench.image(1), [72; 512]);
    }
}

/// Row b, the place: not given at close 4, given at close 5.
#[test]
fn place_0_is_given_again_from_close_5() {
    for (change, place) in [(4, 2), (5, 0)] {
        let mut bench = with_page_2_changed_in_1();
        assert_eq!(bench.write(2, 0, &[72; 512]), 0);
        for _ in 2..change {
            assert_eq!(bench.close(), 0);
        }
        assert_eq!(bench.write(3, 0, &[73]), 0);
        assert_eq!(bench.close(), 0);
        assert_eq!(bench.index(), [[2, 1, 2, 1], [3, place, change, change]]);
    }
}

/// What a desk of each tick sees of page 2 while the lag lasts, in the second variant.
#[test]
fn desks_see_their_tick() {
    let mut bench = Bench::example();
    let mut desks = vec![(bench.take(), 3)];
    for tick in 1..=8_u8 {
        if tick <= 2 {
            assert_eq!(bench.write(2, 0, &[70 + tick; 512]), 0);
        }
        assert_eq!(bench.close(), 0);
        desks.push((bench.take(), 70 + tick.min(2)));
        for (taken, (held, byte)) in desks.iter().enumerate() {
            let found = bench.desk_read(held, 2, 0, 512);
            if usize::from(tick) - taken <= 3 {
                assert_eq!((found.number, found.bytes), (0, &[*byte; 512][..]));
            } else {
                assert_eq!((found.number, found.bytes.len()), (13, 0));
            }
        }
    }
}
