//! Document 01's rows a to j and the clause that failed, as facts: what each script of that name
//! must lead to, stated here without a digest.

mod common;

use common::{plain, played, Played};
use replay::fields::Fields;
use replay::pattern::pattern;
use replay::run::Handed;
use replay::script::Call;
use replay::sidelist::sidelist;

fn closes(calls: &[Played]) -> Vec<&Played> {
    calls.iter().filter(|played| played.call == Call::Close).collect()
}

fn listings(calls: &[Played]) -> Vec<String> {
    closes(calls).iter().map(|played| sidelist(plain(), played.side())).collect()
}

/// page, place, last change, entry tick
fn entries(fields: &Fields) -> Vec<[u64; 4]> {
    fields
        .entries
        .iter()
        .map(|entry| [entry.page, entry.place, entry.last_change, entry.entry_tick])
        .collect()
}

fn retired(fields: &Fields) -> Vec<(u64, u64)> {
    fields.retired.iter().map(|retired| (retired.place, retired.tick)).collect()
}

/// The calls that wrote the base: which close, which pages.
fn base_writes(calls: &[Played]) -> Vec<(usize, Vec<usize>)> {
    let writes = closes(calls)
        .into_iter()
        .enumerate()
        .map(|(i, played)| (i + 1, played.base_pages_written()));
    writes.filter(|(_, pages)| !pages.is_empty()).collect()
}

fn answers(calls: &[Played]) -> Vec<u32> {
    calls.iter().map(|played| played.reply.number).collect()
}

fn found(played: &Played) -> (u32, usize, &[u8]) {
    match &played.reply.handed {
        Handed::Found { source, offset, bytes } => (*source, *offset, bytes),
        _ => panic!("no desk read"),
    }
}

fn dest(played: &Played) -> &[u8] {
    match &played.reply.handed {
        Handed::Dest(dest) => dest,
        _ => panic!("no read"),
    }
}

fn last(calls: &[Played]) -> &Played {
    calls.last().expect("a call")
}

#[test]
fn row_a_entry_base_write_leaving_and_reuse() {
    let calls = played("row-a.script");
    assert_eq!(
        listings(&calls),
        [
            "tick 1 end 4 entries 1\n2 0 1\n",
            "tick 2 end 4 entries 1\n2 0 1\n",
            "tick 3 end 4 entries 1\n2 0 1\n",
            "tick 4 end 4 entries 1\n2 0 1\n",
            "tick 5 end 4 entries 0\n",
            "tick 6 end 4 entries 0\n",
            "tick 7 end 4 entries 1\n3 1 7\n",
            "tick 8 end 4 entries 2\n1 0 8\n3 1 7\n",
        ]
    );
    assert_eq!(base_writes(&calls), [(4, vec![2])]);
    let mut base = pattern(2048, 1);
    base[2 * 512 + 10..][..2].copy_from_slice(&[1, 2]);
    assert_eq!(last(&calls).base(), base);
    assert_eq!(last(&calls).fields().meta, [3, 0, 3, 1, 0]);
}

#[test]
fn row_a_place_0_is_held_back_until_close_8() {
    let calls = played("row-a.script");
    let closes = closes(&calls);
    assert_eq!(entries(&closes[0].fields()), [[2, 0, 1, 1]]);
    assert_eq!(retired(&closes[4].fields()), [(0, 5)]);
    assert_eq!(retired(&closes[5].fields()), [(0, 5)]);
    assert_eq!(entries(&closes[6].fields()), [[3, 1, 7, 7]]);
    // From close 7 on the place no longer shows in the listing: the next close may give it.
    assert!(closes[5].fields().listing().contains("retired=0:5"));
    assert!(closes[6].fields().listing().contains("retired=."));
    assert_eq!(entries(&closes[7].fields()), [[1, 0, 8, 8], [3, 1, 7, 7]]);
    assert_eq!(retired(&closes[7].fields()), []);
}

/// The image of place q is the page at the close that gave it, bytes 512 + 512 q on.
#[test]
fn row_a_images() {
    let calls = played("row-a.script");
    let closes = closes(&calls);
    let base = pattern(2048, 1);
    let mut page = base[1024..1536].to_vec();
    page[10..12].copy_from_slice(&[1, 2]);
    assert_eq!(closes[0].side()[512..1024], page);
    assert_eq!(closes[6].side()[512..1024], page, "place 0 still has the image at close 7");
    let mut page = base[512..1024].to_vec();
    page[0] = 4;
    assert_eq!(closes[7].side()[512..1024], page, "place 0 has page 1 at close 8");
}

#[test]
fn row_b_second_variant() {
    let calls = played("row-b.script");
    assert_eq!(
        listings(&calls),
        [
            "tick 1 end 4 entries 1\n2 0 1\n",
            "tick 2 end 4 entries 1\n2 1 2\n",
            "tick 3 end 4 entries 1\n2 1 2\n",
            "tick 4 end 4 entries 2\n2 1 2\n3 2 4\n",
            "tick 5 end 4 entries 2\n2 1 2\n3 0 5\n",
            "tick 6 end 4 entries 1\n3 0 5\n",
            "tick 7 end 4 entries 1\n3 0 5\n",
            "tick 8 end 4 entries 1\n3 0 5\n",
        ]
    );
    assert_eq!(base_writes(&calls), [(4, vec![2]), (7, vec![3])]);
    let closes = closes(&calls);
    assert_eq!(entries(&closes[1].fields()), [[2, 1, 2, 1]], "the entry tick stays");
    assert_eq!(retired(&closes[1].fields()), [(0, 2)]);
    assert_eq!(retired(&closes[4].fields()), [(2, 5)]);
    assert_eq!(retired(&closes[5].fields()), [(1, 6), (2, 5)]);
    let mut base = pattern(2048, 1);
    base[1024 + 10..][..2].copy_from_slice(&[3, 4]);
    base[3 * 512] = 6;
    assert_eq!(last(&calls).base(), base);
    assert_eq!(last(&calls).fields().meta, [4, 2, 2, 0, 0]);
}

#[test]
fn row_c_the_lag_of_a_desk() {
    let calls = played("row-c.script");
    assert_eq!(answers(&calls), [0, 0, 0, 0, 0, 0, 0, 13, 13, 0, 0, 0, 13, 13]);
    assert_eq!(found(&calls[5]), (0, 517, &pattern(2048, 1)[517..520]));
    assert_eq!(found(&calls[7]), (0, 0, &[][..]));
}

#[test]
fn row_d_a_held_place_outlives_its_entry() {
    let calls = played("row-d.script");
    let reads: Vec<&Played> =
        calls.iter().filter(|played| played.call.word() == "deskread").collect();
    assert_eq!(reads[0].after.recorder.state.closed, 7);
    assert_eq!(found(reads[0]), (1, 512 + 10, &[1, 2][..]));
    assert_eq!(found(reads[1]), (0, 3 * 512, &pattern(2048, 1)[3 * 512..][..1]));
    assert_eq!(reads[2].reply.number, 13);
    assert_eq!(reads[2].after.recorder.state.closed, 8);
}

#[test]
fn row_e_counts_and_victim() {
    let calls = played("row-e.script");
    let fields = last(&calls).fields();
    assert_eq!(fields.meta, [4, 1, 3, 1, 0]);
    assert_eq!(fields.raw, [0; 5]);
    assert_eq!((fields.page_in(0), fields.page_in(1)), (Some(0), Some(2)));
    assert_eq!(fields.order, [0, 1]);
    assert_eq!(dest(last(&calls)), &pattern(2048, 1)[1024..1028]);
}

#[test]
fn row_f_no_slot_for_a_write() {
    let calls = played("row-f.script");
    assert_eq!(answers(&calls), [0, 0, 7, 0, 7, 0, 0, 7, 0, 0]);
    assert_eq!(calls[2].fields().meta, [1, 0, 1, 0, 0]);
    assert_eq!(base_writes(&calls), [(4, vec![0])]);
    assert_eq!(last(&calls).fields().meta, [2, 0, 2, 1, 0]);
    assert_eq!(last(&calls).fields().page_in(0), Some(1));
}

#[test]
fn row_g_a_read_without_a_slot() {
    let calls = played("row-g.script");
    assert_eq!(calls[2].fields().meta, [1, 0, 1, 0, 1]);
    assert_eq!(dest(&calls[2]), &pattern(2048, 1)[512..1024]);
    assert_eq!(calls[1].after.recorder.state.slots, calls[2].after.recorder.state.slots);
    assert_eq!(last(&calls).fields().meta, [2, 1, 1, 0, 1]);
    assert_eq!(dest(last(&calls)), [1]);
}

#[test]
fn row_h_spans() {
    let calls = played("row-h.script");
    let sixes: Vec<usize> = (0..calls.len()).filter(|&i| calls[i].reply.number == 6).collect();
    assert_eq!(sixes, [2, 4, 6, 8, 11, 15, 17, 18, 19, 20, 21]);
    assert!(calls.iter().all(|played| [0, 6].contains(&played.reply.number)));
    assert_eq!(found(&calls[10]), (0, 0, &pattern(2048, 1)[..512]));
    assert_eq!(found(&calls[14]), (1, 512, &pattern(512, 9)[..]));
    assert_eq!(calls[13].after.buffers.marks.whole(), [1, 0, 0, 0]);
    assert_eq!(calls[8].fields().raw, [0, 0, 0, 0, 2], "one raw read and one raw write");
}

#[test]
fn row_i_the_checksum_of_nothing() {
    assert_eq!(::plain::hashlittle(&[], 0), 0xdead_beef);
    let calls = played("row-i.script");
    assert_eq!(calls[0].side()[28..32], [0xef, 0xbe, 0xad, 0xde]);
    assert_eq!(calls[1].side()[28..32], [0xef, 0xbe, 0xad, 0xde]);
    assert_ne!(calls[3].side()[28..32], [0xef, 0xbe, 0xad, 0xde]);
    let header = calls[1].side()[..28].to_vec();
    // mark, 0, version 1, L 3, P 512, closed tick 1, e 4, n 0, S 2, 0
    let must = [
        b'T', b'W', b'L', 0, 1, 0, 3, 0, 0, 2, 0, 0, 1, 0, 0, 0, 4, 0, 0, 0, 0, 0, 0, 0, 2, 0, 0, 0,
    ];
    assert_eq!(header, must);
}

/// The values in the comments of lookup3's own test driver.
#[test]
fn published_checksums() {
    let text = b"Four score and seven years ago";
    assert_eq!(::plain::hashlittle(text, 0), 0x1777_0551);
    assert_eq!(::plain::hashlittle(text, 1), 0xcd62_8161);
    assert_eq!(::plain::hashlittle(b"", 0xdead_beef), 0xbd5b_7dde);
}

#[test]
fn row_j_a_full_file_before_full_slots() {
    let calls = played("row-j.script");
    assert_eq!(answers(&calls), [0, 0, 8, 8, 5, 0, 0, 7, 0, 8]);
    assert_eq!(calls[8].fields().end, 3);
    assert_eq!(calls[8].after.buffers.kinds.whole(), [0, 0, 1]);
    assert_eq!(calls[8].base()[1024..1536], [0; 512]);
    assert_eq!(calls[8].fields().meta, [1, 0, 1, 0, 0]);
    assert_eq!(calls[8].fields().raw, [0; 5]);
}

#[test]
fn the_clause_that_failed() {
    let calls = played("clause.script");
    assert!(answers(&calls).iter().all(|&answer| answer == 0));
    assert_eq!(
        listings(&calls),
        ["tick 1 end 4 entries 1\n2 0 1\n", "tick 3 end 4 entries 1\n2 0 3\n"]
    );
    let refreshes: Vec<&Played> =
        calls.iter().filter(|played| played.call == Call::Refresh).collect();
    assert_eq!(sidelist_of_held(&refreshes[0].before.buffers.held.whole()[36..]), (2, 0, 1));
    assert_eq!(sidelist_of_held(&refreshes[0].after.buffers.held.whole()[36..]), (2, 0, 3));
    assert_eq!(refreshes[0].after.buffers.marks.whole(), [0, 0, 1, 0]);
    assert_eq!(refreshes[1].after.buffers.marks.whole(), [0, 0, 0, 0]);
    let reads: Vec<&Played> =
        calls.iter().filter(|played| played.call.word() == "deskread").collect();
    assert_eq!(found(reads[0]), (1, 522, &[1, 2][..]));
    assert_eq!(found(reads[1]), (1, 522, &[3, 4][..]));
}

/// page, place, last change of the first row
fn sidelist_of_held(row: &[u8]) -> (u32, u32, u32) {
    let word = |at: usize| u32::from_le_bytes([row[at], row[at + 1], row[at + 2], row[at + 3]]);
    (word(0), word(4), word(8))
}

#[test]
fn ends_of_ticks_and_counts() {
    let calls = played("ends.script");
    let last_tick = u32::MAX;
    assert_eq!(calls[2].reply.number, 9);
    assert_eq!(calls[8].after.recorder.state.closed, last_tick);
    assert_eq!(calls[11].after.buffers.marks.whole(), [0, 0, 0, 0]);
    let most = u64::from(last_tick);
    let meta: Vec<[u64; 5]> = calls[12..18].iter().map(|played| played.fields().meta).collect();
    assert_eq!(meta[0], [most, most, most, most, most - 1]);
    assert_eq!(meta[3], [most, most, most, most, most - 1]);
    assert_eq!(meta[4], [most; 5]);
    assert_eq!(meta[5], [most; 5]);
    assert_eq!(last(&calls).fields().raw, [1, 2, 3, 4, most]);
}

/// A side file that take refuses lists its refusal.
#[test]
fn refused_listings() {
    let calls = played("row-a.script");
    let side = last(&calls).side();
    assert_eq!(sidelist(plain(), &[]), "refused 11\n");
    assert_eq!(sidelist(plain(), &side[..35]), "refused 11\n");
    assert_eq!(sidelist(plain(), &side[..7679]), "refused 12\n");
    let longer = [side, &[9; 5]].concat();
    assert_eq!(sidelist(plain(), &longer), sidelist(plain(), side));
}
