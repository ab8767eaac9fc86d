//! A side file made by hand: header, index and images, with any number of entries.

pub const PAGE: u32 = 4096;
pub const HELD: usize = 2340;
const SLOTS: u32 = 16;
const LAG: u32 = 8;
const ENTRIES: usize = 144;
const PLACES: usize = 272;

fn put16(bytes: &mut [u8], at: usize, v: u32) {
    bytes[at..at + 2].copy_from_slice(&(v as u16).to_le_bytes());
}

fn put32(bytes: &mut [u8], at: usize, v: u32) {
    bytes[at..at + 4].copy_from_slice(&v.to_le_bytes());
}

/// The file at the close of tick 9, with so many pages: entry i is of page 2 i, in place i.
pub fn file(page_size: u32, end: u32, n: u32) -> Vec<u8> {
    assert!(n as usize <= ENTRIES && 2 * n <= end);
    let page = page_size as usize;
    let first_image = HELD.div_ceil(page) * page;
    let mut side = vec![0u8; first_image + PLACES * page];
    side[..3].copy_from_slice(b"TWL");
    put16(&mut side, 4, 1);
    put16(&mut side, 6, LAG);
    put32(&mut side, 8, page_size);
    put32(&mut side, 12, 9);
    put32(&mut side, 16, end);
    put32(&mut side, 20, n);
    put16(&mut side, 24, SLOTS);
    for i in 0..n {
        let image = first_image + i as usize * page;
        side[image..image + page].fill(i as u8);
        let sum = plain::hashlittle(&side[image..image + page], 0);
        let row = 36 + 16 * i as usize;
        for (column, v) in [2 * i, i, 1 + i % 9, sum].into_iter().enumerate() {
            put32(&mut side, row + 4 * column, v);
        }
    }
    let rows = plain::hashlittle(&side[36..36 + 16 * n as usize], 0);
    put32(&mut side, 28, rows);
    let header = plain::hashlittle(&side[..32], 0);
    put32(&mut side, 32, header);
    side
}
