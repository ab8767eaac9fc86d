//! Header and index of a side file or a held buffer, taken apart and put together. Nothing is
//! judged here: forged files are made and looked into with it.

use crate::layout::Layout;

pub const HEADER: usize = 36;
pub const ROW: usize = 16;
pub const MARK: [u8; 3] = *b"TWL";
pub const VERSION: u16 = 1;

/// The 36 bytes, field by field.
#[derive(Clone, Debug, PartialEq, Eq)]
pub struct Header {
    pub mark: [u8; 3],
    pub byte3: u8,
    pub version: u16,
    pub lag: u16,
    pub page_size: u32,
    pub closed: u32,
    pub end: u32,
    pub count: u32,
    pub slot_count: u16,
    pub zero: u16,
    pub index_sum: u32,
    pub header_sum: u32,
}

/// One index entry.
#[derive(Clone, Copy, Debug, Default, PartialEq, Eq)]
pub struct Row {
    pub page: u32,
    pub place: u32,
    pub last_change: u32,
    pub checksum: u32,
}

impl Header {
    /// The header at the start of `bytes`; none if they are too few.
    pub fn decode(bytes: &[u8]) -> Option<Header> {
        if bytes.len() < HEADER {
            return None;
        }
        Some(Header {
            mark: [bytes[0], bytes[1], bytes[2]],
            byte3: bytes[3],
            version: half(bytes, 4),
            lag: half(bytes, 6),
            page_size: word(bytes, 8),
            closed: word(bytes, 12),
            end: word(bytes, 16),
            count: word(bytes, 20),
            slot_count: half(bytes, 24),
            zero: half(bytes, 26),
            index_sum: word(bytes, 28),
            header_sum: word(bytes, 32),
        })
    }

    pub fn encode(&self) -> Vec<u8> {
        let mut bytes = Vec::with_capacity(HEADER);
        bytes.extend(self.mark);
        bytes.push(self.byte3);
        bytes.extend(self.version.to_le_bytes());
        bytes.extend(self.lag.to_le_bytes());
        for number in [self.page_size, self.closed, self.end, self.count] {
            bytes.extend(number.to_le_bytes());
        }
        bytes.extend(self.slot_count.to_le_bytes());
        bytes.extend(self.zero.to_le_bytes());
        bytes.extend(self.index_sum.to_le_bytes());
        bytes.extend(self.header_sum.to_le_bytes());
        bytes
    }

    pub fn layout(&self) -> Layout {
        Layout {
            page_size: u64::from(self.page_size),
            slot_count: u64::from(self.slot_count),
            lag: u64::from(self.lag),
        }
    }
}

impl Row {
    pub fn encode(self) -> [u8; ROW] {
        let mut bytes = [0; ROW];
        for (at, number) in
            [self.page, self.place, self.last_change, self.checksum].into_iter().enumerate()
        {
            bytes[4 * at..4 * at + 4].copy_from_slice(&number.to_le_bytes());
        }
        bytes
    }
}

/// The first `count` entries of the index, as far as the bytes go.
pub fn rows(bytes: &[u8], count: u32) -> Vec<Row> {
    let index = bytes.get(HEADER..).unwrap_or(&[]);
    index.chunks_exact(ROW).take(count as usize).map(row).collect()
}

fn row(bytes: &[u8]) -> Row {
    Row {
        page: word(bytes, 0),
        place: word(bytes, 4),
        last_change: word(bytes, 8),
        checksum: word(bytes, 12),
    }
}

fn half(bytes: &[u8], at: usize) -> u16 {
    u16::from_le_bytes([bytes[at], bytes[at + 1]])
}

fn word(bytes: &[u8], at: usize) -> u32 {
    u32::from_le_bytes([bytes[at], bytes[at + 1], bytes[at + 2], bytes[at + 3]])
}
