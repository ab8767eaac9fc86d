//! The tests of refusals 11 and 12, each by name: which of them a side file or a held buffer fails.

use plain::hashlittle;

use crate::layout::{Layout, LAGS, PAGE_SIZES, SLOT_COUNTS};
use crate::sidefile::{rows, Header, Row, HEADER, MARK, ROW, VERSION};

/// The largest e that a header may name.
const MOST_PAGES: u32 = 65_535;

#[derive(Clone, Copy, Debug, PartialEq, Eq)]
pub enum Fault {
    Under36,
    Mark,
    Byte3,
    Version,
    HeaderSum,
    PageSize,
    SlotCount,
    Lag,
    Bytes26And27,
    TooShort,
    End,
    Count,
    Ascent,
    PageNotBelowEnd,
    PlaceNotBelowM,
    PlaceTwice,
    LastChange,
    Spare,
    IndexSum,
    OtherLag,
    OtherPageSize,
    OtherSlotCount,
}

impl Fault {
    /// Those of the header; under 36 bytes there is none.
    pub const HEADER: [Fault; 11] = [
        Fault::Under36,
        Fault::Mark,
        Fault::Byte3,
        Fault::Version,
        Fault::HeaderSum,
        Fault::PageSize,
        Fault::SlotCount,
        Fault::Lag,
        Fault::Bytes26And27,
        Fault::End,
        Fault::Count,
    ];
    /// Those of the index.
    pub const INDEX: [Fault; 7] = [
        Fault::Ascent,
        Fault::PageNotBelowEnd,
        Fault::PlaceNotBelowM,
        Fault::PlaceTwice,
        Fault::LastChange,
        Fault::Spare,
        Fault::IndexSum,
    ];
    /// Settings other than the held ones.
    pub const OTHER: [Fault; 3] = [Fault::OtherLag, Fault::OtherPageSize, Fault::OtherSlotCount];

    /// The refusal, where a side file has the fault.
    pub fn number(self) -> u32 {
        match self {
            Fault::Under36 | Fault::Mark | Fault::Byte3 | Fault::Version => 11,
            _ => 12,
        }
    }

    pub fn name(self) -> &'static str {
        match self {
            Fault::Under36 => "under 36 bytes",
            Fault::Mark => "mark",
            Fault::Byte3 => "byte 3",
            Fault::Version => "version",
            Fault::HeaderSum => "header checksum",
            Fault::PageSize => "page size outside its limits",
            Fault::SlotCount => "number of slots outside its limits",
            Fault::Lag => "lag outside its limits",
            Fault::Bytes26And27 => "bytes 26-27",
            Fault::TooShort => "too short",
            Fault::End => "e above 65535",
            Fault::Count => "more than X entries",
            Fault::Ascent => "an entry not ascending",
            Fault::PageNotBelowEnd => "an entry not below e",
            Fault::PlaceNotBelowM => "a place not below M",
            Fault::PlaceTwice => "a place used twice",
            Fault::LastChange => "a last change above the closed tick",
            Fault::Spare => "a spare entry not zero",
            Fault::IndexSum => "index checksum",
            Fault::OtherLag => "lag not the held one",
            Fault::OtherPageSize => "page size not the held one",
            Fault::OtherSlotCount => "number of slots not the held one",
        }
    }
}

/// How much of the bytes is judged.
#[derive(Clone, Copy, Debug, PartialEq, Eq)]
pub enum Extent {
    /// A side file with its index: take and refresh.
    Whole,
    /// A side file's header and length: desk read.
    HeaderAndLength,
    /// A held buffer: header, index, and a length of its own.
    Held,
}

/// The faults present. Where one makes others meaningless, those are left out: without a header
/// there is nothing to look at; without settings no length and no index; without a count or the
/// bytes no index.
pub fn faults(bytes: &[u8], extent: Extent) -> Vec<Fault> {
    let Some(header) = Header::decode(bytes) else {
        return vec![Fault::Under36];
    };
    let layout = header.layout();
    let mut faults = header_faults(bytes, &header);
    if !layout.is_within_limits() {
        return faults;
    }
    let needed = if extent == Extent::Held { layout.held_length() } else { layout.side_length() };
    let length = bytes.len() as u64;
    faults.extend(keep([
        (Fault::TooShort, length < needed),
        (Fault::End, header.end > MOST_PAGES),
        (Fault::Count, u64::from(header.count) > layout.index_entries()),
    ]));
    if extent != Extent::HeaderAndLength
        && !faults.contains(&Fault::Count)
        && length >= layout.held_length()
    {
        faults.extend(index_faults(bytes, &header, layout));
    }
    faults
}

fn keep<const N: usize>(faults: [(Fault, bool); N]) -> Vec<Fault> {
    faults.into_iter().filter(|&(_, present)| present).map(|(fault, _)| fault).collect()
}

fn header_faults(bytes: &[u8], header: &Header) -> Vec<Fault> {
    let layout = header.layout();
    keep([
        (Fault::Mark, header.mark != MARK),
        (Fault::Byte3, header.byte3 != 0),
        (Fault::Version, header.version != VERSION),
        (Fault::HeaderSum, header.header_sum != hashlittle(&bytes[..HEADER - 4], 0)),
        (Fault::PageSize, !PAGE_SIZES.contains(&layout.page_size)),
        (Fault::SlotCount, !SLOT_COUNTS.contains(&layout.slot_count)),
        (Fault::Lag, !LAGS.contains(&layout.lag)),
        (Fault::Bytes26And27, header.zero != 0),
    ])
}

fn index_faults(bytes: &[u8], header: &Header, layout: Layout) -> Vec<Fault> {
    let rows = rows(bytes, header.count);
    let index_end = HEADER + ROW * rows.len();
    let any = |broken: &dyn Fn(&Row) -> bool| rows.iter().any(broken);
    let mut places: Vec<u32> = rows.iter().map(|row| row.place).collect();
    places.sort_unstable();
    keep([
        (Fault::Ascent, rows.windows(2).any(|pair| pair[0].page >= pair[1].page)),
        (Fault::PageNotBelowEnd, any(&|row| row.page >= header.end)),
        (Fault::PlaceNotBelowM, any(&|row| u64::from(row.place) >= layout.image_places())),
        (Fault::PlaceTwice, places.windows(2).any(|pair| pair[0] == pair[1])),
        (Fault::LastChange, any(&|row| row.last_change > header.closed)),
        (
            Fault::Spare,
            bytes[index_end..layout.held_length() as usize].iter().any(|&byte| byte != 0),
        ),
        (Fault::IndexSum, header.index_sum != hashlittle(&bytes[HEADER..index_end], 0)),
    ])
}

/// The settings in which a side file differs from the held ones. Settings outside their limits
/// always do, and have their own faults.
pub fn differences(side: &Header, held: &Header) -> Vec<Fault> {
    if !side.layout().is_within_limits() {
        return Vec::new();
    }
    keep([
        (Fault::OtherLag, side.lag != held.lag),
        (Fault::OtherPageSize, side.page_size != held.page_size),
        (Fault::OtherSlotCount, side.slot_count != held.slot_count),
    ])
}
