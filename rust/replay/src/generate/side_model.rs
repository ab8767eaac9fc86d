//! Header and index of a side file, made up: a good one of chosen settings and tick, to be written
//! over the side file or into the held buffer, whole or with one fault.

use plain::hashlittle;

use super::random::Random;
use crate::layout::Layout;
use crate::sidefile::{Header, Row, HEADER, MARK, ROW, VERSION};

#[derive(Clone, Debug)]
pub struct SideModel {
    pub header: Header,
    pub rows: Vec<Row>,
    /// Bytes from the end of the entries to the end of the index.
    pub spare: Vec<u8>,
}

impl SideModel {
    /// A good header and index. The checksums of the entries are those of the images in `side`.
    pub fn good(
        random: &mut Random,
        layout: Layout,
        closed: u32,
        end: u32,
        side: &[u8],
    ) -> SideModel {
        let pages = some_pages(random, layout, end);
        let mut places: Vec<u64> = (0..layout.image_places()).collect();
        random.shuffle(&mut places);
        let rows = pages
            .into_iter()
            .zip(places)
            .map(|(page, place)| Row {
                page,
                place: place as u32,
                last_change: closed.saturating_sub(random.below(layout.lag + 2) as u32),
                checksum: image_sum(side, layout, place),
            })
            .collect();
        SideModel::of(layout, closed, end, rows)
    }

    /// Header and index with these entries.
    pub fn of(layout: Layout, closed: u32, end: u32, rows: Vec<Row>) -> SideModel {
        let header = Header {
            mark: MARK,
            byte3: 0,
            version: VERSION,
            lag: layout.lag as u16,
            page_size: layout.page_size as u32,
            closed,
            end,
            count: rows.len() as u32,
            slot_count: layout.slot_count as u16,
            zero: 0,
            index_sum: 0,
            header_sum: 0,
        };
        let spare = vec![0; (layout.index_entries() as usize - rows.len()) * ROW];
        let mut model = SideModel { header, rows, spare };
        model.seal();
        model
    }

    /// Makes both checksums right.
    pub fn seal(&mut self) {
        self.header.index_sum = hashlittle(&self.entry_bytes(), 0);
        self.seal_header();
    }

    /// Makes the header's checksum right.
    pub fn seal_header(&mut self) {
        self.header.header_sum = hashlittle(&self.header.encode()[..HEADER - 4], 0);
    }

    fn entry_bytes(&self) -> Vec<u8> {
        self.rows.iter().flat_map(|row| row.encode()).collect()
    }

    pub fn bytes(&self) -> Vec<u8> {
        let mut bytes = self.header.encode();
        bytes.extend(self.entry_bytes());
        bytes.extend(&self.spare);
        bytes
    }
}

/// Pages for the entries, ascending: as many as there can be, or a few; the last page often.
fn some_pages(random: &mut Random, layout: Layout, end: u32) -> Vec<u32> {
    let most = layout.index_entries().min(u64::from(end));
    let count = if random.one_in(4) { most } else { random.between(0, most.min(4)) };
    let mut pages: Vec<u32> = (0..end.min(200)).collect();
    random.shuffle(&mut pages);
    pages.truncate(count as usize);
    pages.sort_unstable();
    if let (Some(last), true) = (pages.last_mut(), random.one_in(2)) {
        *last = end - 1;
    }
    pages
}

/// The checksum of an image place.
fn image_sum(side: &[u8], layout: Layout, place: u64) -> u32 {
    let start = layout.image_offset(place) as usize;
    side.get(start..start + layout.page_size as usize).map_or(0, |image| hashlittle(image, 0))
}
