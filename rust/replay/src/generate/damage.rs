//! Gives a made-up header and index one fault of 11 or 12 and makes the checksums right again, so
//! that no other test fails with it.

use super::random::Random;
use super::side_model::SideModel;
use crate::judge::Fault;

/// Adds the fault: whether it could. Lengths and settings other than the held ones are arranged
/// elsewhere.
pub fn damage(random: &mut Random, fault: Fault, model: &mut SideModel) -> bool {
    let header = &mut model.header;
    match fault {
        Fault::Mark => header.mark[random.below(3) as usize] ^= 0x20,
        Fault::Byte3 => header.byte3 = *random.pick(&[1, 128]),
        Fault::Version => header.version = *random.pick(&[0, 2, 256, 257]),
        Fault::PageSize => header.page_size = *random.pick(&[0, 256, 511, 8192, u32::MAX]),
        Fault::SlotCount => header.slot_count = *random.pick(&[0, 17, u16::MAX]),
        Fault::Lag => header.lag = *random.pick(&[0, 2, 9, u16::MAX]),
        Fault::Bytes26And27 => header.zero = *random.pick(&[1, 256]),
        Fault::End => header.end = *random.pick(&[65_536, u32::MAX]),
        _ => return damage_index(random, fault, model),
    }
    model.seal_header();
    true
}

fn damage_index(random: &mut Random, fault: Fault, model: &mut SideModel) -> bool {
    match fault {
        Fault::HeaderSum => model.header.header_sum ^= 1 << random.below(32),
        Fault::IndexSum => {
            model.header.index_sum ^= 1 << random.below(32);
            model.seal_header();
        }
        Fault::Count => {
            let most = model.header.layout().index_entries() as u32;
            model.header.count = *random.pick(&[most + 1, u32::MAX]);
            model.seal_header();
        }
        Fault::Spare => return damage_spare(random, model),
        _ => {
            let damaged = damage_rows(random, fault, model);
            model.seal();
            return damaged;
        }
    }
    true
}

fn damage_spare(random: &mut Random, model: &mut SideModel) -> bool {
    let at = random.below(model.spare.len() as u64) as usize;
    match model.spare.get_mut(at) {
        Some(byte) => *byte = 1,
        None => return false,
    }
    true
}

fn damage_rows(random: &mut Random, fault: Fault, model: &mut SideModel) -> bool {
    let most = model.header.layout().image_places() as u32;
    let header = &model.header;
    let rows = &mut model.rows;
    match (fault, rows.as_mut_slice()) {
        (Fault::Ascent, [first, second, ..]) if random.one_in(2) => second.page = first.page,
        (Fault::Ascent, [.., first, second]) => std::mem::swap(first, second),
        (Fault::PageNotBelowEnd, [.., last]) => last.page = *random.pick(&[header.end, u32::MAX]),
        (Fault::PlaceNotBelowM, [first, ..]) => first.place = *random.pick(&[most, u32::MAX]),
        (Fault::PlaceTwice, [first, .., last]) => last.place = first.place,
        (Fault::LastChange, [first, ..]) if header.closed < u32::MAX => {
            first.last_change = header.closed + 1
        }
        _ => return false,
    }
    true
}
