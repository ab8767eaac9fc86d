//! The causes of refusal of the desk's three calls.

use plain::hashlittle;

use super::causes::Cause;
use super::faults::{differences, faults, Extent, Fault};
use crate::buffers::Buffers;
use crate::script::Call;
use crate::sidefile::{rows, Header};

/// The causes present, in the order of tests.
pub fn causes(call: &Call, buffers: &Buffers) -> Vec<Cause> {
    match call {
        Call::Take => take_causes(buffers),
        Call::Refresh => refresh_causes(buffers),
        Call::DeskRead { page, offset, length } => read_causes(buffers, *page, *offset, *length),
        _ => Vec::new(),
    }
}

fn keep<const N: usize>(causes: [(Cause, bool); N]) -> Vec<Cause> {
    causes.into_iter().filter(|&(_, present)| present).map(|(cause, _)| cause).collect()
}

fn has(faults: &[Fault], number: u32) -> bool {
    faults.iter().any(|fault| fault.number() == number)
}

fn take_causes(buffers: &Buffers) -> Vec<Cause> {
    let side = buffers.side.lent();
    let faults = faults(side, Extent::Whole);
    let needed = Header::decode(side)
        .map(|header| header.layout())
        .filter(|layout| layout.is_within_limits());
    let short =
        needed.is_some_and(|layout| (buffers.held.lent().len() as u64) < layout.held_length());
    keep([
        (Cause::NotSide, has(&faults, 11)),
        (Cause::Damaged, has(&faults, 12)),
        (Cause::Short, short),
    ])
}

/// What refresh and read share: the held buffer, the side file to the given extent, and the two
/// ticks.
fn common_causes(buffers: &Buffers, extent: Extent) -> Vec<Cause> {
    let (side, held) = (buffers.side.lent(), buffers.held.lent());
    let mut side_faults = faults(side, extent);
    let headers = Header::decode(side).zip(Header::decode(held));
    if let Some((new, old)) = &headers {
        side_faults.extend(differences(new, old));
    }
    keep([
        (Cause::State, !faults(held, Extent::Held).is_empty()),
        (Cause::NotSide, has(&side_faults, 11)),
        (Cause::Damaged, has(&side_faults, 12)),
        (Cause::Lag, headers.is_some_and(|(new, old)| is_too_far(&new, &old))),
    ])
}

fn is_too_far(side: &Header, held: &Header) -> bool {
    let latest = u64::from(held.closed) + u64::from(held.lag);
    side.closed < held.closed || u64::from(side.closed) > latest
}

fn refresh_causes(buffers: &Buffers) -> Vec<Cause> {
    let marks = buffers.marks.lent().len() as u64;
    let short = Header::decode(buffers.side.lent()).is_some_and(|new| marks < u64::from(new.end));
    let mut causes = common_causes(buffers, Extent::Whole);
    causes.extend(keep([(Cause::Short, short)]));
    causes
}

fn read_causes(buffers: &Buffers, page: u32, offset: u32, length: u32) -> Vec<Cause> {
    let mut causes = common_causes(buffers, Extent::HeaderAndLength);
    if let Some(held) = Header::decode(buffers.held.lent()) {
        let needed = u64::from(held.page_size) * u64::from(held.end);
        let end = u64::from(offset) + u64::from(length);
        causes.extend(keep([
            (Cause::Short, (buffers.base.lent().len() as u64) < needed),
            (Cause::Page, page >= held.end),
            (Cause::Span, length == 0 || end > u64::from(held.page_size)),
            (Cause::Image, !causes.contains(&Cause::State) && has_bad_image(buffers, &held, page)),
        ]));
    }
    causes
}

/// Whether the held index sends the page to an image of another checksum. The held settings lay out
/// the side file; where that is too short for the image, there is none to judge.
fn has_bad_image(buffers: &Buffers, held: &Header, page: u32) -> bool {
    let rows = rows(buffers.held.lent(), held.count);
    let Some(row) = rows.iter().find(|row| row.page == page) else {
        return false;
    };
    let start = held.layout().image_offset(u64::from(row.place)) as usize;
    let image = buffers.side.lent().get(start..start + held.page_size as usize);
    image.is_some_and(|image| hashlittle(image, 0) != row.checksum)
}
