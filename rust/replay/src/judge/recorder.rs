//! The causes of refusal of the recorder's five calls.

use super::causes::Cause;
use super::rules::{broken, broken_by_kinds};
use crate::buffers::{Buffers, Name};
use crate::fields::Fields;
use crate::layout::{CAPACITIES, LAST_TICK};
use crate::run::World;
use crate::script::Call;

/// The causes present, in the order of tests.
pub fn causes(call: &Call, world: &World) -> Vec<Cause> {
    if let Call::Open { settings, end, tick } = call {
        let asked = Fields {
            page_size: u64::from(settings.page_size),
            slot_count: u64::from(settings.slots),
            lag: u64::from(settings.lag),
            capacity: u64::from(settings.capacity),
            end: u64::from(*end),
            tick: u64::from(*tick),
            ..Fields::default()
        };
        return open_causes(&asked, &world.buffers);
    }
    match world.recorder.fields() {
        Some(fields) if world.recorder.is_expressible() && can_be_laid_out(&fields) => {
            state_causes(call, &fields, &world.buffers)
        }
        _ => vec![Cause::State],
    }
}

fn can_be_laid_out(fields: &Fields) -> bool {
    fields.layout().is_within_limits() && CAPACITIES.contains(&fields.capacity)
}

fn keep<const N: usize>(causes: [(Cause, bool); N]) -> Vec<Cause> {
    causes.into_iter().filter(|&(_, present)| present).map(|(cause, _)| cause).collect()
}

/// Without settings no buffer is too short.
fn open_causes(asked: &Fields, buffers: &Buffers) -> Vec<Cause> {
    let laid_out = can_be_laid_out(asked);
    let kinds = buffers.kinds.lent();
    let judged = kinds.len().min(asked.end as usize);
    keep([
        (Cause::Settings, !laid_out || asked.end > asked.capacity),
        (Cause::Short, laid_out && !shorts(asked, buffers).is_empty()),
        (Cause::Kind, kinds[..judged].iter().any(|&kind| kind > 1)),
    ])
}

/// The bytes each of the recorder's buffers must have.
pub fn needs(fields: &Fields) -> [(Name, u64); 4] {
    let layout = fields.layout();
    [
        (Name::Base, fields.capacity.saturating_mul(fields.page_size)),
        (Name::Side, layout.side_length()),
        (Name::Pages, layout.pages_length()),
        (Name::Kinds, fields.capacity),
    ]
}

/// The recorder's buffers that are lent too short, with the number of bytes they lack.
pub fn shorts(fields: &Fields, buffers: &Buffers) -> Vec<(Name, u64)> {
    needs(fields)
        .into_iter()
        .map(|(name, needed)| (name, needed.saturating_sub(buffers.get(name).lent().len() as u64)))
        .filter(|&(_, lacking)| lacking > 0)
        .collect()
}

fn state_causes(call: &Call, fields: &Fields, buffers: &Buffers) -> Vec<Cause> {
    let kinds = buffers.kinds.lent();
    let mut causes = keep([
        (Cause::State, !broken(fields).is_empty()),
        (Cause::Short, !shorts(fields, buffers).is_empty()),
        (Cause::Kinds, !broken_by_kinds(fields, kinds).is_empty()),
    ]);
    causes.extend(match call {
        Call::Read { page, offset, length } => {
            span_causes(fields, kinds, *page, *offset, *length, false)
        }
        Call::Write { page, offset, data } => {
            span_causes(fields, kinds, *page, *offset, data.len(), true)
        }
        Call::Grow { kind } => keep([
            (Cause::Kind, *kind > 1),
            (Cause::Full, fields.end == fields.capacity),
            (Cause::NoSlot, *kind == 0 && !has_room(fields)),
        ]),
        _ => keep([
            (Cause::LastTick, fields.tick == LAST_TICK),
            (Cause::NoRoom, lacks_room_to_close(fields)),
        ]),
    });
    causes
}

fn span_causes(
    fields: &Fields,
    kinds: &[u8],
    page: u32,
    offset: u32,
    length: usize,
    writes: bool,
) -> Vec<Cause> {
    let page = u64::from(page);
    let kind = kinds.get(page as usize).copied();
    let needs_slot = kind == Some(0) && fields.slot_of(page).is_none();
    keep([
        (Cause::Page, page >= fields.end),
        (Cause::Kind, kind.is_some_and(|kind| kind > 1)),
        (Cause::Span, length == 0 || u64::from(offset) + length as u64 > fields.page_size),
        (Cause::NoSlot, writes && needs_slot && !has_room(fields)),
    ])
}

/// Whether a slot is empty or clean.
pub fn has_room(fields: &Fields) -> bool {
    (0..fields.slot_count as usize).any(|slot| match fields.page_in(slot) {
        None => true,
        Some(page) => !fields.is_changed(slot) && !fields.owes(page),
    })
}

/// Refusal 10. Places that this close retires, and places of entries, are not there to be given.
fn lacks_room_to_close(fields: &Fields) -> bool {
    let changed = fields.changed_pages();
    let closes = fields.open_tick();
    let leaving = fields.entries.iter().filter(|entry| {
        !changed.contains(&entry.page) && fields.lagged(entry.last_change) + 1 == closes
    });
    let entering = changed.iter().filter(|&&page| fields.entry_of(page).is_none());
    let entries = fields.entries.len() - leaving.count() + entering.count();
    let kept = fields.retired.iter().filter(|retired| !fields.is_reusable(retired)).count();
    let taken = (fields.entries.len() + kept) as u64;
    let reusable = fields.layout().image_places().saturating_sub(taken);
    reusable < changed.len() as u64 || entries as u64 > fields.layout().index_entries()
}
