//! Spans: the part of a page that a read or write names by offset and length.

use std::ops::Range;

use crate::refusal::SPAN;

/// The bytes of a span in its page, or the refusal of an empty one or one past the page's end. The
/// sum is wide, so no offset wraps back into the page.
pub(crate) fn in_page(page_size: u32, offset: u32, length: u64) -> Result<Range<usize>, u32> {
    let end = u64::from(offset).saturating_add(length);
    if length == 0 || end > u64::from(page_size) {
        return Err(SPAN);
    }
    Ok(offset as usize..end as usize)
}

/// The same bytes counted from `start`, where the page begins.
pub(crate) fn from(start: usize, span: &Range<usize>) -> Range<usize> {
    start + span.start..start + span.end
}
