//! One call as coverage looks at it: what it was given, what it answered, what it left.

use crate::fields::Fields;
use crate::judge::{self, Cause, Extent, Fault};
use crate::run::{Reply, World};
use crate::script::Call;
use crate::sidefile::Header;

pub struct Step<'a> {
    pub call: &'a Call,
    pub reply: &'a Reply,
    pub before: &'a World,
    pub after: &'a World,
    /// The recorder's state before and after; none before any open.
    pub given: Option<Fields>,
    pub left: Option<Fields>,
    /// Why the call must be refused, by what it was given.
    pub causes: Vec<Cause>,
}

impl<'a> Step<'a> {
    pub fn new(call: &'a Call, reply: &'a Reply, before: &'a World, after: &'a World) -> Step<'a> {
        let (given, left) = (before.recorder.fields(), after.recorder.fields());
        Step { call, reply, before, after, given, left, causes: judge::causes(call, before) }
    }

    /// An answer to a state that no struct and ledger can hold says nothing about a version.
    pub fn counts(&self) -> bool {
        self.before.recorder.is_expressible() || self.is_open() || self.is_of_desk()
    }

    pub fn word(&self) -> &'static str {
        self.call.word()
    }

    pub fn number(&self) -> u32 {
        self.reply.number
    }

    pub fn accepted(&self) -> bool {
        self.reply.number == 0
    }

    /// Whether the call was refused with the number of this cause, and no other cause is present.
    pub fn refused_only(&self, cause: Cause) -> bool {
        self.number() == cause.number() && self.causes == [cause]
    }

    pub fn is_open(&self) -> bool {
        matches!(self.call, Call::Open { .. })
    }

    pub fn is_of_desk(&self) -> bool {
        matches!(self.call, Call::Take | Call::Refresh | Call::DeskRead { .. })
    }

    /// The state before and after an accepted recorder call other than open.
    pub fn worked(&self) -> Option<(&Fields, &Fields)> {
        if !self.accepted() || self.is_open() || self.is_of_desk() {
            return None;
        }
        self.given.as_ref().zip(self.left.as_ref())
    }

    /// The page that a read, write or desk read names, with offset and length.
    pub fn span(&self) -> Option<(u32, u32, u64)> {
        match *self.call {
            Call::Read { page, offset, length } => Some((page, offset, length as u64)),
            Call::Write { page, offset, ref data } => Some((page, offset, data.len() as u64)),
            Call::DeskRead { page, offset, length } => Some((page, offset, u64::from(length))),
            _ => None,
        }
    }

    /// The header of the side file, as lent.
    pub fn side_header(&self) -> Option<Header> {
        Header::decode(self.before.buffers.side.lent())
    }

    /// The header of the held buffer, as lent.
    pub fn held_header(&self) -> Option<Header> {
        Header::decode(self.before.buffers.held.lent())
    }

    /// The tests of 11 and 12 that the side file fails, of those this desk call makes.
    pub fn side_faults(&self) -> Vec<Fault> {
        let extent = match self.call {
            Call::DeskRead { .. } => Extent::HeaderAndLength,
            _ => Extent::Whole,
        };
        let mut faults = judge::faults(self.before.buffers.side.lent(), extent);
        if *self.call != Call::Take {
            let headers = self.side_header().zip(self.held_header());
            faults.extend(headers.iter().flat_map(|(new, old)| judge::differences(new, old)));
        }
        faults
    }

    /// The tests that the held buffer fails.
    pub fn held_faults(&self) -> Vec<Fault> {
        judge::faults(self.before.buffers.held.lent(), Extent::Held)
    }
}
