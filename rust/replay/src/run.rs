//! Plays the items of a script, one after the other, on one version of the layer.

use crate::buffers::{Buffer, Buffers};
use crate::pattern::pattern;
use crate::recorder::Recorder;
use crate::script::{Call, Item};
use crate::version::{Answer, Lent, RecorderCalls, Settings, State, Version};

/// What stands in the slice of a recorder read before the call.
const UNREAD: u8 = 0xee;

/// The refusal of a state that struct and ledger cannot hold.
const BROKEN_STATE: u32 = 3;

/// Everything a call is given and leaves: the six buffers and the recorder's state.
#[derive(Clone, Debug, Default, PartialEq, Eq)]
pub struct World {
    pub buffers: Buffers,
    pub recorder: Recorder,
}

/// A call's answer, and what it hands to its caller beside it.
#[derive(Clone, Debug, PartialEq, Eq)]
pub struct Reply {
    pub number: u32,
    /// The state that a recorder's call answered, refused or not; none from the desk, or where no call was made.
    pub state: Option<State>,
    pub handed: Handed,
}

#[derive(Clone, Debug, PartialEq, Eq)]
pub enum Handed {
    Nothing,
    /// The slice of a recorder read.
    Dest(Vec<u8>),
    /// The part that a desk read found.
    Found {
        source: u32,
        offset: usize,
        bytes: Vec<u8>,
    },
}

/// A version and the world it has worked on so far.
pub struct Machine {
    pub version: Version,
    pub world: World,
}

impl Machine {
    pub fn new(version: Version) -> Machine {
        Machine { version, world: World::default() }
    }

    /// Plays one item: a reply if it is a call, a message if a preparing line asks for what cannot
    /// be.
    pub fn play(&mut self, item: &Item) -> Result<Option<Reply>, String> {
        let buffers = &mut self.world.buffers;
        match item {
            Item::Buffer { name, length, seed } => {
                *buffers.get_mut(*name) = Buffer::new(pattern(*length, *seed))
            }
            Item::Lend { name, length } => buffers.get_mut(*name).lend(*length)?,
            Item::Poke { name, offset, data } => buffers.get_mut(*name).poke(*offset, data)?,
            Item::State(fields) => self.world.recorder.set(fields.as_ref().clone()),
            Item::Call(call) => return Ok(Some(self.call(call))),
        }
        Ok(None)
    }

    /// Makes one call.
    pub fn call(&mut self, call: &Call) -> Reply {
        match *call {
            Call::Open { settings, end, tick } => reply(self.open(settings, end, tick)),
            Call::Read { page, offset, length } => {
                let mut dest = vec![UNREAD; length];
                let answer = self.with_state(|recorder, state, lent| {
                    recorder.read(state, lent, page, offset, &mut dest)
                });
                Reply { handed: Handed::Dest(dest), ..reply(answer) }
            }
            Call::Write { page, offset, ref data } => {
                reply(self.with_state(|recorder, state, lent| {
                    recorder.write(state, lent, page, offset, data)
                }))
            }
            Call::Grow { kind } => {
                reply(self.with_state(|recorder, state, lent| recorder.grow(state, lent, kind)))
            }
            Call::Close => {
                reply(self.with_state(|recorder, state, lent| recorder.close(state, lent)))
            }
            Call::Take => desk_reply(self.take()),
            Call::Refresh => desk_reply(self.refresh()),
            Call::DeskRead { page, offset, length } => self.desk_read(page, offset, length),
        }
    }

    /// A refused open keeps the state there was.
    fn open(&mut self, settings: Settings, end: u32, tick: u32) -> Option<Answer> {
        let (_, lent) = &mut lend(&mut self.world);
        let answer = self.version.recorder.open(settings, end, tick, lent);
        if answer.number == 0 {
            self.world.recorder.opened(answer.state);
        }
        Some(answer)
    }

    /// The other recorder calls hand a state back also where they refuse; it is taken over as it
    /// comes, so that a refusal which changes it shows. No call is made with a state that struct and ledger cannot hold.
    fn with_state(
        &mut self,
        call: impl FnOnce(&dyn RecorderCalls, State, &mut Lent) -> Answer,
    ) -> Option<Answer> {
        if !self.world.recorder.is_expressible() {
            return None;
        }
        let (state, mut lent) = lend(&mut self.world);
        let answer = call(self.version.recorder, state, &mut lent);
        self.world.recorder.answered(answer.state);
        Some(answer)
    }

    fn take(&mut self) -> u32 {
        let Buffers { side, held, .. } = &mut self.world.buffers;
        self.version.desk.take(side.lent(), held.lent_mut())
    }

    fn refresh(&mut self) -> u32 {
        let Buffers { side, held, marks, .. } = &mut self.world.buffers;
        self.version.desk.refresh(side.lent(), held.lent_mut(), marks.lent_mut())
    }

    fn desk_read(&mut self, page: u32, offset: u32, length: u32) -> Reply {
        let Buffers { base, side, held, .. } = &self.world.buffers;
        let found =
            self.version.desk.read(side.lent(), base.lent(), held.lent(), page, offset, length);
        let handed = Handed::Found {
            source: found.source,
            offset: found.offset,
            bytes: found.bytes.to_vec(),
        };
        Reply { handed, ..desk_reply(found.number) }
    }
}

/// The reply of a recorder's call, if it was made.
fn reply(answer: Option<Answer>) -> Reply {
    let number = answer.map_or(BROKEN_STATE, |answer| answer.number);
    Reply { number, state: answer.map(|answer| answer.state), handed: Handed::Nothing }
}

fn desk_reply(number: u32) -> Reply {
    Reply { number, state: None, handed: Handed::Nothing }
}

/// The state by value and everything that is lent to a recorder call.
fn lend(world: &mut World) -> (State, Lent<'_>) {
    let World { buffers, recorder } = world;
    let lent = Lent {
        ledger: &mut recorder.ledger,
        base: buffers.base.lent_mut(),
        side: buffers.side.lent_mut(),
        pages: buffers.pages.lent_mut(),
        kinds: buffers.kinds.lent_mut(),
    };
    (recorder.state, lent)
}
