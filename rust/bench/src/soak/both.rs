//! A recording on both versions in step: each call is made on both, and what they answer, hand out and leave must be equal to
//! the last byte. A refused call must hand back the state it was given.

use plain::{ledger_length, side_length};
use replay::compare::Named;
use replay::version::{Answer, Lent, RecorderCalls, Settings, State};

pub struct Files {
    pub ledger: Vec<u8>,
    pub base: Vec<u8>,
    pub side: Vec<u8>,
    pages: Vec<u8>,
    pub kinds: Vec<u8>,
}

impl Files {
    fn new(settings: Settings, base: Vec<u8>, kinds: Vec<u8>) -> Files {
        let size = settings.page_size as usize;
        Files {
            ledger: vec![0; ledger_length(settings)],
            base,
            side: vec![0; side_length(settings)],
            pages: vec![0; settings.slots as usize * size],
            kinds,
        }
    }

    fn lent(&mut self) -> Lent<'_> {
        let Files { ledger, base, side, pages, kinds } = self;
        Lent { ledger, base, side, pages, kinds }
    }

    /// The first of the slices in which two sets differ, and the byte.
    fn differs(&self, other: &Files) -> Option<String> {
        let slices = [
            ("ledger", &self.ledger, &other.ledger),
            ("base", &self.base, &other.base),
            ("side", &self.side, &other.side),
            ("buffer", &self.pages, &other.pages),
            ("kinds", &self.kinds, &other.kinds),
        ];
        slices.into_iter().filter(|(_, one, two)| one != two).map(|(name, one, two)| at(name, one, two)).next()
    }
}

/// Where two slices differ.
pub fn at(name: &str, one: &[u8], two: &[u8]) -> String {
    let byte = one.iter().zip(two).position(|(one, two)| one != two);
    format!("{name} differs at byte {byte:?}")
}

pub struct Both {
    pub versions: [Named; 2],
    pub files: [Files; 2],
    pub state: State,
}

impl Both {
    pub fn open(
        versions: [Named; 2],
        settings: Settings,
        tick: u32,
        (base, kinds): (Vec<u8>, Vec<u8>),
        end: u32,
    ) -> Result<Both, String> {
        let files = [(); 2].map(|()| Files::new(settings, base.clone(), kinds.clone()));
        let mut both = Both { versions, files, state: State::default() };
        let number = both.call(|recorder, _, lent| (recorder.open(settings, end, tick, lent), Vec::new()))?.0;
        if number == 0 {
            Ok(both)
        } else {
            Err(format!("open is refused by {number}"))
        }
    }

    /// Makes a call on both. Its number, and the bytes that it handed out.
    pub fn call(
        &mut self,
        call: impl Fn(&dyn RecorderCalls, State, &mut Lent) -> (Answer, Vec<u8>),
    ) -> Result<(u32, Vec<u8>), String> {
        let [one, two] = [0, 1].map(|i| {
            let recorder = self.versions[i].version.recorder;
            call(recorder, self.state, &mut self.files[i].lent())
        });
        if one != two {
            return Err(format!("the answers differ: {one:?} and {two:?}"));
        }
        if let Some(place) = self.files[0].differs(&self.files[1]) {
            return Err(place);
        }
        let (Answer { number, state }, handed) = one;
        if number != 0 && state != self.state && self.state != State::default() {
            return Err(format!("a call refused by {number} changed the state"));
        }
        self.state = state;
        Ok((number, handed))
    }
}
