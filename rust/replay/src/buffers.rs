//! The six lent buffers of a script: their whole bytes, and how much of each is lent from now on.

/// The name of a buffer.
#[derive(Clone, Copy, Debug, PartialEq, Eq, PartialOrd, Ord)]
pub enum Name {
    Base,
    Side,
    Pages,
    Kinds,
    Held,
    Marks,
}

impl Name {
    /// All names, in the order of an output line.
    pub const ALL: [Name; 6] =
        [Name::Base, Name::Side, Name::Pages, Name::Kinds, Name::Held, Name::Marks];

    pub fn word(self) -> &'static str {
        match self {
            Name::Base => "base",
            Name::Side => "side",
            Name::Pages => "pages",
            Name::Kinds => "kinds",
            Name::Held => "held",
            Name::Marks => "marks",
        }
    }

    pub fn parse(word: &str) -> Result<Name, String> {
        Name::ALL
            .into_iter()
            .find(|name| name.word() == word)
            .ok_or_else(|| format!("no buffer is named '{word}'"))
    }
}

/// A buffer, of which the first `lent` bytes are handed to the calls.
#[derive(Clone, Debug, Default, PartialEq, Eq)]
pub struct Buffer {
    bytes: Vec<u8>,
    lent: usize,
}

impl Buffer {
    /// A new buffer, lent whole.
    pub fn new(bytes: Vec<u8>) -> Buffer {
        Buffer { lent: bytes.len(), bytes }
    }

    /// The whole buffer, as the digests cover it.
    pub fn whole(&self) -> &[u8] {
        &self.bytes
    }

    /// What a call is given.
    pub fn lent(&self) -> &[u8] {
        &self.bytes[..self.lent]
    }

    pub fn lent_mut(&mut self) -> &mut [u8] {
        &mut self.bytes[..self.lent]
    }

    /// Lends only the first `length` bytes, or all.
    pub fn lend(&mut self, length: Option<usize>) -> Result<(), String> {
        let length = length.unwrap_or(self.bytes.len());
        if length > self.bytes.len() {
            return Err(format!("the buffer has only {} bytes to lend", self.bytes.len()));
        }
        self.lent = length;
        Ok(())
    }

    /// Puts bytes into the buffer, lent or not.
    pub fn poke(&mut self, offset: usize, data: &[u8]) -> Result<(), String> {
        let length = self.bytes.len();
        let part = offset.checked_add(data.len()).and_then(|end| self.bytes.get_mut(offset..end));
        let part = part.ok_or_else(|| format!("the bytes do not lie in the buffer's {length}"))?;
        part.copy_from_slice(data);
        Ok(())
    }
}

/// All six; one that was never made is empty.
#[derive(Clone, Debug, Default, PartialEq, Eq)]
pub struct Buffers {
    pub base: Buffer,
    pub side: Buffer,
    pub pages: Buffer,
    pub kinds: Buffer,
    pub held: Buffer,
    pub marks: Buffer,
}

impl Buffers {
    pub fn get(&self, name: Name) -> &Buffer {
        match name {
            Name::Base => &self.base,
            Name::Side => &self.side,
            Name::Pages => &self.pages,
            Name::Kinds => &self.kinds,
            Name::Held => &self.held,
            Name::Marks => &self.marks,
        }
    }

    pub fn get_mut(&mut self, name: Name) -> &mut Buffer {
        match name {
            Name::Base => &mut self.base,
            Name::Side => &mut self.side,
            Name::Pages => &mut self.pages,
            Name::Kinds => &mut self.kinds,
            Name::Held => &mut self.held,
            Name::Marks => &mut self.marks,
        }
    }
}
