//! What a medium is, and the books that each one keeps.

use crate::denial::Denial;

/// The most lines a medium has.
pub const MOST_LINES: u32 = 4_096;

/// The count and the life of a medium, made or still to be made. Surveys
/// answer one and ask of the one below, so a whole pile can be surveyed
/// before any of it is made.
#[derive(Clone, Copy, Debug, PartialEq, Eq)]
pub struct Extent {
    pub count: u32,
    pub life: u32,
}

/// Whatever stores lines and takes writes until its life is used.
pub trait Medium {
    type Line: Copy;

    /// How many lines there are.
    fn count(&self) -> u32;
    /// How many writes are accepted in all.
    fn life(&self) -> u32;
    /// How many writes have been accepted.
    fn taken(&self) -> u32;
    /// How many line writes the cells at the bottom have borne.
    fn wear(&self) -> u64;
    /// How many copies the layers from here down have made.
    fn copies_in_all(&self) -> u64;
    fn read(&self, line: u32) -> Result<Self::Line, Denial>;
    /// Writes a line and answers the toll: by how much the wear grew.
    fn write(&mut self, line: u32, value: &Self::Line) -> Result<u64, Denial>;
}

/// A medium over a medium.
pub trait Layer: Medium {
    /// The line's number in what lies directly below.
    fn where_is(&self, line: u32) -> Result<u32, Denial>;
    /// The line at a place of what lies directly below, if there is one.
    fn holder(&self, place: u32) -> Result<Option<u32>, Denial>;
    /// How many copies this layer has made.
    fn copies(&self) -> u64;
}

/// Count, life and taken, and the two questions that every medium asks of
/// them in the same order.
#[derive(Clone, Copy, Debug)]
pub struct Ledger {
    extent: Extent,
    taken: u32,
}

impl Ledger {
    pub fn new(extent: Extent) -> Self {
        Ledger { extent, taken: 0 }
    }

    pub fn count(&self) -> u32 {
        self.extent.count
    }

    pub fn life(&self) -> u32 {
        self.extent.life
    }

    pub fn taken(&self) -> u32 {
        self.taken
    }

    pub fn admit_read(&self, line: u32) -> Result<(), Denial> {
        Denial::NoSuchLine.unless(line < self.extent.count)
    }

    pub fn admit_write(&self, line: u32) -> Result<(), Denial> {
        self.admit_read(line)?;
        Denial::LifeUsed.unless(self.taken < self.extent.life)
    }

    /// Counts a write that was admitted and carried out.
    pub fn count_write(&mut self) {
        self.taken += 1;
    }
}
