//! Denials, and the faults that carry one to a place in a run file.

use std::fmt;

/// Why a call was not carried out. The numbers are part of the listing.
#[derive(Clone, Copy, Debug, PartialEq, Eq)]
#[repr(u8)]
pub enum Denial {
    NoSuchLine = 1,
    LifeUsed = 2,
    CountOutOfRange = 3,
    LifeOutOfRange = 4,
    WrongLength = 5,
    SettingsOutOfRange = 6,
    TooFewLines = 7,
    FileLength = 8,
    NoMark = 9,
    BadDistances = 10,
    UnknownPile = 11,
    TooManyRequests = 12,
    UnknownRequest = 13,
    RequestCutShort = 14,
    RequestsMiscounted = 15,
}

impl Denial {
    /// The number that listings show.
    pub fn number(self) -> u8 {
        self as u8
    }

    /// The answer to one question: nothing where it is yes, this denial where
    /// it is no. Surveys and readers are lists of such questions.
    pub fn unless(self, yes: bool) -> Result<(), Denial> {
        if yes {
            Ok(())
        } else {
            Err(self)
        }
    }
}

/// The part of reading or fitting in which a fault was found.
#[derive(Clone, Copy, Debug, PartialEq, Eq)]
pub enum Stage {
    Trailer,
    Settings,
    Request,
    /// The survey of a medium or layer at this height.
    Pile(u8),
}

impl fmt::Display for Stage {
    fn fmt(&self, f: &mut fmt::Formatter<'_>) -> fmt::Result {
        match self {
            Stage::Trailer => f.write_str("T"),
            Stage::Settings => f.write_str("S"),
            Stage::Request => f.write_str("Q"),
            Stage::Pile(height) => write!(f, "P{height}"),
        }
    }
}

/// Why a run file was not carried out, and where.
#[derive(Clone, Copy, Debug, PartialEq, Eq)]
pub struct Fault {
    pub denial: Denial,
    /// A byte of the file.
    pub place: usize,
    pub stage: Stage,
}

impl fmt::Display for Fault {
    fn fmt(&self, f: &mut fmt::Formatter<'_>) -> fmt::Result {
        let number = self.denial.number();
        write!(f, "file no {number} at {} stage {}", self.place, self.stage)
    }
}
