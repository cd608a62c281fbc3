//! Slots: the requests of a run with their answers.

use crate::denial::Denial;
use crate::file::{Action, Request};
use crate::line::Load;

/// What kind of request a slot holds.
#[derive(Clone, Copy, Debug, Default, PartialEq, Eq)]
pub enum Tag {
    #[default]
    Empty,
    Read,
    Write,
}

/// What came of a request.
#[derive(Clone, Copy, Debug, Default, PartialEq, Eq)]
pub enum Answer {
    #[default]
    Unmarked,
    Denied(Denial),
    /// The toll of a write that was carried out.
    Toll(u64),
    /// The load that was read.
    Load(Load),
}

impl Answer {
    /// The denial's number, 0 where there is none.
    pub fn denial_number(&self) -> u8 {
        match self {
            Answer::Denied(denial) => denial.number(),
            _ => 0,
        }
    }

    /// The toll, 0 where there is none.
    pub fn toll(&self) -> u64 {
        match *self {
            Answer::Toll(toll) => toll,
            _ => 0,
        }
    }

    /// The load, all 0 where there is none.
    pub fn load(&self) -> Load {
        match *self {
            Answer::Load(load) => load,
            _ => Load::default(),
        }
    }
}

/// One request of a run, with its answer.
#[derive(Clone, Copy, Debug, Default, PartialEq, Eq)]
pub struct Slot {
    pub tag: Tag,
    pub line: u16,
    /// The request's first byte in the file.
    pub place: u32,
    pub answer: Answer,
}

impl From<Request<'_>> for Slot {
    fn from(request: Request<'_>) -> Self {
        Slot {
            tag: match request.action {
                Action::Read => Tag::Read,
                Action::Write(_) => Tag::Write,
            },
            line: request.line,
            place: request.place as u32,
            answer: Answer::Unmarked,
        }
    }
}
