//! The listing: what the program prints for a run.

use std::fmt;
use std::fmt::Write;

use crate::denial::Fault;
use crate::line::Load;
use crate::run::Totals;
use crate::slot::{Answer, Slot, Tag};

/// The listing of a run: its fault, or a line for each request and one for
/// the totals.
pub fn listing(outcome: &Result<Totals, Fault>, slots: &[Slot]) -> String {
    match outcome {
        Err(fault) => format!("{fault}\n"),
        Ok(totals) => {
            let mut text = String::with_capacity(32 * (totals.requests + 2));
            for slot in &slots[..totals.requests] {
                write_line(&mut text, slot);
            }
            write_line(&mut text, totals);
            text
        }
    }
}

/// Writing to a string does not fail.
fn write_line(text: &mut String, line: &impl fmt::Display) {
    writeln!(text, "{line}").expect("a string takes every write");
}

impl fmt::Display for Slot {
    fn fmt(&self, f: &mut fmt::Formatter<'_>) -> fmt::Result {
        let letter = match self.tag {
            Tag::Empty => '-',
            Tag::Read => 'r',
            Tag::Write => 'w',
        };
        write!(f, "{letter} {} {}", self.line, self.answer)
    }
}

impl fmt::Display for Answer {
    fn fmt(&self, f: &mut fmt::Formatter<'_>) -> fmt::Result {
        match self {
            Answer::Unmarked => f.write_str("unmarked"),
            Answer::Denied(denial) => write!(f, "no {}", denial.number()),
            Answer::Toll(toll) => write!(f, "ok {toll}"),
            Answer::Load(load) => write!(f, "ok {load}"),
        }
    }
}

impl fmt::Display for Load {
    fn fmt(&self, f: &mut fmt::Formatter<'_>) -> fmt::Result {
        let Load { time, east, north, tonnes, activity } = self;
        write!(f, "{time} {east} {north} {tonnes} {activity}")
    }
}

impl fmt::Display for Totals {
    fn fmt(&self, f: &mut fmt::Formatter<'_>) -> fmt::Result {
        let Totals { taken, left, copies, wear, .. } = self;
        write!(f, "taken {taken} left {left} copies {copies} wear {wear}")
    }
}
