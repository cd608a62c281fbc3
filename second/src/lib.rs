//! A second implementation of `replay`, written from its documentation alone.
//!
//! A run file names a pile of wear levelling layers over a byte medium and
//! the requests to carry out on it; [`run`] carries them out and [`listing`]
//! tells what came of them. Everything is worked out in memory that the
//! caller lends, so a run allocates nothing.

pub mod bytes;
pub mod denial;
pub mod draft;
pub mod file;
pub mod gap;
pub mod line;
mod listing;
pub mod maker;
pub mod medium;
pub mod pace;
pub mod refresh;
mod run;
pub mod scatter;
pub mod shuffle;
pub mod slot;

pub use denial::{Denial, Fault, Stage};
pub use listing::listing;
pub use run::{run, run_on_bytes, Totals};
pub use slot::{Answer, Slot, Tag};

/// How many slots the program has.
pub const SLOTS: usize = 2_048;
/// How many bytes the program lends to the medium.
pub const BYTES: usize = 65_536;
/// How many counts the program lends to the medium.
pub const COUNTS: usize = 4_096;

/// What the program prints for an input: memory as the program has it, all
/// zero, then the run and its listing.
pub fn replay(input: &[u8]) -> String {
    let mut slots = vec![Slot::default(); SLOTS];
    let mut bytes = vec![0; BYTES];
    let mut counts = vec![0; COUNTS];
    let outcome = run(input, &mut slots, &mut bytes, &mut counts);
    listing(&outcome, &slots)
}
