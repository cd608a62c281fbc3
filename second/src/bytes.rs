//! The byte medium: lines in lent bytes, with a lent count of the writes to
//! each.

use std::marker::PhantomData;

use crate::denial::Denial;
use crate::line::Line;
use crate::medium::{Extent, Ledger, Medium, MOST_LINES};

/// Asks whether a byte medium of lines of kind `L` can be made.
pub fn survey<L: Line>(lines: u32, life: u32, bytes: usize) -> Result<Extent, Denial> {
    Denial::CountOutOfRange.unless((1..=MOST_LINES).contains(&lines))?;
    Denial::LifeOutOfRange.unless(life >= 1)?;
    Denial::WrongLength.unless(bytes == lines as usize * L::WIDTH)?;
    Ok(Extent { count: lines, life })
}

pub struct ByteMedium<'m, L> {
    bytes: &'m mut [u8],
    counts: &'m mut [u32],
    /// Its taken is the sum of the counts, kept so that no write adds them up.
    ledger: Ledger,
    kind: PhantomData<L>,
}

impl<'m, L: Line> ByteMedium<'m, L> {
    /// Makes the medium in memory that is as long as the surveyed extent
    /// says. Its lines are what the bytes hold; the counts begin at 0.
    pub fn new(extent: Extent, bytes: &'m mut [u8], counts: &'m mut [u32]) -> Self {
        counts.fill(0);
        ByteMedium { bytes, counts, ledger: Ledger::new(extent), kind: PhantomData }
    }
}

impl<L: Line> Medium for ByteMedium<'_, L> {
    type Line = L;

    fn count(&self) -> u32 {
        self.ledger.count()
    }

    fn life(&self) -> u32 {
        self.ledger.life()
    }

    fn taken(&self) -> u32 {
        self.ledger.taken()
    }

    fn wear(&self) -> u64 {
        u64::from(self.ledger.taken())
    }

    fn copies_in_all(&self) -> u64 {
        0
    }

    fn read(&self, line: u32) -> Result<L, Denial> {
        self.ledger.admit_read(line)?;
        let at = line as usize * L::WIDTH;
        L::read_from(&self.bytes[at..at + L::WIDTH])
    }

    fn write(&mut self, line: u32, value: &L) -> Result<u64, Denial> {
        self.ledger.admit_write(line)?;
        let at = line as usize * L::WIDTH;
        value.write_to(&mut self.bytes[at..at + L::WIDTH])?;
        self.counts[line as usize] += 1;
        self.ledger.count_write();
        Ok(1)
    }
}

#[cfg(test)]
mod tests {
    use super::*;

    #[test]
    fn the_survey_asks_in_order() {
        assert_eq!(survey::<u64>(0, 0, 1), Err(Denial::CountOutOfRange));
        assert_eq!(survey::<u64>(4_097, 0, 1), Err(Denial::CountOutOfRange));
        assert_eq!(survey::<u64>(2, 0, 1), Err(Denial::LifeOutOfRange));
        assert_eq!(survey::<u64>(2, 1, 17), Err(Denial::WrongLength));
        let fit = Extent { count: 4_096, life: u32::MAX };
        assert_eq!(survey::<u64>(4_096, u32::MAX, 32_768), Ok(fit));
    }

    #[test]
    fn a_write_changes_its_line_and_count_alone() {
        let mut bytes = [9; 24];
        let mut counts = [7; 3];
        let extent = Extent { count: 3, life: 2 };
        let mut medium = ByteMedium::<u64>::new(extent, &mut bytes, &mut counts);
        assert_eq!(medium.write(3, &1), Err(Denial::NoSuchLine));
        assert_eq!(medium.write(1, &1), Ok(1));
        assert_eq!(medium.write(1, &2), Ok(1));
        assert_eq!(medium.write(1, &3), Err(Denial::LifeUsed));
        assert_eq!(medium.write(3, &3), Err(Denial::NoSuchLine));
        assert_eq!(medium.read(1), Ok(2));
        assert_eq!(medium.read(3), Err(Denial::NoSuchLine));
        assert_eq!((medium.taken(), medium.wear()), (2, 2));
        assert_eq!(bytes[..8], [9; 8]);
        assert_eq!(bytes[8..16], [2, 0, 0, 0, 0, 0, 0, 0]);
        assert_eq!(bytes[16..], [9; 8]);
        assert_eq!(counts, [0, 2, 0]);
    }
}
