//! Scatter: a layer that places lines by a shuffle and never moves them.

use crate::denial::Denial;
use crate::medium::{Extent, Layer, Ledger, Medium};
use crate::shuffle::Shuffle;

/// Asks whether a scatter by a shuffle of this span fits over what lies below.
pub fn survey(span: u32, below: Extent) -> Result<Extent, Denial> {
    Denial::TooFewLines.unless(below.count >= span)?;
    Denial::LifeOutOfRange.unless(below.life >= 1)?;
    Ok(Extent { count: span, life: below.life })
}

pub struct Scatter<S, M> {
    shuffle: S,
    ledger: Ledger,
    below: M,
}

impl<S: Shuffle, M: Medium> Scatter<S, M> {
    /// Makes the layer that was surveyed over what lies below.
    pub fn new(extent: Extent, shuffle: S, below: M) -> Self {
        Scatter { shuffle, ledger: Ledger::new(extent), below }
    }
}

impl<S: Shuffle, M: Medium> Medium for Scatter<S, M> {
    type Line = M::Line;

    fn count(&self) -> u32 {
        self.ledger.count()
    }

    fn life(&self) -> u32 {
        self.ledger.life()
    }

    fn taken(&self) -> u32 {
        self.ledger.taken()
    }

    fn wear(&self) -> u64 {
        self.below.wear()
    }

    fn copies_in_all(&self) -> u64 {
        self.below.copies_in_all()
    }

    fn read(&self, line: u32) -> Result<M::Line, Denial> {
        self.ledger.admit_read(line)?;
        self.below.read(self.shuffle.forward(line))
    }

    fn write(&mut self, line: u32, value: &M::Line) -> Result<u64, Denial> {
        self.ledger.admit_write(line)?;
        let toll = self.below.write(self.shuffle.forward(line), value)?;
        self.ledger.count_write();
        Ok(toll)
    }
}

impl<S: Shuffle, M: Medium> Layer for Scatter<S, M> {
    fn where_is(&self, line: u32) -> Result<u32, Denial> {
        self.ledger.admit_read(line)?;
        Ok(self.shuffle.forward(line))
    }

    fn holder(&self, place: u32) -> Result<Option<u32>, Denial> {
        Denial::NoSuchLine.unless(place < self.below.count())?;
        Ok((place < self.shuffle.span()).then(|| self.shuffle.back(place)))
    }

    fn copies(&self) -> u64 {
        0
    }
}

#[cfg(test)]
mod tests {
    use super::*;
    use crate::bytes::ByteMedium;
    use crate::shuffle::Feistel;

    #[test]
    fn the_survey_asks_for_the_span() {
        let below = |count, life| Extent { count, life };
        assert_eq!(survey(16, below(15, 0)), Err(Denial::TooFewLines));
        assert_eq!(survey(16, below(16, 0)), Err(Denial::LifeOutOfRange));
        assert_eq!(survey(16, below(20, 3)), Ok(below(16, 3)));
    }

    #[test]
    fn lines_lie_where_the_shuffle_says() {
        let (mut bytes, mut counts) = ([0; 8 * 18], [0; 18]);
        let extent = Extent { count: 18, life: 9 };
        let medium = ByteMedium::<u64>::new(extent, &mut bytes, &mut counts);
        let feistel = Feistel::new(2, [1, 2, 3]).unwrap();
        let extent = survey(feistel.span(), extent).unwrap();
        let mut scatter = Scatter::new(extent, feistel, medium);
        assert_eq!(scatter.where_is(6), Ok(9));
        assert_eq!(scatter.where_is(16), Err(Denial::NoSuchLine));
        assert_eq!(scatter.holder(9), Ok(Some(6)));
        assert_eq!(scatter.holder(17), Ok(None));
        assert_eq!(scatter.holder(18), Err(Denial::NoSuchLine));
        assert_eq!(scatter.write(6, &77), Ok(1));
        assert_eq!(scatter.write(16, &77), Err(Denial::NoSuchLine));
        assert_eq!(scatter.read(6), Ok(77));
        assert_eq!(scatter.below.read(9), Ok(77));
        assert_eq!(counts[9], 1);
    }
}
