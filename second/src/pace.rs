//! How often a layer moves lines, and what life that leaves it.

use crate::denial::Denial;

/// After how many accepted writes a layer makes one move.
#[derive(Clone, Copy, Debug, PartialEq, Eq)]
pub struct Interval(u32);

impl Interval {
    pub fn new(writes: u16) -> Result<Self, Denial> {
        Denial::SettingsOutOfRange.unless(writes >= 1)?;
        Ok(Interval(u32::from(writes)))
    }

    /// The greatest d for which d + d div interval is at most `left`.
    ///
    /// A whole interval costs its writes and one more. What remains past the
    /// whole ones is at most the interval; the write that would complete it
    /// costs two, so one less than the interval is the most it gives.
    pub fn life_within(self, left: u32) -> u32 {
        let Interval(interval) = self;
        let whole = left / (interval + 1);
        let rest = left % (interval + 1);
        whole * interval + rest.min(interval - 1)
    }
}

/// Counts accepted writes towards the next move.
#[derive(Clone, Copy, Debug, Default)]
pub struct Due(u32);

impl Due {
    /// Counts one write and answers whether a move is due now.
    pub fn count_write(&mut self, Interval(interval): Interval) -> bool {
        self.0 += 1;
        let due = self.0 == interval;
        if due {
            self.0 = 0;
        }
        due
    }
}

#[cfg(test)]
mod tests {
    use super::*;

    #[test]
    fn the_worked_examples() {
        let two = Interval::new(2).unwrap();
        assert_eq!(two.life_within(20), 13);
        assert_eq!(two.life_within(5), 3);
    }

    #[test]
    fn life_is_the_greatest_that_fits() {
        for writes in 1..=40u16 {
            let interval = Interval::new(writes).unwrap();
            for left in 0..=400u32 {
                let fits = |d: &u32| d + d / u32::from(writes) <= left;
                let greatest = (0..=left).rev().find(fits);
                assert_eq!(Some(interval.life_within(left)), greatest);
            }
        }
    }

    #[test]
    fn life_at_the_far_end() {
        assert_eq!(Interval::new(1).unwrap().life_within(u32::MAX), u32::MAX / 2);
        let slow = Interval::new(65_535).unwrap();
        assert_eq!(slow.life_within(u32::MAX), 65_535 * 65_535 + 65_534);
        assert_eq!(slow.life_within(65_535), 65_534);
    }

    #[test]
    fn a_move_is_due_at_each_interval() {
        let three = Interval::new(3).unwrap();
        let mut due = Due::default();
        let dues: Vec<bool> = (0..7).map(|_| due.count_write(three)).collect();
        assert_eq!(dues, [false, false, true, false, false, true, false]);
    }

    #[test]
    fn an_interval_of_0_is_denied() {
        assert_eq!(Interval::new(0), Err(Denial::SettingsOutOfRange));
    }
}
