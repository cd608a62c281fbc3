//! Refresh: a layer that places lines by a key and passes, line by line,
//! from one key of its ring to the next (Security Refresh).

use crate::denial::Denial;
use crate::medium::{Extent, Layer, Ledger, Medium};
use crate::pace::{Due, Interval};

/// A surveyed refresh layer. It can be had from [`survey`] alone, so the
/// making has nothing left to ask.
#[derive(Clone, Copy, Debug)]
pub struct Plan<'k> {
    ring: &'k [u16],
    interval: Interval,
    extent: Extent,
}

impl Plan<'_> {
    pub fn extent(&self) -> Extent {
        self.extent
    }
}

/// Asks whether a refresh with this ring of keys fits over what lies below.
pub fn survey(interval: u16, ring: &[u16], below: Extent) -> Result<Plan<'_>, Denial> {
    Denial::SettingsOutOfRange.unless((2..=16).contains(&ring.len()))?;
    let interval = Interval::new(interval)?;
    let count = power_of_two_within(below.count);
    Denial::TooFewLines.unless(count >= 2)?;
    let life = life_within(interval, count, below.life);
    Denial::LifeOutOfRange.unless(life >= 1)?;
    Ok(Plan { ring, interval, extent: Extent { count, life } })
}

/// The greatest power of two not above the number; 0 for 0.
pub fn power_of_two_within(number: u32) -> u32 {
    number.checked_ilog2().map_or(0, |exponent| 1 << exponent)
}

/// The greatest d for which d + d div interval + count div 2 is at most
/// `left`, or 0. Within a round the copies run ahead of the refreshes by at
/// most half the lines, since each change of places makes two at once.
fn life_within(interval: Interval, count: u32, left: u32) -> u32 {
    left.checked_sub(count / 2).map_or(0, |rest| interval.life_within(rest))
}

pub struct Refresh<'k, M> {
    plan: Plan<'k>,
    previous: u32,
    current: u32,
    /// Where in the ring the current key stands.
    ring_at: usize,
    pointer: u32,
    due: Due,
    ledger: Ledger,
    copies: u64,
    below: M,
}

impl<'k, M: Medium> Refresh<'k, M> {
    /// Makes the layer that was surveyed over what lies below.
    pub fn new(plan: Plan<'k>, below: M) -> Self {
        let mut refresh = Refresh {
            plan,
            previous: 0,
            current: 0,
            ring_at: 1,
            pointer: 0,
            due: Due::default(),
            ledger: Ledger::new(plan.extent),
            copies: 0,
            below,
        };
        refresh.previous = refresh.key(0);
        refresh.current = refresh.key(1);
        refresh
    }

    /// The low bits, below the count, of a key of the ring.
    fn key(&self, at: usize) -> u32 {
        u32::from(self.plan.ring[at]) & (self.plan.extent.count - 1)
    }

    /// The line that changes places with this one in this round.
    fn mate(&self, line: u32) -> u32 {
        line ^ self.previous ^ self.current
    }

    fn place_of(&self, line: u32) -> u32 {
        let refreshed = line < self.pointer || self.mate(line) < self.pointer;
        line ^ if refreshed { self.current } else { self.previous }
    }

    /// Refreshes the line at the pointer and answers the copies' toll. Where
    /// its mate is below the pointer the two have changed places already, and
    /// where it is its own mate it stays.
    fn refresh_line(&mut self) -> Result<u64, Denial> {
        let toll = if self.mate(self.pointer) > self.pointer {
            self.change_places(self.pointer ^ self.previous, self.pointer ^ self.current)?
        } else {
            0
        };
        self.advance();
        Ok(toll)
    }

    fn change_places(&mut self, first: u32, second: u32) -> Result<u64, Denial> {
        let at_first = self.below.read(first)?;
        let at_second = self.below.read(second)?;
        let toll = self.below.write(first, &at_second)?;
        let toll = toll.wrapping_add(self.below.write(second, &at_first)?);
        self.copies += 2;
        Ok(toll)
    }

    /// Moves the pointer on, and at the end of a round to the ring's next key.
    fn advance(&mut self) {
        self.pointer += 1;
        if self.pointer == self.plan.extent.count {
            self.pointer = 0;
            self.ring_at = (self.ring_at + 1) % self.plan.ring.len();
            self.previous = self.current;
            self.current = self.key(self.ring_at);
        }
    }
}

impl<M: Medium> Medium for Refresh<'_, M> {
    type Line = M::Line;

    fn count(&self) -> u32 {
        self.ledger.count()
    }

    fn life(&self) -> u32 {
        self.ledger.life()
    }

    fn taken(&self) -> u32 {
        self.ledger.taken()
    }

    fn wear(&self) -> u64 {
        self.below.wear()
    }

    fn copies_in_all(&self) -> u64 {
        self.copies.wrapping_add(self.below.copies_in_all())
    }

    fn read(&self, line: u32) -> Result<M::Line, Denial> {
        self.ledger.admit_read(line)?;
        self.below.read(self.place_of(line))
    }

    /// The life was worked out so that what lies below takes the write and
    /// its refresh: past the admission nothing is denied.
    fn write(&mut self, line: u32, value: &M::Line) -> Result<u64, Denial> {
        self.ledger.admit_write(line)?;
        let toll = self.below.write(self.place_of(line), value)?;
        self.ledger.count_write();
        if self.due.count_write(self.plan.interval) {
            Ok(toll.wrapping_add(self.refresh_line()?))
        } else {
            Ok(toll)
        }
    }
}

impl<M: Medium> Layer for Refresh<'_, M> {
    fn where_is(&self, line: u32) -> Result<u32, Denial> {
        self.ledger.admit_read(line)?;
        Ok(self.place_of(line))
    }

    fn holder(&self, place: u32) -> Result<Option<u32>, Denial> {
        Denial::NoSuchLine.unless(place < self.below.count())?;
        if place >= self.ledger.count() {
            return Ok(None);
        }
        let refreshed = place ^ self.current;
        let waiting = place ^ self.previous;
        Ok(Some(if self.place_of(refreshed) == place { refreshed } else { waiting }))
    }

    fn copies(&self) -> u64 {
        self.copies
    }
}

#[cfg(test)]
mod tests {
    use super::*;
    use crate::bytes::ByteMedium;

    const PLENTY: u32 = 1_000_000;

    fn memory(count: usize) -> (Vec<u8>, Vec<u32>) {
        (vec![0; 8 * count], vec![0; count])
    }

    fn fit<'m>(
        (interval, ring): (u16, &'m [u16]),
        (bytes, counts): (&'m mut [u8], &'m mut [u32]),
    ) -> Refresh<'m, ByteMedium<'m, u64>> {
        let below = Extent { count: counts.len() as u32, life: PLENTY };
        let plan = survey(interval, ring, below).unwrap();
        Refresh::new(plan, ByteMedium::new(below, bytes, counts))
    }

    #[test]
    fn the_worked_example() {
        let (mut bytes, mut counts) = memory(8);
        let mut refresh = fit((1, &[4, 6]), (&mut bytes, &mut counts));
        assert_eq!(refresh.where_is(0), Ok(4));
        assert_eq!(refresh.where_is(2), Ok(6));
        assert_eq!(refresh.write(5, &1), Ok(3));
        assert_eq!(refresh.where_is(0), Ok(6));
        assert_eq!(refresh.where_is(2), Ok(4));
        assert_eq!(refresh.write(5, &1), Ok(3));
        assert_eq!(refresh.write(5, &1), Ok(1));
        assert_eq!(refresh.copies(), 4);
        assert!((3..8).all(|_| refresh.write(5, &1).is_ok()));
        assert_eq!(refresh.copies(), 8);
        assert_eq!((refresh.previous, refresh.current, refresh.pointer), (6, 4, 0));
    }

    #[test]
    fn the_worked_lives() {
        let two = Interval::new(2).unwrap();
        assert_eq!(life_within(two, 8, 20), 11);
        assert_eq!(life_within(two, 8, 5), 1);
    }

    #[test]
    fn life_is_the_greatest_that_fits() {
        for writes in 1..=20u16 {
            let interval = Interval::new(writes).unwrap();
            for count in [2, 4, 8, 16, 64] {
                for left in 0..=200u32 {
                    let fits = |d: &u32| d + d / u32::from(writes) + count / 2 <= left;
                    let greatest = (0..=left).rev().find(fits).unwrap_or(0);
                    assert_eq!(life_within(interval, count, left), greatest);
                }
            }
        }
    }

    #[test]
    fn the_count_is_a_power_of_two() {
        let pairs = [(0, 0), (1, 1), (2, 2), (3, 2), (4, 4), (4_095, 2_048), (4_096, 4_096)];
        assert!(pairs.iter().all(|&(number, power)| power_of_two_within(number) == power));
    }

    #[test]
    fn the_survey_asks_in_order() {
        let below = |count, life| Extent { count, life };
        let no = |interval, ring, below| survey(interval, ring, below).unwrap_err();
        assert_eq!(no(0, &[1, 2], below(1, 0)), Denial::SettingsOutOfRange);
        assert_eq!(no(1, &[1], below(1, 0)), Denial::SettingsOutOfRange);
        assert_eq!(no(1, &[1; 17], below(1, 0)), Denial::SettingsOutOfRange);
        assert_eq!(no(1, &[1; 16], below(1, 0)), Denial::TooFewLines);
        assert_eq!(no(1, &[1, 2], below(9, 5)), Denial::LifeOutOfRange);
        assert_eq!(survey(1, &[1, 2], below(9, 6)).unwrap().extent(), below(8, 1));
    }

    #[test]
    fn every_line_keeps_its_place_and_value() {
        let rings: [&[u16]; 4] = [&[4, 6], &[1, 65_535, 8, 8], &[0, 0, 0], &[9, 3, 77, 20, 5]];
        for (ring, count, interval) in
            rings.iter().flat_map(|&ring| [(ring, 2, 1), (ring, 11, 1), (ring, 16, 2)])
        {
            let (mut bytes, mut counts) = memory(count);
            let mut refresh = fit((interval, ring), (&mut bytes, &mut counts));
            let mut flat = vec![0; refresh.count() as usize];
            for step in 0..300u32 {
                let line = (step * step * 7 + step / 3) % refresh.count();
                refresh.write(line, &u64::from(step)).unwrap();
                flat[line as usize] = u64::from(step);
                for line in 0..refresh.count() {
                    let place = refresh.where_is(line).unwrap();
                    assert_eq!(refresh.holder(place), Ok(Some(line)));
                    assert_eq!(refresh.read(line), Ok(flat[line as usize]));
                }
            }
            assert_eq!(refresh.wear(), u64::from(refresh.taken()) + refresh.copies());
        }
    }
}
