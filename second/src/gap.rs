//! Gap regions: each region has one spare line, the gap, which wanders
//! through it and so turns the region's lines round (Start-Gap).

use crate::denial::Denial;
use crate::medium::{Extent, Layer, Ledger, Medium};
use crate::pace::{Due, Interval};

const MOST_REGIONS: u8 = 16;

/// A surveyed layer of gap regions. It can be had from [`survey`] alone, so
/// the making has nothing left to ask.
#[derive(Clone, Copy, Debug)]
pub struct Plan {
    regions: u32,
    /// K, the lines that a region holds beside its gap.
    region_lines: u32,
    interval: Interval,
    extent: Extent,
}

impl Plan {
    pub fn extent(&self) -> Extent {
        self.extent
    }
}

/// Asks whether gap regions fit over what lies below.
pub fn survey(regions: u8, interval: u16, below: Extent) -> Result<Plan, Denial> {
    Denial::SettingsOutOfRange.unless((1..=MOST_REGIONS).contains(&regions))?;
    let interval = Interval::new(interval)?;
    let regions = u32::from(regions);
    Denial::TooFewLines.unless(below.count >= 2 * regions)?;
    let life = interval.life_within(below.life);
    Denial::LifeOutOfRange.unless(life >= 1)?;
    let region_lines = below.count / regions - 1;
    let extent = Extent { count: regions * region_lines, life };
    Ok(Plan { regions, region_lines, interval, extent })
}

/// The registers of one region.
#[derive(Clone, Copy, Debug, Default)]
struct Row {
    start: u32,
    gap: u32,
    due: Due,
}

impl Row {
    /// The place within the region of the line at an offset.
    fn place_of(&self, offset: u32, region_lines: u32) -> u32 {
        let turned = offset + self.start;
        let turned = if turned < region_lines { turned } else { turned - region_lines };
        turned + u32::from(turned >= self.gap)
    }

    /// The offset of the line at a place within the region; none at the gap.
    fn offset_at(&self, place: u32, region_lines: u32) -> Option<u32> {
        let turned = place - u32::from(place > self.gap);
        (place != self.gap).then(|| (turned + region_lines - self.start) % region_lines)
    }

    /// Moves the gap on: answers the place to copy from and the one to copy
    /// into, which was the gap.
    fn step(&mut self, region_lines: u32) -> (u32, u32) {
        let into = self.gap;
        if self.gap > 0 {
            self.gap -= 1;
        } else {
            self.gap = region_lines;
            self.start = (self.start + 1) % region_lines;
        }
        (self.gap, into)
    }
}

pub struct GapRegions<M> {
    plan: Plan,
    rows: [Row; MOST_REGIONS as usize],
    ledger: Ledger,
    copies: u64,
    below: M,
}

impl<M: Medium> GapRegions<M> {
    /// Makes the layer that was surveyed over what lies below.
    pub fn new(plan: Plan, below: M) -> Self {
        let row = Row { gap: plan.region_lines, ..Row::default() };
        GapRegions {
            plan,
            rows: [row; MOST_REGIONS as usize],
            ledger: Ledger::new(plan.extent),
            copies: 0,
            below,
        }
    }

    /// The place below of a region's first line.
    fn base(&self, region: u32) -> u32 {
        region * (self.plan.region_lines + 1)
    }

    /// The region of a line below the count, and its place below.
    fn locate(&self, line: u32) -> (u32, u32) {
        let region_lines = self.plan.region_lines;
        let (region, offset) = (line / region_lines, line % region_lines);
        let within = self.rows[region as usize].place_of(offset, region_lines);
        (region, self.base(region) + within)
    }

    /// Moves a region's gap once, and answers the copy's toll.
    fn move_gap(&mut self, region: u32) -> Result<u64, Denial> {
        let base = self.base(region);
        let (from, into) = self.rows[region as usize].step(self.plan.region_lines);
        let line = self.below.read(base + from)?;
        let toll = self.below.write(base + into, &line)?;
        self.copies += 1;
        Ok(toll)
    }
}

impl<M: Medium> Medium for GapRegions<M> {
    type Line = M::Line;

    fn count(&self) -> u32 {
        self.ledger.count()
    }

    fn life(&self) -> u32 {
        self.ledger.life()
    }

    fn taken(&self) -> u32 {
        self.ledger.taken()
    }

    fn wear(&self) -> u64 {
        self.below.wear()
    }

    fn copies_in_all(&self) -> u64 {
        self.copies.wrapping_add(self.below.copies_in_all())
    }

    fn read(&self, line: u32) -> Result<M::Line, Denial> {
        self.ledger.admit_read(line)?;
        let (_, place) = self.locate(line);
        self.below.read(place)
    }

    /// The life was worked out so that what lies below takes the write and
    /// its move: past the admission nothing is denied.
    fn write(&mut self, line: u32, value: &M::Line) -> Result<u64, Denial> {
        self.ledger.admit_write(line)?;
        let (region, place) = self.locate(line);
        let toll = self.below.write(place, value)?;
        self.ledger.count_write();
        if self.rows[region as usize].due.count_write(self.plan.interval) {
            Ok(toll.wrapping_add(self.move_gap(region)?))
        } else {
            Ok(toll)
        }
    }
}

impl<M: Medium> Layer for GapRegions<M> {
    fn where_is(&self, line: u32) -> Result<u32, Denial> {
        self.ledger.admit_read(line)?;
        Ok(self.locate(line).1)
    }

    fn holder(&self, place: u32) -> Result<Option<u32>, Denial> {
        Denial::NoSuchLine.unless(place < self.below.count())?;
        let region_lines = self.plan.region_lines;
        let (region, within) = (place / (region_lines + 1), place % (region_lines + 1));
        if region >= self.plan.regions {
            return Ok(None);
        }
        let offset = self.rows[region as usize].offset_at(within, region_lines);
        Ok(offset.map(|offset| region * region_lines + offset))
    }

    fn copies(&self) -> u64 {
        self.copies
    }
}

#[cfg(test)]
mod tests {
    use super::*;
    use crate::bytes::ByteMedium;

    const PLENTY: u32 = 1_000_000;

    fn words(count: u32) -> (Vec<u8>, Vec<u32>) {
        let bytes = (0..u64::from(count)).flat_map(u64::to_le_bytes).collect();
        (bytes, vec![0; count as usize])
    }

    fn fit<'m>(
        (regions, interval): (u8, u16),
        (bytes, counts): (&'m mut [u8], &'m mut [u32]),
    ) -> GapRegions<ByteMedium<'m, u64>> {
        let below = Extent { count: counts.len() as u32, life: PLENTY };
        let plan = survey(regions, interval, below).unwrap();
        GapRegions::new(plan, ByteMedium::new(below, bytes, counts))
    }

    #[test]
    fn the_worked_picture() {
        let picture =
            ["0 1 2 3 .", "0 1 2 . 3", "0 1 . 2 3", "0 . 1 2 3", ". 0 1 2 3", "3 0 1 2 ."];
        let (mut bytes, mut counts) = words(5);
        let mut gap = fit((1, 1), (&mut bytes, &mut counts));
        for (moves, expected) in picture.into_iter().enumerate() {
            assert_eq!(gap.copies(), moves as u64);
            let shown = (0..5).map(|place| match gap.holder(place).unwrap() {
                Some(line) => {
                    assert_eq!(gap.where_is(line), Ok(place));
                    assert_eq!(gap.below.read(place), Ok(u64::from(line)));
                    line.to_string()
                }
                None => ".".to_owned(),
            });
            assert_eq!(shown.collect::<Vec<_>>().join(" "), expected);
            assert_eq!(gap.write(2, &2), Ok(2));
        }
    }

    #[test]
    fn every_line_keeps_its_place_and_value() {
        for (regions, interval, count) in [(1, 1, 2), (3, 1, 11), (2, 2, 9), (4, 3, 8), (16, 1, 50)]
        {
            let (mut bytes, mut counts) = words(count);
            let mut gap = fit((regions, interval), (&mut bytes, &mut counts));
            let mut flat: Vec<u64> = (0..gap.count()).map(|line| gap.read(line).unwrap()).collect();
            for step in 0..500u32 {
                let line = (step * step * 7 + step / 3) % gap.count();
                gap.write(line, &u64::from(step)).unwrap();
                flat[line as usize] = u64::from(step);
                for line in 0..gap.count() {
                    let place = gap.where_is(line).unwrap();
                    assert_eq!(gap.holder(place), Ok(Some(line)));
                    assert_eq!(gap.read(line), Ok(flat[line as usize]));
                }
                let held = (0..count).filter_map(|place| gap.holder(place).unwrap()).count();
                assert_eq!(held as u32, gap.count());
            }
        }
    }

    #[test]
    fn the_survey_asks_in_order() {
        let below = |count, life| Extent { count, life };
        let no = |regions, interval, below| survey(regions, interval, below).unwrap_err();
        assert_eq!(no(0, 1, below(1, 0)), Denial::SettingsOutOfRange);
        assert_eq!(no(17, 1, below(1, 0)), Denial::SettingsOutOfRange);
        assert_eq!(no(1, 0, below(1, 0)), Denial::SettingsOutOfRange);
        assert_eq!(no(3, 1, below(5, 0)), Denial::TooFewLines);
        assert_eq!(no(3, 1, below(6, 1)), Denial::LifeOutOfRange);
        assert_eq!(survey(3, 1, below(6, 2)).unwrap().extent(), below(3, 1));
        assert_eq!(survey(1, 2, below(5, 20)).unwrap().extent(), below(4, 13));
        assert_eq!(survey(3, 2, below(11, 5)).unwrap().extent(), below(6, 3));
    }

    #[test]
    fn the_life_is_used_up_and_no_more() {
        let (mut bytes, mut counts) = words(5);
        let extent = Extent { count: 5, life: 20 };
        let plan = survey(1, 2, extent).unwrap();
        let mut gap =
            GapRegions::new(plan, ByteMedium::<u64>::new(extent, &mut bytes, &mut counts));
        assert!((0..13).all(|_| gap.write(0, &1).is_ok()));
        assert_eq!(gap.write(0, &1), Err(Denial::LifeUsed));
        assert_eq!((gap.taken(), gap.wear(), gap.copies()), (13, 19, 6));
    }
}
