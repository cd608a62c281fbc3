//! A run: reading, surveys, making the pile and carrying out the requests.

use crate::bytes::{self, ByteMedium};
use crate::denial::{Denial, Fault};
use crate::file::{Action, Pile, Request, RunFile};
use crate::gap::{self, GapRegions};
use crate::line::{Line, Load};
use crate::medium::{Extent, Medium};
use crate::refresh::{self, Refresh};
use crate::scatter::{self, Scatter};
use crate::shuffle::{Feistel, Shuffle};
use crate::slot::{Answer, Slot};

/// What the top of a pile tells after a run.
#[derive(Clone, Copy, Debug, PartialEq, Eq)]
pub struct Totals {
    /// How many requests were carried out or denied: the slots to look at.
    pub requests: usize,
    pub taken: u32,
    pub left: u32,
    /// The copies of all layers.
    pub copies: u64,
    pub wear: u64,
}

/// Carries out a run file on the pile that its letter names.
pub fn run(
    file: &[u8],
    slots: &mut [Slot],
    bytes: &mut [u8],
    counts: &mut [u32],
) -> Result<Totals, Fault> {
    let file = read_into(file, slots)?;
    let memory = Memory { bytes, counts };
    match file.settings.pile {
        Pile::A => run_a(&file, slots, memory),
        Pile::B => run_b(&file, slots, memory),
        Pile::C => run_c(&file, slots, memory),
    }
}

/// Carries out a run file on the bare byte medium, whatever its letter.
pub fn run_on_bytes(
    file: &[u8],
    slots: &mut [Slot],
    bytes: &mut [u8],
    counts: &mut [u32],
) -> Result<Totals, Fault> {
    let file = read_into(file, slots)?;
    let memory = Memory { bytes, counts };
    let extent = survey_bytes(&file, &memory)?;
    Ok(carry_out(&file, slots, memory.medium(extent)))
}

/// The memory that a caller lends to the bottom of the pile.
struct Memory<'m> {
    bytes: &'m mut [u8],
    counts: &'m mut [u32],
}

impl<'m> Memory<'m> {
    /// Makes a medium of a surveyed extent in the front of the memory.
    fn medium(self, extent: Extent) -> ByteMedium<'m, Load> {
        let count = extent.count as usize;
        let bytes = &mut self.bytes[..count * Load::WIDTH];
        ByteMedium::new(extent, bytes, &mut self.counts[..count])
    }
}

/// Reads a file and then fills the slots, so that a fault in the reading
/// leaves every slot alone.
fn read_into<'f>(file: &'f [u8], slots: &mut [Slot]) -> Result<RunFile<'f>, Fault> {
    let file = RunFile::read(file, slots.len())?;
    for (slot, request) in slots.iter_mut().zip(file.requests()) {
        *slot = request.into();
    }
    Ok(file)
}

/// The survey at height 0. Memory that is too short for the lines, bytes or
/// counts, is of the wrong length.
fn survey_bytes(file: &RunFile, memory: &Memory) -> Result<Extent, Fault> {
    let lines = u32::from(file.settings.lines);
    let wanted = lines as usize * Load::WIDTH;
    let lent = memory.bytes.len().min(memory.counts.len() * Load::WIDTH);
    bytes::survey::<Load>(lines, file.settings.life, wanted.min(lent)).map_err(file.unfit(0))
}

/// The survey of gap regions, which always lie at height 1.
fn survey_gap(file: &RunFile, below: Extent) -> Result<gap::Plan, Fault> {
    let settings = &file.settings;
    gap::survey(settings.regions, settings.interval, below).map_err(file.unfit(1))
}

fn survey_refresh<'r>(
    file: &'r RunFile,
    height: u8,
    below: Extent,
) -> Result<refresh::Plan<'r>, Fault> {
    let settings = &file.settings;
    refresh::survey(settings.interval, &settings.keys, below).map_err(file.unfit(height))
}

/// Makes the shuffle of a scatter, then surveys the scatter.
fn survey_scatter(file: &RunFile, height: u8, below: Extent) -> Result<(Feistel, Extent), Fault> {
    let settings = &file.settings;
    let [first, second, third, _] = settings.keys;
    Feistel::new(settings.n, [first, second, third])
        .and_then(|feistel| Ok((feistel, scatter::survey(feistel.span(), below)?)))
        .map_err(file.unfit(height))
}

fn run_a(file: &RunFile, slots: &mut [Slot], memory: Memory) -> Result<Totals, Fault> {
    let extent = survey_bytes(file, &memory)?;
    let gap = survey_gap(file, extent)?;
    let (feistel, scattered) = survey_scatter(file, 2, gap.extent())?;
    let pile = GapRegions::new(gap, memory.medium(extent));
    let pile = Scatter::new(scattered, feistel, pile);
    Ok(carry_out(file, slots, pile))
}

fn run_b(file: &RunFile, slots: &mut [Slot], memory: Memory) -> Result<Totals, Fault> {
    let extent = survey_bytes(file, &memory)?;
    let refresh = survey_refresh(file, 1, extent)?;
    let pile = Refresh::new(refresh, memory.medium(extent));
    Ok(carry_out(file, slots, pile))
}

fn run_c(file: &RunFile, slots: &mut [Slot], memory: Memory) -> Result<Totals, Fault> {
    let extent = survey_bytes(file, &memory)?;
    let gap = survey_gap(file, extent)?;
    let refresh = survey_refresh(file, 2, gap.extent())?;
    let (feistel, scattered) = survey_scatter(file, 3, refresh.extent())?;
    let pile = GapRegions::new(gap, memory.medium(extent));
    let pile = Refresh::new(refresh, pile);
    let pile = Scatter::new(scattered, feistel, pile);
    Ok(carry_out(file, slots, pile))
}

/// Carries out the requests in their order, marks their slots, and tells
/// what the medium says at the end.
fn carry_out<M>(file: &RunFile, slots: &mut [Slot], mut medium: M) -> Totals
where
    M: Medium<Line = Load>,
{
    for (slot, request) in slots.iter_mut().zip(file.requests()) {
        slot.answer = answer(&mut medium, request).unwrap_or_else(Answer::Denied);
    }
    Totals {
        requests: file.number,
        taken: medium.taken(),
        left: medium.life() - medium.taken(),
        copies: medium.copies_in_all(),
        wear: medium.wear(),
    }
}

fn answer<M>(medium: &mut M, request: Request) -> Result<Answer, Denial>
where
    M: Medium<Line = Load>,
{
    let line = u32::from(request.line);
    match request.action {
        Action::Read => medium.read(line).map(Answer::Load),
        Action::Write(load) => medium.write(line, &Load::from_bytes(load)).map(Answer::Toll),
    }
}

#[cfg(test)]
mod tests {
    use super::*;
    use crate::draft::Draft;
    use crate::slot::Tag;
    use crate::{replay, COUNTS};

    const LOAD: Load = Load { time: 7, east: -5, north: 9, tonnes: 100, activity: 2 };

    fn whole_case() -> Draft {
        let mut draft = Draft {
            letter: b'A',
            regions: 1,
            interval: 2,
            lines: 5,
            n: 1,
            life: 20,
            keys: [1, 0, 1, 0],
            ..Draft::default()
        };
        for line in [3, 4, 0] {
            draft.write(line, &LOAD.to_bytes());
        }
        draft.read(3);
        draft.read(1);
        draft
    }

    #[test]
    fn the_whole_case() {
        let file = whole_case().finish();
        assert_eq!(file.len(), 99);
        let expected = "\
w 3 ok 1
w 4 no 1
w 0 ok 2
r 3 ok 7 -5 9 100 2
r 1 ok 0 0 0 0 0
taken 2 left 11 copies 1 wear 3
";
        assert_eq!(replay(&file), expected);
    }

    #[test]
    fn zero_bytes_have_no_mark() {
        assert_eq!(replay(&[0; 36]), "file no 9 at 32 stage T\n");
    }

    #[test]
    fn the_spare_byte_of_a_load_is_written_0() {
        let mut draft = whole_case();
        draft.write(0, &[255; 16]);
        let mut bytes = [0; 80];
        run(&draft.finish(), &mut [Slot::default(); 6], &mut bytes, &mut [0; 5]).unwrap();
        let mut written = [255; 16];
        written[15] = 0;
        assert!(bytes.chunks(16).any(|line| line == written));
    }

    #[test]
    fn the_bare_medium_makes_no_copies() {
        let file = whole_case().finish();
        let mut slots = [Slot::default(); 7];
        let mut counts = [9; COUNTS];
        let totals = run_on_bytes(&file, &mut slots, &mut [0; 80], &mut counts).unwrap();
        let expected = Totals { requests: 5, taken: 3, left: 17, copies: 0, wear: 3 };
        assert_eq!(totals, expected);
        assert_eq!(counts[..7], [1, 0, 0, 1, 1, 9, 9]);
        assert_eq!(slots[3].answer.load(), LOAD);
        assert_eq!(slots[5..], [Slot::default(); 2]);
    }

    #[test]
    fn a_fault_in_reading_touches_no_slot_and_one_in_fitting_marks_none() {
        let mut draft = whole_case();
        draft.number = 4;
        let untouched = Slot { line: 77, ..Slot::default() };
        let mut slots = [untouched; 6];
        assert!(run(&draft.finish(), &mut slots, &mut [0; 80], &mut [0; 5]).is_err());
        assert_eq!(slots, [untouched; 6]);

        draft.number = 5;
        draft.n = 2;
        let mut counts = [8; 5];
        let fault = run(&draft.finish(), &mut slots, &mut [0; 80], &mut counts).unwrap_err();
        assert_eq!(fault.to_string(), "file no 7 at 0 stage P2");
        assert_eq!(counts, [8; 5]);
        let filled = Slot { tag: Tag::Write, line: 3, place: 20, answer: Answer::Unmarked };
        assert_eq!(slots[0], filled);
        assert_eq!(slots[5], untouched);
    }

    #[test]
    fn memory_that_is_too_short_is_of_the_wrong_length() {
        let file = whole_case().finish();
        let mut slots = [Slot::default(); 5];
        for (bytes, counts) in [(79, 5), (80, 4)] {
            let outcome = run(&file, &mut slots, &mut vec![0; bytes], &mut vec![0; counts]);
            assert_eq!(outcome.unwrap_err().to_string(), "file no 5 at 0 stage P0");
        }
    }

    fn fault_with(change: impl Fn(&mut Draft)) -> String {
        let mut draft = Draft { ahead: vec![0; 3], ..Draft::default() };
        change(&mut draft);
        replay(&draft.finish())
    }

    #[test]
    fn surveys_run_from_the_bottom_up() {
        type Change = fn(&mut Draft);
        let cases: [(Change, &str); 14] = [
            (|d| d.lines = 0, "3 at 3 stage P0"),
            (|d| d.lines = 4_097, "3 at 3 stage P0"),
            (|d| d.life = 0, "4 at 3 stage P0"),
            (|d| d.regions = 17, "6 at 3 stage P1"),
            (|d| d.interval = 0, "6 at 3 stage P1"),
            (|d| (d.letter, d.interval) = (b'B', 0), "6 at 3 stage P1"),
            (|d| (d.regions, d.lines) = (3, 5), "7 at 3 stage P1"),
            (|d| (d.interval, d.life) = (1, 1), "4 at 3 stage P1"),
            (|d| (d.letter, d.lines) = (b'B', 1), "7 at 3 stage P1"),
            (|d| d.n = 0, "6 at 3 stage P2"),
            (|d| d.n = 6, "7 at 3 stage P2"),
            (|d| (d.letter, d.regions, d.lines) = (b'C', 1, 2), "7 at 3 stage P2"),
            (|d| (d.letter, d.life) = (b'C', 2), "4 at 3 stage P2"),
            (|d| (d.letter, d.n) = (b'C', 7), "6 at 3 stage P3"),
        ];
        for (change, expected) in cases {
            assert_eq!(fault_with(change), format!("file no {expected}\n"));
        }
        // What a pile has no use for is not looked at.
        let unused = fault_with(|d| (d.letter, d.regions, d.n) = (b'B', 99, 99));
        assert!(unused.starts_with("taken 0 left "));
    }

    /// The writes that are accepted are exactly the life that the top works
    /// out: no layer asks more of what lies below it than that takes.
    #[test]
    fn every_life_is_used_up_and_no_more() {
        for (letter, life) in
            b"ABC".iter().flat_map(|&letter| (0..180).map(move |life| (letter, life)))
        {
            for interval in 1..=3 {
                let keys = [6, 9, 9, 3];
                let settings = Draft { letter, interval, life, keys, ..Draft::default() };
                let mut draft = Draft { regions: 2, lines: 12, ..settings };
                (0..200).for_each(|step| draft.write(step * step % 4, &[1; 16]));
                let mut slots = [Slot::default(); 200];
                let outcome = run(&draft.finish(), &mut slots, &mut [0; 192], &mut [0; 12]);
                let Ok(totals) = outcome else { continue };
                assert_eq!(totals.left, 0);
                assert!(totals.wear <= u64::from(life));
                let accepted = totals.taken as usize;
                assert!(slots[..accepted].iter().all(|slot| slot.answer.toll() >= 1));
                assert!(slots[accepted..].iter().all(|slot| slot.answer.denial_number() == 2));
            }
        }
    }

    #[test]
    fn every_pile_reads_as_a_flat_array() {
        for letter in *b"ABC" {
            let mut draft = Draft {
                letter,
                regions: 2,
                interval: 1,
                lines: 40,
                n: 2,
                life: 100_000,
                keys: [40_001, 3, 60_014, 9],
                ..Draft::default()
            };
            let mut flat = vec![Load::default(); 16];
            let mut expected = Vec::new();
            for step in 0..900u32 {
                let line = (step * step * 5 + step / 7) % 16;
                if step % 3 == 0 {
                    draft.read(line as u16);
                    expected.push(Some(flat[line as usize]));
                } else {
                    let load = Load { time: step, ..LOAD };
                    draft.write(line as u16, &load.to_bytes());
                    flat[line as usize] = load;
                    expected.push(None);
                }
            }
            let mut slots = [Slot::default(); 900];
            let file = draft.finish();
            let totals = run(&file, &mut slots, &mut [0; 640], &mut [0; 40]).unwrap();
            assert_eq!(totals.taken, 600);
            assert_eq!(totals.wear, 600 + totals.copies);
            let tolls: u64 = slots.iter().map(|slot| slot.answer.toll()).sum();
            assert_eq!(totals.wear, tolls);
            for (slot, load) in slots.iter().zip(expected) {
                match load {
                    Some(load) => assert_eq!(slot.answer, Answer::Load(load)),
                    None => assert!(slot.answer.toll() >= 1),
                }
            }
        }
    }
}
