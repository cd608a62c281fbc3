//! Times the first implementation, linked as a static library, against this
//! one on the same run files.

use std::hint::black_box;
use std::process::ExitCode;
use std::time::{Duration, Instant};

use second::draft::Draft;
use second::line::Load;
use second::maker::Rng;
use second::{run, run_on_bytes, Slot, BYTES, COUNTS, SLOTS};

/// How often each is timed; the best time counts, being the least disturbed.
const ROUNDS: usize = 25;
/// How many runs are timed as one.
const RUNS: u32 = 200;
const LINES: u16 = 1_024;
const SEED: u64 = 20;

// The first implementation. Each call makes its own slots, and answers the
// sum of the tolls in them, or `u64::MAX` at a fault.
#[link(name = "bench", kind = "static")]
extern "C" {
    fn zindeuk_run(
        file: *const u8,
        file_len: usize,
        bytes: *mut u8,
        bytes_len: usize,
        counts: *mut u32,
        counts_len: usize,
    ) -> u64;
    fn zindeuk_run_on_bytes(
        file: *const u8,
        file_len: usize,
        bytes: *mut u8,
        bytes_len: usize,
        counts: *mut u32,
        counts_len: usize,
    ) -> u64;
}

/// One run in lent memory: the sum of the tolls in its slots, or `u64::MAX`
/// at a fault.
type Run = fn(&[u8], &mut [u8], &mut [u32]) -> u64;

#[inline(never)]
fn rattle_pile(file: &[u8], bytes: &mut [u8], counts: &mut [u32]) -> u64 {
    // SAFETY: each pointer stands with its slice's own length, the two that
    // are written through are borrowed mutably, and none outlives the call.
    unsafe {
        zindeuk_run(
            file.as_ptr(),
            file.len(),
            bytes.as_mut_ptr(),
            bytes.len(),
            counts.as_mut_ptr(),
            counts.len(),
        )
    }
}

#[inline(never)]
fn rattle_bytes(file: &[u8], bytes: &mut [u8], counts: &mut [u32]) -> u64 {
    // SAFETY: as in `rattle_pile`.
    unsafe {
        zindeuk_run_on_bytes(
            file.as_ptr(),
            file.len(),
            bytes.as_mut_ptr(),
            bytes.len(),
            counts.as_mut_ptr(),
            counts.len(),
        )
    }
}

/// The sum of the tolls in slots.
fn tolls(slots: &[Slot]) -> u64 {
    slots.iter().map(|slot| slot.answer.toll()).fold(0, u64::wrapping_add)
}

#[inline(never)]
fn rust_pile(file: &[u8], bytes: &mut [u8], counts: &mut [u32]) -> u64 {
    let mut slots = [Slot::default(); SLOTS];
    match run(file, &mut slots, bytes, counts) {
        Ok(_) => tolls(&slots),
        Err(_) => u64::MAX,
    }
}

#[inline(never)]
fn rust_bytes(file: &[u8], bytes: &mut [u8], counts: &mut [u32]) -> u64 {
    let mut slots = [Slot::default(); SLOTS];
    match run_on_bytes(file, &mut slots, bytes, counts) {
        Ok(_) => tolls(&slots),
        Err(_) => u64::MAX,
    }
}

/// The memory of one side, kept apart from the other's.
struct Memory {
    bytes: Vec<u8>,
    counts: Vec<u32>,
}

impl Memory {
    fn zeroed() -> Self {
        Memory { bytes: vec![0; BYTES], counts: vec![0; COUNTS] }
    }

    fn run(&mut self, run: Run, file: &[u8]) -> u64 {
        run(black_box(file), &mut self.bytes, &mut self.counts)
    }

    fn time(&mut self, run: Run, file: &[u8]) -> Duration {
        let begin = Instant::now();
        for _ in 0..RUNS {
            black_box(self.run(run, file));
        }
        begin.elapsed()
    }
}

/// One row of the table.
struct Case {
    name: &'static str,
    letter: u8,
    interval: u16,
    rattle: Run,
    rust: Run,
}

impl Case {
    /// As many writes as there are slots, a quarter of them to one line, and
    /// a life that they do not use up.
    fn file(&self) -> Vec<u8> {
        let mut draft = Draft {
            letter: self.letter,
            regions: 4,
            interval: self.interval,
            lines: LINES,
            n: 4,
            life: 1_000_000,
            keys: [0x3A5C, 0x91E7, 0x06B2, 0xD84F],
            ..Draft::default()
        };
        let mut rng = Rng::new(SEED);
        let hot = 77;
        for step in 0..SLOTS as u32 {
            let line = if rng.once_in(4) { hot } else { rng.below(256) as u16 };
            let load = Load {
                time: 30 * step,
                east: 5 * step as i32 - 3_000,
                north: 2_000 - 3 * step as i32,
                tonnes: rng.below(900) as u16,
                activity: rng.below(4) as u8,
            };
            draft.write(line, &load.to_bytes());
        }
        draft.finish()
    }

    /// Both must do the same before either is timed.
    fn check(&self, file: &[u8]) -> Result<u64, String> {
        let (mut rattle, mut rust) = (Memory::zeroed(), Memory::zeroed());
        let wear = rattle.run(self.rattle, file);
        let rust_wear = rust.run(self.rust, file);
        if wear == u64::MAX || wear < SLOTS as u64 || wear != rust_wear {
            return Err(format!("{}: wear {wear} and {rust_wear}", self.name));
        }
        if rattle.bytes != rust.bytes {
            return Err(format!("{}: the bytes differ", self.name));
        }
        if rattle.counts != rust.counts {
            return Err(format!("{}: the counts differ", self.name));
        }
        Ok(wear)
    }

    /// The best time of each, Rattle's and Rust's, taken in alternation.
    fn best(&self, file: &[u8]) -> (Duration, Duration) {
        let (mut rattle, mut rust) = (Memory::zeroed(), Memory::zeroed());
        let times =
            (0..ROUNDS).map(|_| (rattle.time(self.rattle, file), rust.time(self.rust, file)));
        times.fold((Duration::MAX, Duration::MAX), |best, time| {
            (best.0.min(time.0), best.1.min(time.1))
        })
    }

    fn row(&self) -> Result<String, String> {
        let file = self.file();
        let wear = self.check(&file)?;
        let (rattle, rust) = self.best(&file);
        let (rattle, rust) = (millions_per_second(rattle), millions_per_second(rust));
        Ok(format!(
            "{:<8} {:>8} {wear:>8} {rattle:>10.2} {rust:>10.2} {:>7.3}",
            self.name,
            self.interval,
            rattle / rust,
        ))
    }
}

/// The rate of the writes that were asked for, not of the copies.
fn millions_per_second(time: Duration) -> f64 {
    let writes = f64::from(RUNS) * SLOTS as f64;
    writes / time.as_secs_f64() / 1e6
}

fn cases() -> impl Iterator<Item = Case> {
    let piles = [("pile A", b'A'), ("pile B", b'B'), ("pile C", b'C')];
    let piles = piles.into_iter().flat_map(|(name, letter)| {
        [8, 64].map(|interval| {
            let (rattle, rust): (Run, Run) = (rattle_pile, rust_pile);
            Case { name, letter, interval, rattle, rust }
        })
    });
    // The bare medium has no use for an interval.
    let bare =
        Case { name: "bytes", letter: b'A', interval: 8, rattle: rattle_bytes, rust: rust_bytes };
    piles.chain([bare])
}

fn main() -> ExitCode {
    println!(
        "Millions of writes per second, {SLOTS} to a run, best of {ROUNDS} rounds of {RUNS} runs"
    );
    println!("pile     interval     wear     Rattle       Rust   ratio");
    for case in cases() {
        match case.row() {
            Ok(row) => println!("{row}"),
            Err(difference) => {
                eprintln!("bench: {difference}");
                return ExitCode::FAILURE;
            }
        }
    }
    ExitCode::SUCCESS
}
