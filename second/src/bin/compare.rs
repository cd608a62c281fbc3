//! Compares a program `replay` with this library, byte by byte, on many run
//! files made from a seed.

use std::collections::BTreeMap;
use std::fmt;
use std::fs;
use std::io::{self, Write};
use std::path::{Path, PathBuf};
use std::process::{Command, ExitCode, Output, Stdio};
use std::thread;

use second::file::{Pile, RunFile, Settings};
use second::maker::{make, Kind, Made};
use second::refresh::power_of_two_within;
use second::{listing, run, Answer, Fault, Slot, Tag, Totals, BYTES, COUNTS, SLOTS};

const USAGE: &str = "usage: compare REPLAY [--seed N] [--files N] [--keep DIR]";

/// What the command line asks for.
struct Options {
    program: PathBuf,
    seed: u64,
    files: u64,
    keep: PathBuf,
}

impl Options {
    fn parse(mut words: impl Iterator<Item = String>) -> Result<Self, String> {
        let mut program = None;
        let (mut seed, mut files) = (1, 4_000);
        let mut keep = std::env::temp_dir().join("replay-compare");
        while let Some(word) = words.next() {
            match word.as_str() {
                "--seed" => seed = number_of(&word, words.next())?,
                "--files" => files = number_of(&word, words.next())?,
                "--keep" => keep = words.next().ok_or("--keep needs a directory")?.into(),
                _ if word.starts_with('-') => return Err(format!("unknown option {word}")),
                _ if program.is_none() => program = Some(PathBuf::from(word)),
                _ => return Err(format!("one program alone, not {word} as well")),
            }
        }
        let program = program.ok_or("no program to compare with")?;
        Ok(Options { program, seed, files, keep })
    }
}

fn number_of(option: &str, word: Option<String>) -> Result<u64, String> {
    word.and_then(|word| word.parse().ok()).ok_or_else(|| format!("{option} needs a number"))
}

/// What the library makes of a file.
struct Expected {
    outcome: Result<Totals, Fault>,
    slots: Vec<Slot>,
    text: String,
}

impl Expected {
    fn of(file: &[u8]) -> Self {
        let mut slots = vec![Slot::default(); SLOTS];
        let outcome = run(file, &mut slots, &mut vec![0; BYTES], &mut vec![0; COUNTS]);
        let text = listing(&outcome, &slots);
        Expected { outcome, slots, text }
    }
}

/// Runs the program on a file. The file is fed from a thread of its own, so
/// that a program that prints before it has read everything cannot stall; a
/// program that stops reading early is no failure of the feeding.
fn replay_by(program: &Path, file: &[u8]) -> io::Result<Output> {
    let mut child = Command::new(program)
        .stdin(Stdio::piped())
        .stdout(Stdio::piped())
        .stderr(Stdio::piped())
        .spawn()?;
    let mut input = child.stdin.take().expect("its input is piped");
    thread::scope(|scope| {
        let feeder = scope.spawn(move || input.write_all(file));
        let output = child.wait_with_output()?;
        match feeder.join().expect("the feeder does not panic") {
            Err(error) if error.kind() != io::ErrorKind::BrokenPipe => Err(error),
            _ => Ok(output),
        }
    })
}

/// Tells how an output differs from what was expected, if it does.
fn difference(expected: &str, output: &Output) -> Option<String> {
    if output.status.code() == Some(0) && output.stdout == expected.as_bytes() {
        return None;
    }
    let shown = String::from_utf8_lossy(&output.stdout);
    let (mut ours, mut theirs) = (expected.split_inclusive('\n'), shown.split_inclusive('\n'));
    let mut number = 0;
    let (our_line, their_line) = loop {
        number += 1;
        match (ours.next(), theirs.next()) {
            (Some(our), Some(their)) if our == their => continue,
            pair => break pair,
        }
    };
    let show =
        |line: Option<&str>| line.map_or("no such line".to_owned(), |line| format!("{line:?}"));
    Some(format!(
        "  {}\n  line {number} of the library: {}\n  line {number} of the program: {}\n  on standard error: {:?}",
        output.status,
        show(our_line),
        show(their_line),
        String::from_utf8_lossy(&output.stderr),
    ))
}

/// Counts of what the files came to.
#[derive(Default)]
struct Tally {
    kinds: BTreeMap<Kind, u64>,
    piles: BTreeMap<char, u64>,
    /// By number and stage.
    faults: BTreeMap<(u8, String), u64>,
    writes: Answers,
    reads: Answers,
    copies: u64,
    /// Listings in which the refresh came round to the ring's first key.
    ring_wraps: u64,
    /// Listings in which the life was used up.
    used_up: u64,
}

/// How the requests of one letter were answered.
#[derive(Default)]
struct Answers {
    ok: u64,
    no_such_line: u64,
    life_used: u64,
}

impl Answers {
    fn count(&mut self, answer: &Answer) {
        match answer.denial_number() {
            0 => self.ok += 1,
            1 => self.no_such_line += 1,
            _ => self.life_used += 1,
        }
    }
}

impl Tally {
    fn count(&mut self, made: &Made, expected: &Expected) {
        *self.kinds.entry(made.kind).or_default() += 1;
        match expected.outcome {
            Ok(totals) => self.count_listing(&made.file, &totals, &expected.slots),
            Err(fault) => {
                let key = (fault.denial.number(), fault.stage.to_string());
                *self.faults.entry(key).or_default() += 1;
            }
        }
    }

    fn count_listing(&mut self, file: &[u8], totals: &Totals, slots: &[Slot]) {
        for slot in &slots[..totals.requests] {
            match slot.tag {
                Tag::Write => self.writes.count(&slot.answer),
                _ => self.reads.count(&slot.answer),
            }
        }
        self.copies += totals.copies;
        self.used_up += u64::from(totals.left == 0);
        let settings = RunFile::read(file, SLOTS).expect("it has a listing").settings;
        self.ring_wraps += u64::from(rounds(&settings, totals.taken) >= 4);
        let letter = match settings.pile {
            Pile::A => 'A',
            Pile::B => 'B',
            Pile::C => 'C',
        };
        *self.piles.entry(letter).or_default() += 1;
    }
}

/// How many whole rounds the refresh of a pile has made.
fn rounds(settings: &Settings, taken: u32) -> u32 {
    let (lines, regions) = (u32::from(settings.lines), u32::from(settings.regions));
    let below = match settings.pile {
        Pile::A => return 0,
        Pile::B => lines,
        Pile::C => regions * (lines / regions - 1),
    };
    taken / u32::from(settings.interval) / power_of_two_within(below)
}

impl fmt::Display for Tally {
    fn fmt(&self, f: &mut fmt::Formatter<'_>) -> fmt::Result {
        let join = |parts: Vec<String>| parts.join(", ");
        let kinds = self.kinds.iter().map(|(kind, count)| format!("{kind} {count}"));
        let piles = self.piles.iter().map(|(pile, count)| format!("{pile} {count}"));
        let faults = self.faults.iter();
        let faults = faults.map(|((number, stage), count)| format!("{number} {stage}: {count}"));
        write!(
            f,
            "{} files ({}); {} listings ({}); {} faults ({}); ",
            self.kinds.values().sum::<u64>(),
            join(kinds.collect()),
            self.piles.values().sum::<u64>(),
            join(piles.collect()),
            self.faults.values().sum::<u64>(),
            join(faults.collect()),
        )?;
        write!(
            f,
            "writes ok {}, no 1 {}, no 2 {}; reads ok {}, no 1 {}; copies {}; ",
            self.writes.ok,
            self.writes.no_such_line,
            self.writes.life_used,
            self.reads.ok,
            self.reads.no_such_line,
            self.copies,
        )?;
        write!(f, "rings wrapped {}, lives used up {}", self.ring_wraps, self.used_up)
    }
}

/// Keeps a file at which the two differ, and answers where.
fn keep(options: &Options, index: u64, file: &[u8]) -> io::Result<PathBuf> {
    fs::create_dir_all(&options.keep)?;
    let path = options.keep.join(format!("seed-{}-file-{index}.run", options.seed));
    fs::write(&path, file)?;
    Ok(path)
}

/// Compares every file; answers whether the two agree on all.
fn compare(options: &Options) -> io::Result<bool> {
    let mut tally = Tally::default();
    for index in 0..options.files {
        let made = make(options.seed, index);
        let expected = Expected::of(&made.file);
        let output = replay_by(&options.program, &made.file)?;
        if let Some(difference) = difference(&expected.text, &output) {
            let path = keep(options, index, &made.file)?;
            println!("seed {} file {index} ({}) differs:", options.seed, made.kind);
            println!("{difference}\n  kept as {}", path.display());
            return Ok(false);
        }
        tally.count(&made, &expected);
    }
    println!("seed {}: {tally}", options.seed);
    Ok(true)
}

fn main() -> ExitCode {
    let options = match Options::parse(std::env::args().skip(1)) {
        Ok(options) => options,
        Err(reason) => {
            eprintln!("compare: {reason}\n{USAGE}");
            return ExitCode::from(2);
        }
    };
    match compare(&options) {
        Ok(true) => ExitCode::SUCCESS,
        Ok(false) => ExitCode::FAILURE,
        Err(error) => {
            eprintln!("compare: {}: {error}", options.program.display());
            ExitCode::from(2)
        }
    }
}
