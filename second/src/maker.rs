//! Makes run files from a seed: good ones, ones at the edges of every
//! number, and damaged ones.

use std::fmt;

use crate::draft::Draft;
use crate::line::Load;
use crate::refresh::power_of_two_within;
use crate::{BYTES, SLOTS};

/// A small generator of numbers (splitmix64): the same seed gives the same
/// numbers everywhere.
pub struct Rng(u64);

impl Rng {
    pub fn new(seed: u64) -> Self {
        Rng(seed)
    }

    /// The generator of one file, which can so be made again by itself.
    fn of_file(seed: u64, index: u64) -> Self {
        Rng(Rng(seed).draw().wrapping_add(Rng(!index).draw()))
    }

    pub fn draw(&mut self) -> u64 {
        self.0 = self.0.wrapping_add(0x9E37_79B9_7F4A_7C15);
        let x = (self.0 ^ (self.0 >> 30)).wrapping_mul(0xBF58_476D_1CE4_E5B9);
        let x = (x ^ (x >> 27)).wrapping_mul(0x94D0_49BB_1331_11EB);
        x ^ (x >> 31)
    }

    /// A number from the first to the last.
    pub fn range(&mut self, first: u64, last: u64) -> u64 {
        first + self.draw() % (last - first + 1)
    }

    pub fn below(&mut self, end: usize) -> usize {
        self.range(0, end as u64 - 1) as usize
    }

    /// True once in so many times.
    pub fn once_in(&mut self, times: usize) -> bool {
        self.below(times) == 0
    }

    pub fn pick<T: Copy>(&mut self, from: &[T]) -> T {
        from[self.below(from.len())]
    }

    pub fn bytes(&mut self, length: usize) -> Vec<u8> {
        (0..length).map(|_| self.draw() as u8).collect()
    }
}

/// What a file was made to try.
#[derive(Clone, Copy, Debug, PartialEq, Eq, PartialOrd, Ord)]
pub enum Kind {
    /// Settings of all sizes that fit.
    Fit,
    /// About as many requests as there are slots.
    Long,
    /// Small piles that move at nearly every write: many rounds.
    Rounds,
    /// Lives that end within the requests.
    UsedUp,
    /// Numbers at the edges of their ranges.
    Edges,
    /// Good files that were damaged.
    Damaged,
    /// Lengths at the edges of what is read.
    Lengths,
    /// Random bytes, with more or less of a trailer.
    Noise,
}

impl Kind {
    /// Each as often as it is to be made, of 100.
    const SHARES: [(Kind, usize); 8] = [
        (Kind::Fit, 18),
        (Kind::Long, 8),
        (Kind::Rounds, 16),
        (Kind::UsedUp, 14),
        (Kind::Edges, 18),
        (Kind::Damaged, 19),
        (Kind::Lengths, 4),
        (Kind::Noise, 3),
    ];

    fn choose(rng: &mut Rng) -> Kind {
        let mut at = rng.below(Kind::SHARES.iter().map(|(_, share)| share).sum());
        for (kind, share) in Kind::SHARES {
            if at < share {
                return kind;
            }
            at -= share;
        }
        unreachable!("the shares add up")
    }
}

impl fmt::Display for Kind {
    fn fmt(&self, f: &mut fmt::Formatter<'_>) -> fmt::Result {
        f.write_str(match self {
            Kind::Fit => "fit",
            Kind::Long => "long",
            Kind::Rounds => "rounds",
            Kind::UsedUp => "used-up",
            Kind::Edges => "edges",
            Kind::Damaged => "damaged",
            Kind::Lengths => "lengths",
            Kind::Noise => "noise",
        })
    }
}

/// A file and what it was made to try.
pub struct Made {
    pub kind: Kind,
    pub file: Vec<u8>,
}

/// The file of this index among those of a seed.
pub fn make(seed: u64, index: u64) -> Made {
    let rng = &mut Rng::of_file(seed, index);
    let kind = Kind::choose(rng);
    let file = match kind {
        Kind::Fit => fit(rng),
        Kind::Long => long(rng),
        Kind::Rounds => rounds(rng),
        Kind::UsedUp => used_up(rng),
        Kind::Edges => edges(rng),
        Kind::Damaged => damaged(rng),
        Kind::Lengths => lengths(rng),
        Kind::Noise => noise(rng),
    };
    Made { kind, file }
}

fn fit(rng: &mut Rng) -> Vec<u8> {
    let mut draft = fitting(rng);
    let number = rng.below(300);
    add_requests(rng, &mut draft, number);
    add_sweep(rng, &mut draft);
    draft.finish()
}

fn long(rng: &mut Rng) -> Vec<u8> {
    let mut draft = if rng.once_in(3) { small(rng) } else { fitting(rng) };
    let number = rng.pick(&[SLOTS - 1, SLOTS, SLOTS, SLOTS, SLOTS + 1, SLOTS + 2]);
    add_requests(rng, &mut draft, number);
    if rng.once_in(8) {
        draft.number = rng.pick(&[SLOTS - 1, SLOTS, SLOTS + 1]) as u32;
    }
    draft.finish()
}

fn rounds(rng: &mut Rng) -> Vec<u8> {
    let mut draft = small(rng);
    let number = rng.range(200, 1_200) as usize;
    add_requests(rng, &mut draft, number);
    add_sweep(rng, &mut draft);
    draft.finish()
}

fn used_up(rng: &mut Rng) -> Vec<u8> {
    let mut draft = if rng.once_in(3) { fitting(rng) } else { small(rng) };
    let number = rng.range(10, 400) as usize;
    let writes = rng.below(number) as u64;
    let slack = rng.range(0, 3);
    draft.life =
        (life_for(&draft, writes) + slack).saturating_sub(1).min(u64::from(u32::MAX)) as u32;
    add_requests(rng, &mut draft, number);
    add_sweep(rng, &mut draft);
    draft.finish()
}

fn edges(rng: &mut Rng) -> Vec<u8> {
    let mut draft = if rng.once_in(2) { fitting(rng) } else { small(rng) };
    for _ in 0..rng.pick(&[1, 1, 1, 2, 3]) {
        set_to_an_edge(rng, &mut draft);
    }
    let number = rng.below(60);
    add_requests(rng, &mut draft, number);
    draft.finish()
}

fn damaged(rng: &mut Rng) -> Vec<u8> {
    let mut draft = if rng.once_in(2) { fitting(rng) } else { small(rng) };
    let number = rng.below(30);
    add_requests(rng, &mut draft, number);
    let ways = rng.pick(&[1, 2, 3]);
    if ways & 1 != 0 {
        damage_draft(rng, &mut draft);
    }
    let mut file = draft.finish();
    if ways & 2 != 0 {
        damage_file(rng, &mut file);
    }
    file
}

fn lengths(rng: &mut Rng) -> Vec<u8> {
    let ends = [0, 1, 15, 16, 35, 36, 37, BYTES - 1, BYTES, BYTES, BYTES + 1, 70_000];
    let length = rng.pick(&ends);
    let mut file = rng.bytes(length);
    if rng.once_in(4) {
        return file;
    }
    let mut draft = small(rng);
    draft.ahead.clear();
    if length > 1_000 {
        let number = rng.below(SLOTS);
        add_requests(rng, &mut draft, number);
    }
    let good = draft.finish();
    let overlap = length.min(good.len());
    file.truncate(length - overlap);
    file.extend(&good[good.len() - overlap..]);
    file
}

fn noise(rng: &mut Rng) -> Vec<u8> {
    let length = rng.below(200);
    let mut file = rng.bytes(length);
    if length < 36 || rng.once_in(3) {
        return file;
    }
    let trailer = length - 16;
    file[length - 4..].copy_from_slice(b"RUN1");
    if rng.once_in(3) {
        return file;
    }
    let to_requests = rng.below(trailer - 20 + 1);
    let settings = trailer - to_requests - 20;
    put_u32(&mut file, trailer, to_requests as u32 + 20);
    put_u32(&mut file, trailer + 4, to_requests as u32);
    put_u32(&mut file, trailer + 8, rng.pick(&[0, 1, 2, 3, 30]));
    file[settings] = rng.pick(b"ABC");
    if to_requests > 0 && rng.once_in(2) {
        file[settings + 20] = rng.pick(b"rw");
    }
    file
}

/// Settings of any size that fit, with a life that is not used up.
fn fitting(rng: &mut Rng) -> Draft {
    let mut draft = Draft {
        ahead: ahead(rng),
        letter: rng.pick(b"ABC"),
        regions: rng.range(1, 16) as u8,
        interval: interval(rng),
        n: rng.range(1, 5) as u8,
        unread: rng.draw() as u8,
        life: plentiful_life(rng),
        keys: keys(rng),
        ..Draft::default()
    };
    draft.lines = lines(rng, least_lines(&draft));
    if draft.letter == b'B' && rng.once_in(2) {
        draft.regions = rng.draw() as u8;
        draft.n = rng.draw() as u8;
    }
    draft
}

/// Settings of a small pile that moves often.
fn small(rng: &mut Rng) -> Draft {
    let mut draft = fitting(rng);
    draft.letter = rng.pick(b"ABBCC");
    draft.interval = rng.pick(&[1, 1, 1, 2, 2, 3, 5]);
    draft.regions = rng.range(1, 4) as u8;
    draft.n = rng.pick(&[1, 1, 2]);
    let most_more = rng.pick(&[3, 3, 8, 30]);
    draft.lines = (least_lines(&draft) + rng.range(0, most_more)) as u16;
    draft
}

fn ahead(rng: &mut Rng) -> Vec<u8> {
    let most = rng.pick(&[0, 0, 0, 3, 40, 40, 300, 5_000]);
    let length = rng.range(0, most) as usize;
    rng.bytes(length)
}

fn interval(rng: &mut Rng) -> u16 {
    let most = rng.pick(&[1, 2, 4, 8, 8, 64, 300, 65_535]);
    rng.range(1, most) as u16
}

fn plentiful_life(rng: &mut Rng) -> u32 {
    let most = rng.pick(&[30_000, 1_000_000, u32::MAX]);
    let life = rng.range(20_000, u64::from(most)) as u32;
    rng.pick(&[life, life, u32::MAX, u32::MAX - 1])
}

fn keys(rng: &mut Rng) -> [u16; 4] {
    let most = rng.pick(&[1, 15, 63, 4_095, 65_535, 65_535]);
    let mut keys = [0; 4].map(|_: u16| rng.range(0, most) as u16);
    if rng.once_in(6) {
        keys[rng.below(4)] = rng.pick(&[0, 65_535, keys[0]]);
    }
    keys
}

/// The least lines that a draft's regions and n ask for.
fn least_lines(draft: &Draft) -> u64 {
    let regions = u64::from(draft.regions);
    match draft.letter {
        b'B' => 2,
        _ => regions * (span(draft).div_ceil(regions) + 1),
    }
}

fn lines(rng: &mut Rng, least: u64) -> u16 {
    let most = rng.pick(&[least + 3, least + 20, 2 * least, 4_096]);
    rng.range(least, most.min(4_096)) as u16
}

/// The span of a draft's shuffle; an n out of range is taken as the nearest.
fn span(draft: &Draft) -> u64 {
    4u64.pow(u32::from(draft.n.clamp(1, 6)))
}

/// N, where a draft's pile has a refresh.
fn refresh_count(draft: &Draft) -> u64 {
    let lines = u32::from(draft.lines);
    let regions = u32::from(draft.regions).max(1);
    let below = match draft.letter {
        b'B' => lines,
        _ => regions * (lines / regions).saturating_sub(1),
    };
    u64::from(power_of_two_within(below))
}

/// The count of a draft's top layer, at least 1.
fn top_count(draft: &Draft) -> u64 {
    match draft.letter {
        b'B' => refresh_count(draft).max(1),
        _ => span(draft),
    }
}

/// The least life of the medium for which the top accepts so many writes.
fn life_for(draft: &Draft, writes: u64) -> u64 {
    let interval = u64::from(draft.interval).max(1);
    let moved = |writes: u64| writes + writes / interval;
    match draft.letter {
        b'A' => moved(writes),
        b'B' => moved(writes) + refresh_count(draft) / 2,
        _ => moved(moved(writes) + refresh_count(draft) / 2),
    }
}

fn set_to_an_edge(rng: &mut Rng, draft: &mut Draft) {
    match rng.below(8) {
        0 => draft.regions = rng.pick(&[0, 1, 16, 17, 255]),
        1 => draft.interval = rng.pick(&[0, 1, 2, 65_535]),
        2 => draft.n = rng.pick(&[0, 1, 5, 6, 7, 255]),
        3 | 4 => draft.lines = edge_of_lines(rng, draft),
        5 => {
            draft.regions = rng.range(1, 3) as u8;
            draft.lines = rng.range(1, 7) as u16;
        }
        _ => draft.life = edge_of_life(rng, draft),
    }
}

fn edge_of_lines(rng: &mut Rng, draft: &Draft) -> u16 {
    let twice = 2 * u16::from(draft.regions);
    let least = match draft.regions {
        0 => 0,
        _ => least_lines(draft) as u16,
    };
    rng.pick(&[
        0,
        1,
        2,
        twice.saturating_sub(1),
        twice,
        twice + 1,
        least.saturating_sub(1),
        least,
        4_095,
        4_096,
        4_097,
        65_535,
    ])
}

fn edge_of_life(rng: &mut Rng, draft: &Draft) -> u32 {
    let half = refresh_count(draft) / 2;
    let edge = rng.pick(&[0, 1, half, life_for(draft, 0), life_for(draft, 1), life_for(draft, 2)]);
    let life = (edge + rng.range(0, 4)).saturating_sub(2) as u32;
    rng.pick(&[life, life, life, life, 0, 1, u32::MAX])
}

/// Adds requests, mostly writes, that come back to a hot line again and
/// again and now and then ask for a line that is not there.
fn add_requests(rng: &mut Rng, draft: &mut Draft, number: usize) {
    let count = top_count(draft);
    let hot = rng.range(0, count - 1);
    let writes_of_16 = rng.pick(&[8, 12, 14, 15, 15, 16]);
    for _ in 0..number {
        let line = line(rng, count, hot);
        if rng.below(16) < writes_of_16 {
            let load = load(rng);
            draft.write(line, &load);
        } else {
            draft.read(line);
        }
    }
}

fn line(rng: &mut Rng, count: u64, hot: u64) -> u16 {
    let line = match rng.below(32) {
        0..=14 => hot,
        15..=17 => (hot + rng.range(0, 3)) % count,
        18 => rng.pick(&[count - 1, count, count + 1]),
        19 => rng.pick(&[count - 1, count, rng.0 & 0xFFFF, 65_535]),
        _ => rng.range(0, count - 1),
    };
    line as u16
}

fn load(rng: &mut Rng) -> [u8; 16] {
    match rng.below(8) {
        0..=3 => std::array::from_fn(|_| rng.draw() as u8),
        4 => [rng.pick(&[0, 127, 128, 255]); 16],
        5 => Load {
            time: rng.pick(&[0, 1, u32::MAX]),
            east: rng.pick(&[i32::MIN, i32::MAX, 0, -1]),
            north: rng.pick(&[i32::MIN, i32::MAX, 0, -1]),
            tonnes: rng.pick(&[0, 1, 65_535]),
            activity: rng.pick(&[0, 3, 4, 255]),
        }
        .to_bytes(),
        _ => Load {
            time: rng.range(0, 100_000) as u32,
            east: rng.range(0, 2_000) as i32 - 1_000,
            north: rng.range(0, 2_000) as i32 - 1_000,
            tonnes: rng.range(0, 999) as u16,
            activity: rng.range(0, 3) as u8,
        }
        .to_bytes(),
    }
}

/// Adds, half of the time, a read of each line and of one past them, as far
/// as slots and patience go.
fn add_sweep(rng: &mut Rng, draft: &mut Draft) {
    if rng.once_in(2) {
        let room = (SLOTS as u64 - u64::from(draft.number)).min(300);
        (0..room.min(top_count(draft) + 1)).for_each(|line| draft.read(line as u16));
    }
}

/// Where the requests of a draft begin among their bytes.
fn request_places(draft: &Draft) -> Vec<usize> {
    let width = |&at: &usize| if draft.requests[at] == b'w' { 19 } else { 3 };
    let next = |at: &usize| Some(at + width(at)).filter(|&at| at < draft.requests.len());
    let first = Some(0).filter(|_| !draft.requests.is_empty());
    std::iter::successors(first, next).collect()
}

/// Damages what a draft says, so that the rest of the file still agrees.
fn damage_draft(rng: &mut Rng, draft: &mut Draft) {
    let places = request_places(draft);
    match rng.below(8) {
        0 => draft.letter = rng.pick(b"abcD@0 \0\xFF"),
        1 => draft.number = draft.number.wrapping_sub(1),
        2 => draft.number += rng.pick(&[1, 1, 2, 1_000]),
        3 => draft.number = rng.pick(&[2_048, 2_049, 1 << 16, 1 << 31, u32::MAX]),
        4 | 5 if !places.is_empty() => {
            draft.requests[rng.pick(&places)] = rng.pick(b"RWqsvx\0\xFFrw");
        }
        6 if !draft.requests.is_empty() => {
            let cut = rng.range(1, 19).min(draft.requests.len() as u64) as usize;
            draft.requests.truncate(draft.requests.len() - cut);
        }
        _ => {
            let at = rng.below(draft.requests.len() + 1);
            draft.requests.insert(at, rng.pick(b"rwx\0"));
        }
    }
}

/// Damages the bytes of a file.
fn damage_file(rng: &mut Rng, file: &mut Vec<u8>) {
    let trailer = file.len() - 16;
    match rng.below(12) {
        0 | 1 => flip_a_bit(rng, file, 0),
        2 => flip_a_bit(rng, file, trailer),
        3 => {
            let at = rng.below(file.len());
            file[at] = rng.draw() as u8;
        }
        4 => file.truncate(rng.below(trailer + 16)),
        5 => file.truncate(trailer + 16 - rng.range(1, 20) as usize),
        6 => drop(file.drain(..rng.range(1, 20) as usize)),
        7 => {
            let length = rng.range(1, 20) as usize;
            file.extend(rng.bytes(length));
        }
        8 => drop(file.splice(0..0, rng.bytes(7))),
        9 => {
            let mark = rng.pick(&[b"RUN0", b"RUN2", b"run1", b"1NUR", b"RUM1", b"SUN1"]);
            file[trailer + 12..].copy_from_slice(mark);
        }
        _ => damage_distances(rng, file, trailer),
    }
}

fn flip_a_bit(rng: &mut Rng, file: &mut [u8], from: usize) {
    let at = rng.range(from as u64, file.len() as u64 - 1) as usize;
    file[at] ^= 1 << rng.below(8);
}

/// Sets the distances off by a little, one alone or both alike, past the
/// front of the file, or so that their sum would wrap round in 32 bits.
fn damage_distances(rng: &mut Rng, file: &mut [u8], trailer: usize) {
    let first = u32::from_le_bytes(file[trailer..trailer + 4].try_into().expect("four bytes"));
    let second = first - 20;
    let front = trailer as u32;
    let off = rng.pick(&[1, 1, 1, 2, 3, 19, u32::MAX, u32::MAX, u32::MAX - 2]);
    let (first, second) = match rng.below(7) {
        0 => (first.wrapping_add(off), second),
        1 => (first, second.wrapping_add(off)),
        2 | 3 => (first.wrapping_add(off), second.wrapping_add(off)),
        4 => (front, front - 20),
        5 => (front + 1, front - 19),
        _ => (off % 20, (off % 20).wrapping_sub(20)),
    };
    put_u32(file, trailer, first);
    put_u32(file, trailer + 4, second);
}

fn put_u32(file: &mut [u8], at: usize, number: u32) {
    file[at..at + 4].copy_from_slice(&number.to_le_bytes());
}

#[cfg(test)]
mod tests {
    use super::*;
    use crate::replay;

    #[test]
    fn the_same_seed_gives_the_same_files() {
        for index in 0..50 {
            assert_eq!(make(3, index).file, make(3, index).file);
        }
        assert!((0..50).any(|index| make(3, index).file != make(4, index).file));
    }

    #[test]
    fn files_that_are_to_fit_do() {
        for made in (0..400).map(|index| make(1, index)) {
            if matches!(made.kind, Kind::Fit | Kind::Rounds) {
                assert!(!replay(&made.file).starts_with("file no"));
            }
        }
    }
}
