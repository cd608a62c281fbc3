//! The reader of run files. It copies nothing but the settings: requests
//! borrow their loads from the file.

use crate::denial::{Denial, Fault, Stage};
use crate::line::{Line, Load};

/// The shortest file has settings and a trailer.
const SHORTEST: usize = SETTINGS_WIDTH + TRAILER_WIDTH;
const LONGEST: usize = 65_536;
const SETTINGS_WIDTH: usize = 20;
const TRAILER_WIDTH: usize = 16;
const MARK: &[u8; 4] = b"RUN1";
/// Where in the trailer the number of requests and the mark stand.
const NUMBER_AT: usize = 8;
const MARK_AT: usize = 12;

/// The piles that a file can name.
#[derive(Clone, Copy, Debug, PartialEq, Eq)]
pub enum Pile {
    A,
    B,
    C,
}

impl Pile {
    fn from_letter(letter: u8) -> Result<Self, Denial> {
        match letter {
            b'A' => Ok(Pile::A),
            b'B' => Ok(Pile::B),
            b'C' => Ok(Pile::C),
            _ => Err(Denial::UnknownPile),
        }
    }
}

/// The settings of a run, as they stand in the file: whether they are in
/// their ranges is asked by the surveys.
#[derive(Clone, Copy, Debug, PartialEq, Eq)]
pub struct Settings {
    pub pile: Pile,
    pub regions: u8,
    pub interval: u16,
    pub lines: u16,
    pub n: u8,
    pub life: u32,
    pub keys: [u16; 4],
}

impl Settings {
    fn read(bytes: &[u8]) -> Result<Self, Denial> {
        Ok(Settings {
            pile: Pile::from_letter(bytes[0])?,
            regions: bytes[1],
            interval: u16_at(bytes, 2),
            lines: u16_at(bytes, 4),
            n: bytes[6],
            life: u32_at(bytes, 8),
            keys: [12, 14, 16, 18].map(|at| u16_at(bytes, at)),
        })
    }
}

/// What a request asks for.
#[derive(Clone, Copy, Debug, PartialEq, Eq)]
pub enum Action<'f> {
    Read,
    /// The bytes of the load to write.
    Write(&'f [u8; Load::WIDTH]),
}

/// One request, borrowed from the file.
#[derive(Clone, Copy, Debug, PartialEq, Eq)]
pub struct Request<'f> {
    /// Its first byte in the file.
    pub place: usize,
    pub line: u16,
    pub action: Action<'f>,
}

/// The bytes between settings and trailer, read request by request.
#[derive(Clone, Copy, Debug)]
struct Scanner<'f> {
    rest: &'f [u8],
    /// Where in the file the rest begins.
    place: usize,
}

impl<'f> Scanner<'f> {
    /// The request at the front of the rest, which begins with this letter,
    /// and what follows it.
    fn request(&self, letter: u8, body: &'f [u8]) -> Result<(Request<'f>, &'f [u8]), Denial> {
        let is_write = match letter {
            b'r' => false,
            b'w' => true,
            _ => return Err(Denial::UnknownRequest),
        };
        let (&line, mut body) = body.split_first_chunk().ok_or(Denial::RequestCutShort)?;
        let action = if is_write {
            let (load, after) = body.split_first_chunk().ok_or(Denial::RequestCutShort)?;
            body = after;
            Action::Write(load)
        } else {
            Action::Read
        };
        let line = u16::from_le_bytes(line);
        Ok((Request { place: self.place, line, action }, body))
    }
}

impl<'f> Iterator for Scanner<'f> {
    type Item = Result<Request<'f>, Fault>;

    fn next(&mut self) -> Option<Self::Item> {
        let (&letter, body) = self.rest.split_first()?;
        Some(match self.request(letter, body) {
            Ok((request, after)) => {
                self.place += self.rest.len() - after.len();
                self.rest = after;
                Ok(request)
            }
            Err(denial) => Err(Fault { denial, place: self.place, stage: Stage::Request }),
        })
    }
}

/// The trailer, and where it begins.
struct Trailer {
    place: usize,
    settings_place: usize,
    number: usize,
}

impl Trailer {
    /// Asks the questions about length, mark and distances.
    fn read(file: &[u8]) -> Result<Self, Fault> {
        let fault = |denial, place| Fault { denial, place, stage: Stage::Trailer };
        let length = file.len();
        Denial::FileLength
            .unless((SHORTEST..=LONGEST).contains(&length))
            .map_err(|denial| fault(denial, 0))?;
        let place = length - TRAILER_WIDTH;
        let bytes = &file[place..];
        Denial::NoMark
            .unless(bytes[MARK_AT..] == *MARK)
            .map_err(|denial| fault(denial, place + MARK_AT))?;
        let settings_place = settings_place(place, bytes).map_err(|denial| fault(denial, place))?;
        Ok(Trailer { place, settings_place, number: u32_at(bytes, NUMBER_AT) as usize })
    }

    /// A fault that is told at the number of requests.
    fn miscounted(&self, denial: Denial) -> Fault {
        Fault { denial, place: self.place + NUMBER_AT, stage: Stage::Trailer }
    }
}

/// The place of the settings, from the two distances of a trailer. The sum
/// is taken in 64 bits, so that no distance wraps round to a small one.
fn settings_place(trailer_place: usize, trailer: &[u8]) -> Result<usize, Denial> {
    let to_settings = u64::from(u32_at(trailer, 0));
    let to_requests = u64::from(u32_at(trailer, 4));
    let agree = to_settings == to_requests + SETTINGS_WIDTH as u64;
    Denial::BadDistances.unless(agree && to_settings <= trailer_place as u64)?;
    Ok(trailer_place - to_settings as usize)
}

/// A run file that has been read without a fault.
#[derive(Clone, Copy, Debug)]
pub struct RunFile<'f> {
    pub settings: Settings,
    pub settings_place: usize,
    /// How many requests there are.
    pub number: usize,
    scanner: Scanner<'f>,
}

impl<'f> RunFile<'f> {
    /// Reads a file for a caller with so many slots. Every question of the
    /// reading is asked here, and no slot is needed for any of them.
    pub fn read(file: &'f [u8], slots: usize) -> Result<Self, Fault> {
        let trailer = Trailer::read(file)?;
        let settings_place = trailer.settings_place;
        let (settings, requests) = file[settings_place..trailer.place].split_at(SETTINGS_WIDTH);
        let settings = Settings::read(settings).map_err(|denial| Fault {
            denial,
            place: settings_place,
            stage: Stage::Settings,
        })?;
        Denial::TooManyRequests
            .unless(trailer.number <= slots)
            .map_err(|denial| trailer.miscounted(denial))?;
        let scanner = Scanner { rest: requests, place: settings_place + SETTINGS_WIDTH };
        check_requests(scanner, &trailer)?;
        Ok(RunFile { settings, settings_place, number: trailer.number, scanner })
    }

    /// The requests in their order.
    pub fn requests(&self) -> impl Iterator<Item = Request<'f>> {
        // The reading found no fault in any, so this ends at the trailer.
        self.scanner.map_while(Result::ok)
    }

    /// The fault of a survey that was denied at a height of the pile.
    pub fn unfit(&self, height: u8) -> impl Fn(Denial) -> Fault {
        let place = self.settings_place;
        move |denial| Fault { denial, place, stage: Stage::Pile(height) }
    }
}

/// Reads requests until the trailer's number has been read or they are used
/// up, and asks that both be so.
fn check_requests(mut scanner: Scanner<'_>, trailer: &Trailer) -> Result<(), Fault> {
    let read = scanner
        .by_ref()
        .take(trailer.number)
        .try_fold(0, |read, request| request.map(|_| read + 1))?;
    Denial::RequestsMiscounted
        .unless(read == trailer.number && scanner.rest.is_empty())
        .map_err(|denial| trailer.miscounted(denial))
}

fn u16_at(bytes: &[u8], at: usize) -> u16 {
    u16::from_le_bytes([bytes[at], bytes[at + 1]])
}

fn u32_at(bytes: &[u8], at: usize) -> u32 {
    u32::from_le_bytes([bytes[at], bytes[at + 1], bytes[at + 2], bytes[at + 3]])
}

#[cfg(test)]
mod tests {
    use super::*;
    use crate::draft::Draft;

    fn two_requests() -> Draft {
        let mut draft = Draft { ahead: vec![9; 5], ..Draft::default() };
        draft.write(300, &[7; 16]);
        draft.read(1);
        draft
    }

    fn fault(file: &[u8]) -> String {
        RunFile::read(file, 2).unwrap_err().to_string()
    }

    #[test]
    fn requests_are_borrowed_in_order() {
        let file = two_requests().finish();
        let run = RunFile::read(&file, 2).unwrap();
        assert_eq!((run.settings_place, run.number), (5, 2));
        let requests: Vec<Request> = run.requests().collect();
        let write = Request { place: 25, line: 300, action: Action::Write(&[7; 16]) };
        let read = Request { place: 44, line: 1, action: Action::Read };
        assert_eq!(requests, [write, read]);
    }

    #[test]
    fn lengths() {
        assert_eq!(fault(&[]), "file no 8 at 0 stage T");
        assert_eq!(fault(&[0; 35]), "file no 8 at 0 stage T");
        assert_eq!(fault(&[0; 36]), "file no 9 at 32 stage T");
        assert_eq!(fault(&[0; 65_536]), "file no 9 at 65532 stage T");
        assert_eq!(fault(&[0; 65_537]), "file no 8 at 0 stage T");
        assert!(RunFile::read(&Draft::default().finish(), 0).is_ok());
    }

    #[test]
    fn distances() {
        let good = two_requests().finish();
        let trailer = good.len() - 16;
        let with = |first: u32, second: u32| {
            let mut file = good.clone();
            file[trailer..trailer + 4].copy_from_slice(&first.to_le_bytes());
            file[trailer + 4..trailer + 8].copy_from_slice(&second.to_le_bytes());
            fault(&file)
        };
        let bad = format!("file no 10 at {trailer} stage T");
        assert_eq!(with(42, 23), bad);
        assert_eq!(with(43, 22), bad);
        assert_eq!(with(48, 28), bad);
        assert_eq!(with(10, 10u32.wrapping_sub(20)), bad);
        assert_eq!(with(47, 27), "file no 11 at 0 stage S");
    }

    #[test]
    fn settings_and_numbers() {
        let mut draft = two_requests();
        draft.letter = b'D';
        draft.number = 3;
        assert_eq!(fault(&draft.finish()), "file no 11 at 5 stage S");
        draft.letter = b'C';
        let place = draft.finish().len() - 8;
        assert_eq!(fault(&draft.finish()), format!("file no 12 at {place} stage T"));
        draft.number = 1;
        assert_eq!(fault(&draft.finish()), format!("file no 15 at {place} stage T"));
        draft.number = 0;
        assert_eq!(fault(&draft.finish()), format!("file no 15 at {place} stage T"));
        let too_many = RunFile::read(&two_requests().finish(), 1).unwrap_err();
        assert_eq!(too_many.denial, Denial::TooManyRequests);
    }

    #[test]
    fn requests_that_cannot_be_read() {
        let mut draft = two_requests();
        draft.requests[19] = b'R';
        assert_eq!(fault(&draft.finish()), "file no 13 at 44 stage Q");
        draft.requests[19] = b'w';
        assert_eq!(fault(&draft.finish()), "file no 14 at 44 stage Q");
        draft.requests[19] = b'r';
        draft.requests.pop();
        assert_eq!(fault(&draft.finish()), "file no 14 at 44 stage Q");
        draft.requests.truncate(19);
        let place = draft.finish().len() - 8;
        assert_eq!(fault(&draft.finish()), format!("file no 15 at {place} stage T"));
    }

    #[test]
    fn what_follows_the_last_request_is_not_read_as_one() {
        let mut draft = two_requests();
        draft.requests.push(b'?');
        let place = draft.finish().len() - 8;
        assert_eq!(fault(&draft.finish()), format!("file no 15 at {place} stage T"));
    }
}
