//! Drafts of run files, for tests, the comparison and the benchmark. Every
//! number can be set apart from the others, so that damaged files can be
//! drafted as well.

use crate::line::{Line, Load};

#[derive(Clone, Debug)]
pub struct Draft {
    /// The bytes ahead of the settings, which are not read.
    pub ahead: Vec<u8>,
    pub letter: u8,
    pub regions: u8,
    pub interval: u16,
    pub lines: u16,
    pub n: u8,
    /// The byte of the settings that is not read.
    pub unread: u8,
    pub life: u32,
    pub keys: [u16; 4],
    /// The requests' bytes.
    pub requests: Vec<u8>,
    /// The number of requests that the trailer tells.
    pub number: u32,
}

/// A pile A of four lines with no requests.
impl Default for Draft {
    fn default() -> Self {
        Draft {
            ahead: Vec::new(),
            letter: b'A',
            regions: 1,
            interval: 4,
            lines: 5,
            n: 1,
            unread: 0,
            life: 1_000,
            keys: [1, 2, 3, 4],
            requests: Vec::new(),
            number: 0,
        }
    }
}

impl Draft {
    /// Adds a request to read a line.
    pub fn read(&mut self, line: u16) {
        self.add(b'r', line, &[]);
    }

    /// Adds a request to write a line.
    pub fn write(&mut self, line: u16, load: &[u8; Load::WIDTH]) {
        self.add(b'w', line, load);
    }

    fn add(&mut self, letter: u8, line: u16, load: &[u8]) {
        self.requests.push(letter);
        self.requests.extend(line.to_le_bytes());
        self.requests.extend(load);
        self.number += 1;
    }

    /// The bytes of the settings.
    pub fn settings(&self) -> [u8; 20] {
        let mut bytes = [0; 20];
        bytes[0] = self.letter;
        bytes[1] = self.regions;
        bytes[2..4].copy_from_slice(&self.interval.to_le_bytes());
        bytes[4..6].copy_from_slice(&self.lines.to_le_bytes());
        bytes[6] = self.n;
        bytes[7] = self.unread;
        bytes[8..12].copy_from_slice(&self.life.to_le_bytes());
        for (pair, key) in bytes[12..].chunks_exact_mut(2).zip(self.keys) {
            pair.copy_from_slice(&key.to_le_bytes());
        }
        bytes
    }

    /// The whole file.
    pub fn finish(&self) -> Vec<u8> {
        let to_requests = self.requests.len() as u32;
        let mut file = self.ahead.clone();
        file.extend(self.settings());
        file.extend(&self.requests);
        file.extend((to_requests + 20).to_le_bytes());
        file.extend(to_requests.to_le_bytes());
        file.extend(self.number.to_le_bytes());
        file.extend(b"RUN1");
        file
    }
}
