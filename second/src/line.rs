//! Line kinds: how a value is laid into bytes.

use crate::denial::Denial;

/// A kind of line. Its law: a value that is written and then read comes back
/// equal.
pub trait Line: Copy {
    /// How many bytes a value takes, from 1 to 64.
    const WIDTH: usize;

    /// Writes the value into a buffer exactly as long as the width.
    fn write_to(&self, buffer: &mut [u8]) -> Result<(), Denial>;

    /// Reads a value from a buffer exactly as long as the width.
    fn read_from(buffer: &[u8]) -> Result<Self, Denial>;
}

/// The word: an unsigned number of 64 bits.
impl Line for u64 {
    const WIDTH: usize = 8;

    fn write_to(&self, buffer: &mut [u8]) -> Result<(), Denial> {
        let buffer: &mut [u8; 8] = buffer.try_into().map_err(|_| Denial::WrongLength)?;
        *buffer = self.to_le_bytes();
        Ok(())
    }

    fn read_from(buffer: &[u8]) -> Result<Self, Denial> {
        let bytes = buffer.try_into().map_err(|_| Denial::WrongLength)?;
        Ok(u64::from_le_bytes(bytes))
    }
}

/// One record of a dredger's log.
#[derive(Clone, Copy, Debug, Default, PartialEq, Eq)]
pub struct Load {
    /// Seconds.
    pub time: u32,
    /// Centimetres.
    pub east: i32,
    /// Centimetres.
    pub north: i32,
    pub tonnes: u16,
    /// 0 sailing, 1 dredging, 2 dumping, 3 lying; others are kept as they are.
    pub activity: u8,
}

impl Load {
    /// The bytes of a load; the spare byte at the end is written 0.
    pub fn to_bytes(self) -> [u8; 16] {
        let mut bytes = [0; 16];
        bytes[0..4].copy_from_slice(&self.time.to_le_bytes());
        bytes[4..8].copy_from_slice(&self.east.to_le_bytes());
        bytes[8..12].copy_from_slice(&self.north.to_le_bytes());
        bytes[12..14].copy_from_slice(&self.tonnes.to_le_bytes());
        bytes[14] = self.activity;
        bytes
    }

    /// The load that such bytes are read as; the spare byte is not looked at.
    pub fn from_bytes(b: &[u8; 16]) -> Self {
        Load {
            time: u32::from_le_bytes([b[0], b[1], b[2], b[3]]),
            east: i32::from_le_bytes([b[4], b[5], b[6], b[7]]),
            north: i32::from_le_bytes([b[8], b[9], b[10], b[11]]),
            tonnes: u16::from_le_bytes([b[12], b[13]]),
            activity: b[14],
        }
    }
}

impl Line for Load {
    const WIDTH: usize = 16;

    fn write_to(&self, buffer: &mut [u8]) -> Result<(), Denial> {
        let buffer: &mut [u8; 16] = buffer.try_into().map_err(|_| Denial::WrongLength)?;
        *buffer = self.to_bytes();
        Ok(())
    }

    fn read_from(buffer: &[u8]) -> Result<Self, Denial> {
        let bytes = buffer.try_into().map_err(|_| Denial::WrongLength)?;
        Ok(Load::from_bytes(bytes))
    }
}

#[cfg(test)]
mod tests {
    use super::*;

    const LOAD: Load =
        Load { time: 0x0403_0201, east: -5, north: i32::MIN, tonnes: 0x0A09, activity: 200 };

    #[test]
    fn a_load_is_laid_lowest_byte_first() {
        let bytes = [1, 2, 3, 4, 0xFB, 0xFF, 0xFF, 0xFF, 0, 0, 0, 0x80, 9, 10, 200, 0];
        assert_eq!(LOAD.to_bytes(), bytes);
        assert_eq!(Load::from_bytes(&bytes), LOAD);
    }

    #[test]
    fn the_spare_byte_is_not_looked_at() {
        let mut bytes = LOAD.to_bytes();
        bytes[15] = 77;
        assert_eq!(Load::from_bytes(&bytes), LOAD);
    }

    #[test]
    fn a_buffer_of_another_length_is_denied_and_left() {
        let mut buffer = [7; 17];
        assert_eq!(LOAD.write_to(&mut buffer), Err(Denial::WrongLength));
        assert_eq!(LOAD.write_to(&mut buffer[..15]), Err(Denial::WrongLength));
        assert_eq!(5u64.write_to(&mut buffer[..7]), Err(Denial::WrongLength));
        assert_eq!(buffer, [7; 17]);
        assert_eq!(Load::read_from(&buffer), Err(Denial::WrongLength));
        assert_eq!(u64::read_from(&buffer[..9]), Err(Denial::WrongLength));
    }

    #[test]
    fn a_word_comes_back() {
        let mut buffer = [0; 8];
        assert_eq!(0x0102u64.write_to(&mut buffer), Ok(()));
        assert_eq!(buffer, [2, 1, 0, 0, 0, 0, 0, 0]);
        assert_eq!(u64::read_from(&buffer), Ok(0x0102));
    }
}
