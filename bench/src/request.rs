//! Heads of requests, and what they ask.

use crate::bits::LIMIT;
use crate::bytes::Reader;
use crate::fault::Cause;

pub const KIND: u8 = 4;

/// The bytes of the longest request: a head, and to each of 1,024 certificates 1,024 lines of six
/// steps.
pub const LONGEST: usize = 8 + LIMIT * LIMIT * 14;

/// Kind, house, right and number of lines.
#[derive(Clone, Copy, PartialEq, Eq, Debug)]
pub struct Head {
    pub house: u16,
    pub right: u8,
    pub lines: u32,
}

/// Who asks for which right at whose gate.
#[derive(Clone, Copy, Debug)]
pub struct Asked {
    pub owner: u16,
    pub house: u16,
    pub right: u8,
}

impl Head {
    /// Reads a head, and leaves the reader behind it.
    pub fn read(from: &mut Reader) -> Result<Head, Cause> {
        let head = Head::frame(from).ok_or(Cause::Framing)?;
        if usize::from(head.house) >= LIMIT || head.right > 63 {
            return Err(Cause::Range);
        }
        Ok(head)
    }

    fn frame(from: &mut Reader) -> Option<Head> {
        let kind = from.u8()?;
        let head = Head { house: from.u16()?, right: from.u8()?, lines: from.u32()? };
        (kind == KIND).then_some(head)
    }

    /// Reads a request that has no lines.
    pub fn read_alone(bytes: &[u8]) -> Result<Head, Cause> {
        let mut from = Reader::new(bytes);
        let head = Head::read(&mut from)?;
        if head.lines != 0 || !from.rest.is_empty() {
            return Err(Cause::Framing);
        }
        Ok(head)
    }

    pub fn write(&self, out: &mut Vec<u8>) {
        out.push(KIND);
        out.extend(self.house.to_be_bytes());
        out.push(self.right);
        out.extend(self.lines.to_be_bytes());
    }
}
