//! Certificates and their bytes.

use crate::bits::LIMIT;
use crate::bytes::Reader;
use crate::fault::Cause;

pub const MOST_NAMES: usize = 6;

/// A house with names after it.
#[derive(Clone, Copy, PartialEq, Eq, Debug)]
pub struct Subject {
    pub house: u16,
    count: u8,
    names: [u16; MOST_NAMES],
}

impl Subject {
    /// More than six names are cut off.
    pub fn new(house: u16, names: &[u16]) -> Subject {
        let count = names.len().min(MOST_NAMES);
        let mut kept = [0; MOST_NAMES];
        kept[..count].copy_from_slice(&names[..count]);
        Subject { house, count: count as u8, names: kept }
    }

    #[inline]
    pub fn names(&self) -> &[u16] {
        &self.names[..usize::from(self.count)]
    }
}

#[derive(Clone, Copy, PartialEq, Eq, Debug)]
pub enum Statement {
    Name(u16),
    Rights { set: u64, passing: bool },
}

#[derive(Clone, Copy, PartialEq, Eq, Debug)]
pub struct Certificate {
    pub issuer: u16,
    pub first: u32,
    pub last: u32,
    pub subject: Subject,
    pub statement: Statement,
}

impl Certificate {
    #[inline]
    pub fn valid_on(&self, day: u32) -> bool {
        self.first <= day && day <= self.last
    }

    /// Leaves it valid on no day.
    pub fn take_back(&mut self) {
        (self.first, self.last) = (1, 0);
    }

    /// Reads what stands behind the kind: `None` where it can't be framed, else a fault of values.
    pub fn read(from: &mut Reader) -> Option<Result<Certificate, Cause>> {
        let issuer = from.u16()?;
        let (first, last) = (from.u32()?, from.u32()?);
        let house = from.u16()?;
        let count = usize::from(from.u8()?);
        let names = from.take(2 * count)?;
        let statement = match from.u8()? {
            0 => Statement::Name(from.u16()?),
            tag @ (1 | 2) => Statement::Rights { set: from.u64()?, passing: tag == 2 },
            _ => return None,
        };
        let empty = matches!(statement, Statement::Rights { set: 0, .. });
        let far = usize::from(issuer.max(house)) >= LIMIT;
        if far || count > MOST_NAMES || empty {
            return Some(Err(Cause::Range));
        }
        let mut kept = [0; MOST_NAMES];
        for (name, bytes) in kept.iter_mut().zip(names.chunks_exact(2)) {
            *name = crate::bytes::pair(bytes);
        }
        let subject = Subject { house, count: count as u8, names: kept };
        Some(Ok(Certificate { issuer, first, last, subject, statement }))
    }

    /// Puts the certificate's bytes, its kind first, behind others.
    pub fn write(&self, out: &mut Vec<u8>) {
        out.push(1);
        out.extend(self.issuer.to_be_bytes());
        out.extend(self.first.to_be_bytes());
        out.extend(self.last.to_be_bytes());
        out.extend(self.subject.house.to_be_bytes());
        out.push(self.subject.count);
        out.extend(self.subject.names().iter().flat_map(|name| name.to_be_bytes()));
        match self.statement {
            Statement::Name(name) => {
                out.push(0);
                out.extend(name.to_be_bytes());
            }
            Statement::Rights { set, passing } => {
                out.push(1 + u8::from(passing));
                out.extend(set.to_be_bytes());
            }
        }
    }
}
