//! The certificates that came, and the row of each house's name.

use crate::bits::LIMIT;
use crate::certificate::{Certificate, Statement};
use crate::fault::Cause;

const SLOTS: usize = 2 * LIMIT;

/// Certificates by number; rows in a table with open addressing.
pub struct Registry {
    certificates: Vec<Certificate>,
    slots: Vec<Slot>,
}

/// A house and name as one number, plus one, or zero for a free slot; and the row.
#[derive(Clone, Copy)]
struct Slot {
    key: u32,
    row: u16,
}

#[inline]
fn key(house: u16, name: u16) -> u32 {
    (u32::from(house) << 16 | u32::from(name)) + 1
}

impl Default for Registry {
    fn default() -> Registry {
        let slots = vec![Slot { key: 0, row: 0 }; SLOTS];
        Registry { certificates: Vec::new(), slots }
    }
}

impl Registry {
    #[inline]
    pub fn certificates(&self) -> &[Certificate] {
        &self.certificates
    }

    /// Where the key stands, or the free slot that it would take.
    #[inline]
    fn slot(&self, key: u32) -> usize {
        let mut at = (key.wrapping_mul(0x9E37_79B1) >> (u32::BITS - SLOTS.ilog2())) as usize;
        while self.slots[at].key != key && self.slots[at].key != 0 {
            at = (at + 1) % SLOTS;
        }
        at
    }

    /// The first certificate that states this house's name.
    #[inline]
    pub fn row(&self, house: u16, name: u16) -> Option<u16> {
        let key = key(house, name);
        let slot = self.slots[self.slot(key)];
        (slot.key == key).then_some(slot.row)
    }

    pub fn add(&mut self, certificate: Certificate) -> Result<(), Cause> {
        let number = self.certificates.len();
        if number == LIMIT {
            return Err(Cause::Full);
        }
        if let Statement::Name(name) = certificate.statement {
            let key = key(certificate.issuer, name);
            let at = self.slot(key);
            if self.slots[at].key == 0 {
                self.slots[at] = Slot { key, row: number as u16 };
            }
        }
        self.certificates.push(certificate);
        Ok(())
    }

    pub fn take_back(&mut self, number: u16) -> Result<(), Cause> {
        let found = self.certificates.get_mut(usize::from(number));
        found.ok_or(Cause::NoCertificate)?.take_back();
        Ok(())
    }
}
