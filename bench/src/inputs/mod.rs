//! Named inputs: a gate's deliveries, and a question asked there.

pub mod chains;
pub mod consortium;
pub mod limits;
pub mod rings;
pub mod wide;

use crate::certificate::{Certificate, Statement, Subject};
use crate::random::Random;
use crate::request::Head;
use std::fs;
use std::io;
use std::path::Path;

pub const ALWAYS: (u32, u32) = (0, u32::MAX);

/// The right that is asked for, and the set of it alone.
pub const RIGHT: u8 = 3;
pub const SET: u64 = 1 << RIGHT;

pub struct Input {
    pub name: String,
    pub owner: u16,
    pub events: Vec<u8>,
    pub house: u16,
    pub right: u8,
}

impl Input {
    /// An input without damage: certificates in their order, and a house that asks for `RIGHT`.
    pub fn new(name: &str, owner: u16, house: u16, certificates: &[Certificate]) -> Input {
        let mut events = Vec::new();
        certificates.iter().for_each(|certificate| certificate.write(&mut events));
        Input { name: name.to_string(), owner, events, house, right: RIGHT }
    }

    pub fn ask(&self) -> Vec<u8> {
        let mut bytes = Vec::new();
        Head { house: self.house, right: self.right, lines: 0 }.write(&mut bytes);
        bytes
    }

    /// Writes NAME.events, NAME.ask and NAME.owner.
    pub fn write(&self, folder: &Path) -> io::Result<()> {
        let put = |kind: &str, bytes: &[u8]| {
            fs::write(folder.join(format!("{}.{kind}", self.name)), bytes)
        };
        put("events", &self.events)?;
        put("ask", &self.ask())?;
        put("owner", format!("{}\n", self.owner).as_bytes())
    }
}

/// The issuer's name stands for a house with names.
pub fn name(issuer: u16, name: u16, house: u16, names: &[u16]) -> Certificate {
    let (first, last) = ALWAYS;
    let subject = Subject::new(house, names);
    Certificate { issuer, first, last, subject, statement: Statement::Name(name) }
}

/// A house with names has the right that is asked for, and may pass it on.
pub fn right(issuer: u16, house: u16, names: &[u16]) -> Certificate {
    let (first, last) = ALWAYS;
    let subject = Subject::new(house, names);
    let statement = Statement::Rights { set: SET, passing: true };
    Certificate { issuer, first, last, subject, statement }
}

/// All named inputs.
pub fn all(seed: u64) -> Vec<Input> {
    let random = &mut Random::new(seed);
    vec![
        consortium::consortium(random),
        consortium::seasons(random),
        chains::rising(1000),
        chains::falling(1000),
        chains::givers(1000),
        rings::rings(random),
        wide::facts(1024),
        wide::six_names(random),
        limits::long_sheet(1024),
        limits::late_sheet(256),
    ]
}
