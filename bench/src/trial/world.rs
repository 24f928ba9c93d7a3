//! Few houses, names, rights and days, so that rights, rings and chains happen; and events among
//! them.

use crate::certificate::{Certificate, Statement, Subject};
use crate::random::Random;
use crate::trial::damage;

/// How large a case is.
#[derive(Clone, Copy, PartialEq, Eq, Debug)]
pub enum Size {
    Tiny,
    Small,
    Medium,
    Long,
}

pub struct World {
    pub size: Size,
    pub owner: u16,
    pub houses: Vec<u16>,
    pub names: Vec<u16>,
    pub rights: Vec<u8>,
    days: u32,
    /// How many events in a hundred are faulty.
    faulty: usize,
    /// How many certificates in a hundred have a span of days.
    spans: usize,
    /// How many in a hundred have a subject without names.
    bare: usize,
    /// How many in a hundred give rights.
    giving: usize,
}

/// Distinct numbers below a limit: mostly the first ones, sometimes any and the last one.
fn pool(random: &mut Random, count: usize, limit: usize) -> Vec<u16> {
    let mut all: Vec<u16> = (0..count as u16).collect();
    if random.percent(30) {
        all = (0..count).map(|_| random.below(limit) as u16).collect();
        all[0] = (limit - 1) as u16;
        all.sort_unstable();
        all.dedup();
    }
    all
}

impl World {
    pub fn new(random: &mut Random, size: Size) -> World {
        let (houses, names) = match size {
            Size::Tiny => (random.from(1, 4), random.from(1, 3)),
            Size::Small => (random.from(2, 8), random.from(1, 5)),
            Size::Medium => (random.from(4, 60), random.from(2, 30)),
            Size::Long => (random.from(10, 1024), random.from(2, 300)),
        };
        let houses = pool(random, houses, 1024);
        let names = pool(random, names, 65536);
        let count = random.from(1, 3);
        let rights = (0..count).map(|_| random.pick(&[0, 3, 7, 31, 32, 63])).collect();
        let owner = random.pick(&houses);
        let days = random.from(0, 9) as u32;
        let faulty = random.pick(&[0, 0, 4, 15]);
        let spans = random.pick(&[0, 20, 70]);
        let bare = random.pick(&[15, 30, 60]);
        let giving = random.pick(&[6, 15, 40]);
        World { size, owner, houses, names, rights, days, faulty, spans, bare, giving }
    }

    /// How many events a delivery has.
    pub fn events(&self, random: &mut Random) -> usize {
        match self.size {
            Size::Tiny => random.from(0, 10),
            Size::Small => random.from(3, 40),
            Size::Medium => random.from(30, 200),
            Size::Long => random.from(900, 1150),
        }
    }

    pub fn longest_backbone(&self) -> usize {
        match self.size {
            Size::Tiny => 5,
            Size::Small => 20,
            Size::Medium => 100,
            Size::Long => 1000,
        }
    }

    fn span(&self, random: &mut Random) -> (u32, u32) {
        if !random.percent(self.spans) {
            return (0, u32::MAX);
        }
        let mut day = || match random.below(12) {
            0 => 0,
            1 => u32::MAX,
            2 => u32::MAX - 1,
            _ => random.below(self.days as usize + 2) as u32,
        };
        (day(), day())
    }

    pub fn certificate(&self, random: &mut Random) -> Certificate {
        let (first, last) = self.span(random);
        let gives = random.percent(self.giving);
        let bare = random.percent(if gives { self.bare / 2 } else { self.bare });
        let count = match random.below(10) {
            _ if bare => 0,
            0..=5 => 1,
            6..=8 => 2,
            _ => random.from(3, 6),
        };
        let names: Vec<u16> = (0..count).map(|_| random.pick(&self.names)).collect();
        let subject = Subject::new(random.pick(&self.houses), &names);
        let by_owner = gives && random.percent(30);
        let issuer = if by_owner { self.owner } else { random.pick(&self.houses) };
        let statement = match gives {
            false => Statement::Name(random.pick(&self.names)),
            true => Statement::Rights { set: self.set(random), passing: random.percent(70) },
        };
        Certificate { issuer, first, last, subject, statement }
    }

    fn set(&self, random: &mut Random) -> u64 {
        let right = 1 << random.pick(&self.rights);
        match random.below(4) {
            0 => u64::MAX,
            1 => right | 1 << random.below(64),
            _ => right,
        }
    }

    /// Puts a random event behind others; `count` certificates came before.
    pub fn write_event(&self, random: &mut Random, count: usize, out: &mut Vec<u8>) {
        if random.percent(self.faulty) {
            let certificate = self.certificate(random);
            return damage::faulty_event(random, &certificate, out);
        }
        match random.below(20) {
            0 => {
                let beyond = usize::from(random.percent(10));
                let number = random.below(count + 1 + beyond);
                out.push(2);
                out.extend((number as u16).to_be_bytes());
            }
            1 => out.push(3),
            _ => self.certificate(random).write(out),
        }
    }
}
