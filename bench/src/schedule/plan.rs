//! The turns that a question's certificates have, with names and rows looked up once.

use crate::bits::{Bits, Set, EMPTY, LIMIT};
use crate::certificate::{Certificate, Statement, MOST_NAMES};
use crate::registry::Registry;
use crate::request::Asked;

/// The row of the houses that have the right and may pass it on, and of those that have it only.
/// Behind them each certificate has a row.
pub const PASSING: u16 = 0;
pub const HAVING: u16 = 1;

/// The row of a house's name.
#[inline]
fn name_row(registry: &Registry, house: u16, name: u16) -> Option<u16> {
    registry.row(house, name).map(|number| number + 2)
}

/// A certificate that may show something: it states a name, or gives the right that is asked for.
#[derive(Clone, Copy)]
pub struct Turn {
    pub certificate: u16,
    pub first: u32,
    pub last: u32,
    /// The house that must be shown to pass the right on.
    pub giver: Option<u16>,
    /// The row of the facts that it shows.
    pub target: u16,
    pub house: u16,
    /// The row of the subject's house and first name.
    pub first_row: Option<u16>,
    pub count: u8,
    /// For each name but the first, its place among the names after the first.
    pub later: [u16; MOST_NAMES],
}

impl Turn {
    pub fn count(&self) -> usize {
        usize::from(self.count)
    }

    #[inline]
    pub fn valid_on(&self, day: u32) -> bool {
        self.first <= day && day <= self.last
    }
}

/// A name that some subject has after its first name.
pub struct Later {
    /// The houses of which a certificate in the plan states the name.
    pub stated: Bits,
    rows: Vec<u16>,
}

impl Later {
    /// The row of the name of a house that states it.
    #[inline]
    pub fn row(&self, house: u16) -> u16 {
        self.rows[usize::from(house)]
    }
}

pub struct Plan {
    pub asked: Asked,
    /// How many rows there are.
    pub rows: usize,
    pub turns: Vec<Turn>,
    pub later: Vec<Later>,
    /// For each row of a name that stands after the first somewhere: its house, the name's place.
    pub steps: Vec<Option<(u16, u16)>>,
}

impl Plan {
    /// The turns of those certificates that count.
    pub fn new(registry: &Registry, asked: Asked, counts: impl Fn(&Certificate) -> bool) -> Plan {
        let all = registry.certificates();
        let rows = all.len() + 2;
        let mut plan =
            Plan { asked, rows, turns: Vec::new(), later: Vec::new(), steps: vec![None; rows] };
        let mut places = Places(vec![0; 1 << 16]);
        for (number, certificate) in all.iter().enumerate().filter(|(_, one)| counts(one)) {
            plan.add_turn(registry, certificate, number as u16, &mut places);
        }
        for certificate in all.iter().filter(|one| counts(one)) {
            plan.add_stated(registry, certificate, &places);
        }
        plan
    }

    fn add_turn(
        &mut self,
        registry: &Registry,
        of: &Certificate,
        number: u16,
        places: &mut Places,
    ) {
        let (giver, target) = match of.statement {
            Statement::Name(name) => match name_row(registry, of.issuer, name) {
                Some(row) => (None, row),
                None => return,
            },
            Statement::Rights { set, .. } if set >> self.asked.right & 1 == 0 => return,
            Statement::Rights { passing: true, .. } => (Some(of.issuer), PASSING),
            Statement::Rights { passing: false, .. } => (Some(of.issuer), HAVING),
        };
        let names = of.subject.names();
        let mut later = [0; MOST_NAMES];
        for (place, &name) in later.iter_mut().zip(names).skip(1) {
            *place = places.place(name, &mut self.later);
        }
        let house = of.subject.house;
        self.turns.push(Turn {
            certificate: number,
            first: of.first,
            last: of.last,
            giver,
            target,
            house,
            first_row: names.first().and_then(|&name| name_row(registry, house, name)),
            count: names.len() as u8,
            later,
        });
    }

    fn add_stated(&mut self, registry: &Registry, of: &Certificate, places: &Places) {
        let Statement::Name(name) = of.statement else {
            return;
        };
        let Some(place) = places.known(name) else {
            return;
        };
        let Some(row) = name_row(registry, of.issuer, name) else {
            return;
        };
        let later = &mut self.later[usize::from(place)];
        later.stated.insert(of.issuer);
        later.rows[usize::from(of.issuer)] = row;
        self.steps[usize::from(row)] = Some((of.issuer, place));
    }

    /// The name at a level of a turn that isn't the first.
    #[inline]
    pub fn later(&self, turn: &Turn, level: usize) -> &Later {
        &self.later[usize::from(turn.later[level])]
    }
}

/// For each name its place among the names after the first, plus one; zero where it has none.
struct Places(Vec<u16>);

impl Places {
    fn known(&self, name: u16) -> Option<u16> {
        self.0[usize::from(name)].checked_sub(1)
    }

    fn place(&mut self, name: u16, later: &mut Vec<Later>) -> u16 {
        self.known(name).unwrap_or_else(|| {
            later.push(Later { stated: EMPTY, rows: vec![0; LIMIT] });
            self.0[usize::from(name)] = later.len() as u16;
            later.len() as u16 - 1
        })
    }
}
