//! Long ways to a right: chains of names and of rights, in any order of their certificates.

use crate::certificate::{Certificate, Statement, Subject};
use crate::random::Random;
use crate::trial::world::World;

fn always(issuer: u16, subject: Subject, statement: Statement) -> Certificate {
    Certificate { issuer, first: 0, last: u32::MAX, subject, statement }
}

/// Certificates by which a right goes from the owner along names, and then from house to house.
pub fn backbone(random: &mut Random, world: &World, length: usize) -> Vec<Certificate> {
    let set = 1 << world.rights[0];
    let mut place = || (random.pick(&world.houses), random.pick(&world.names));
    let places: Vec<(u16, u16)> = (0..length).map(|_| place()).collect();
    let end = random.pick(&world.houses);
    let mut all = Vec::new();
    for (at, &(house, name)) in places.iter().enumerate() {
        let subject = match places.get(at + 1) {
            Some(&(next, name)) if random.percent(15) => Subject::new(next, &[name, name]),
            Some(&(next, name)) => Subject::new(next, &[name]),
            None => Subject::new(end, &[]),
        };
        all.push(always(house, subject, Statement::Name(name)));
    }
    let mut giver = world.owner;
    for &(house, name) in places.iter().take(random.from(1, 5)) {
        let subject = if random.percent(60) {
            Subject::new(house, &[name])
        } else {
            Subject::new(house, &[])
        };
        all.push(always(giver, subject, Statement::Rights { set, passing: random.percent(80) }));
        giver = house;
    }
    match random.below(3) {
        0 => all.reverse(),
        1 => random.shuffle(&mut all),
        _ => (),
    }
    all
}
