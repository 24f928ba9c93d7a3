//! What a consortium of museums may look like, and rights that come and go with the seasons.

use super::{name, right, Input};
use crate::certificate::{Certificate, Statement, Subject};
use crate::delivery::receive;
use crate::gate::Gate;
use crate::random::Random;
use crate::request::Asked;
use crate::schedule::Schedule;
use crate::spans::spans;

const HOUSES: usize = 70;
const RESTORERS: u16 = 1;
const PARTNERS: u16 = 2;
const FRIENDS: u16 = 3;
const GUESTS: u16 = 4;
const COURIERS: u16 = 5;
const GROUP: u16 = 100;

/// Seventy houses with some nine hundred certificates: groups, friends, partners, rights; some are
/// valid for a season only, some are taken back, and days pass.
pub fn consortium(random: &mut Random) -> Input {
    let mut houses: Vec<u16> = (0..1024).collect();
    random.shuffle(&mut houses);
    houses.truncate(HOUSES);
    let mut certificates = names(random, &houses);
    certificates.extend(rights(random, &houses));
    random.shuffle(&mut certificates);
    let mut events = Vec::new();
    for (number, certificate) in certificates.iter_mut().enumerate() {
        if random.percent(25) {
            certificate.first = random.below(300) as u32;
            certificate.last = certificate.first + random.from(30, 500) as u32;
        }
        certificate.write(&mut events);
        if random.percent(4) {
            events.push(2);
            events.extend((random.below(number + 1) as u16).to_be_bytes());
        }
        events.extend(vec![3; usize::from(random.percent(20))]);
    }
    let (owner, house, right) = longest(&events, &houses);
    Input { name: "consortium".to_string(), owner, events, house, right }
}

fn names(random: &mut Random, houses: &[u16]) -> Vec<Certificate> {
    let mut all = Vec::new();
    for &house in houses {
        for _ in 0..3 {
            all.push(name(house, PARTNERS, random.pick(houses), &[]));
        }
        for _ in 0..2 {
            all.push(name(house, RESTORERS, random.pick(houses), &[]));
        }
        all.push(name(house, FRIENDS, random.pick(houses), &[PARTNERS]));
        all.push(name(house, FRIENDS, random.pick(houses), &[FRIENDS]));
        all.push(name(house, GUESTS, random.pick(houses), &[FRIENDS, RESTORERS]));
        all.push(name(house, COURIERS, house, &[PARTNERS, COURIERS]));
    }
    for group in 0..12 {
        let lead = random.pick(houses);
        for _ in 0..6 {
            all.push(name(lead, GROUP + group, random.pick(houses), &[]));
        }
        all.push(name(random.pick(houses), COURIERS, lead, &[GROUP + group]));
        all.push(name(random.pick(houses), FRIENDS, lead, &[GROUP + group, FRIENDS]));
    }
    all
}

fn rights(random: &mut Random, houses: &[u16]) -> Vec<Certificate> {
    let mut all = Vec::new();
    for &house in houses {
        let mut give = |to: u16, names: &[u16], set: u64, passing: bool| {
            let subject = Subject::new(to, names);
            let statement = Statement::Rights { set, passing };
            all.push(Certificate { statement, ..name(house, 0, subject.house, names) });
        };
        give(house, &[RESTORERS], 0x00F, false);
        give(house, &[PARTNERS], 0x0F0 | 1 << random.below(16), true);
        give(random.pick(houses), &[GUESTS], 0x300, false);
    }
    all
}

/// Of some owners, rights and houses those with the longest sheet.
fn longest(events: &[u8], houses: &[u16]) -> (u16, u16, u8) {
    let mut best = (0, (houses[0], houses[0], 0));
    for &owner in &houses[..4] {
        let mut gate = Gate::new(owner);
        receive(&mut gate, events, |_| Ok(())).expect("reading from memory does not fail");
        for (right, house) in
            (0..16).flat_map(|right| houses.iter().map(move |&house| (right, house)))
        {
            let asked = Asked { owner, house, right };
            let found = Schedule::Fast.find(&gate.registry, asked, gate.day);
            let lines = found.map_or(0, |lines| lines.len());
            best = best.max((lines, (owner, house, right)));
        }
    }
    best.1
}

/// A chain of names, where each link is stated for many short spans of days. It is the first day
/// on which the chain holds.
pub fn seasons(random: &mut Random) -> Input {
    const LINKS: u16 = 10;
    let mut certificates = Vec::new();
    for at in 0..1020 {
        let link = at % LINKS;
        let next = if link + 1 == LINKS {
            name(link, 7, 1000, &[])
        } else {
            name(link, 7, link + 1, &[7])
        };
        let first = random.below(100_000) as u32;
        let last = first + random.from(500, 4000) as u32;
        certificates.push(Certificate { first, last, ..next });
    }
    certificates.push(right(1023, 0, &[7]));
    random.shuffle(&mut certificates);
    let mut input = Input::new("seasons", 1023, 1000, &certificates);
    let mut gate = Gate::new(input.owner);
    receive(&mut gate, &input.events[..], |_| Ok(())).expect("reading from memory does not fail");
    let asked = Asked { owner: input.owner, house: input.house, right: input.right };
    let days = spans(Schedule::Fast, &gate.registry, asked).first().map_or(0, |span| span.first);
    input.events.extend(vec![3; days as usize]);
    input
}
