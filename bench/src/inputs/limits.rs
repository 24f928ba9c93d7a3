//! Sheets of very many lines, each of which rests on the one before it.

use super::{name, right, Input};
use crate::certificate::Certificate;

/// What each house of the ring of houses calls the next one.
const NEXT: u16 = 40_000;
const FIRST: u16 = 512;

/// A ring of names and a ring of houses whose lengths have no common factor: each name stands for
/// what the name before it means, one house on. From one house the facts go round until each name
/// means each house, one after the other. Asked is for the house and name that come last.
fn going_round(count: u16) -> (Vec<Certificate>, u16) {
    let (names, houses) = (count / 2 - 2, count / 2 - 1);
    let next = |at: u16| FIRST + (at + 1) % houses;
    let mut certificates: Vec<Certificate> =
        (0..houses).map(|at| name(FIRST + at, NEXT, next(at), &[])).collect();
    certificates.push(name(0, 0, FIRST, &[]));
    for of in 1..=names {
        let (house, before) = (of % names, of - 1);
        certificates.push(name(house, of % names, before, &[before, NEXT]));
    }
    certificates.push(right(1023, names - 1, &[names - 1]));
    (certificates, FIRST + houses - 1)
}

/// In the order in which a round goes once through all names.
pub fn long_sheet(count: u16) -> Input {
    let (certificates, house) = going_round(count);
    Input::new("long-sheet", 1023, house, &certificates)
}

/// In the order in which a round shows one fact.
pub fn late_sheet(count: u16) -> Input {
    let (mut certificates, house) = going_round(count);
    certificates.reverse();
    Input::new("late-sheet", 1023, house, &certificates)
}
