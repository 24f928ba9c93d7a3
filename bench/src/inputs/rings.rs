//! Many rings of names.

use super::{name, right, Input};
use crate::certificate::Certificate;
use crate::random::Random;

const RINGS: u16 = 112;
const LONG: u16 = 8;

/// The house that the last ring leads to, and what it calls itself.
const END: u16 = 1000;
const HOME: u16 = 500;

/// Rings of eight names, in each of which some name also leads to the next ring; the last leads to
/// a house. Houses that are met twice, by names that go round, are among them.
pub fn rings(random: &mut Random) -> Input {
    let place = |ring: u16, at: u16| (ring * LONG + at % LONG, ring);
    let mut certificates: Vec<Certificate> = Vec::new();
    for ring in 0..RINGS {
        for at in 0..LONG {
            let ((issuer, of), (house, next)) = (place(ring, at), place(ring, at + 1));
            certificates.push(name(issuer, of, house, &[next]));
        }
        let (issuer, of) = place(ring, random.below(8) as u16);
        let (house, next) = place(ring + 1, random.below(8) as u16);
        match ring % 4 {
            _ if ring + 1 == RINGS => certificates.push(name(issuer, of, END, &[])),
            0 => certificates.push(name(issuer, of, house, &[next, HOME, HOME])),
            _ => certificates.push(name(issuer, of, house, &[next])),
        }
    }
    certificates.push(name(END, HOME, END, &[HOME, HOME]));
    certificates.push(name(END, HOME, END, &[]));
    random.shuffle(&mut certificates);
    certificates.push(right(1023, 0, &[0]));
    Input::new("rings", 1023, END, &certificates)
}
