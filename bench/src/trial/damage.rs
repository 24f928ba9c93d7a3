//! Damage to bytes, and events with one fault.

use crate::certificate::Certificate;
use crate::random::Random;

/// Changes some bytes: flips, cuts, inserts, takes out, or adds.
pub fn damage(random: &mut Random, bytes: &mut Vec<u8>) {
    for _ in 0..random.from(1, 2) {
        let end = bytes.len() + 1;
        let at = random.below(end);
        match random.below(6) {
            0 => bytes.truncate(at),
            1 => bytes.insert(at, random.number() as u8),
            2 => bytes.extend((0..random.from(1, 4)).map(|_| 0)),
            _ if bytes.is_empty() => bytes.push(random.number() as u8),
            3 => drop(bytes.remove(at % bytes.len())),
            4 => {
                let at = at % bytes.len();
                bytes[at] ^= 1 << random.below(8);
            }
            _ => {
                let at = at % bytes.len();
                bytes[at] = random.pick(&[0, 1, 2, 3, 4, 5, 6, 7, 127, 255]);
            }
        }
    }
}

/// Puts an event behind others that may have a fault or two; its length is mostly known.
pub fn faulty_event(random: &mut Random, certificate: &Certificate, out: &mut Vec<u8>) {
    let mut bytes = Vec::new();
    certificate.write(&mut bytes);
    let names = 2 * certificate.subject.names().len();
    for _ in 0..random.from(1, 2) {
        match random.below(8) {
            0 => bytes[1] = random.pick(&[3, 4, 255]),
            1 => bytes[11] = random.pick(&[3, 4, 128]),
            2 => bytes[14 + names + 1..].fill(0),
            3 => return more_names(random, certificate, out),
            4 => {
                out.extend([2, random.pick(&[0, 3, 4, 255]), random.number() as u8]);
                return;
            }
            5 if random.percent(10) => bytes[14 + names] = random.pick(&[3, 255]),
            6 if random.percent(10) => bytes[0] = random.pick(&[0, 4, 5, 255]),
            _ => bytes[13] ^= 1,
        }
    }
    out.extend(bytes);
}

/// A certificate with more names than a subject may have.
pub fn more_names(random: &mut Random, certificate: &Certificate, out: &mut Vec<u8>) {
    let mut bytes = Vec::new();
    certificate.write(&mut bytes);
    let count = random.pick(&[7, 8, 128, 255]);
    let names = 2 * certificate.subject.names().len();
    bytes[13] = count;
    let more = std::iter::repeat_n(random.number() as u8, 2 * usize::from(count) - names);
    let behind = bytes.split_off(14 + names);
    out.extend(bytes.into_iter().chain(more).chain(behind));
}
