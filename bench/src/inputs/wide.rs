//! Names that mean many houses.

use super::{name, right, Input};
use crate::certificate::Certificate;
use crate::random::Random;

/// The most facts about names: half of the certificates give one name its houses, and each of the
/// others but two states a name that stands for it.
pub fn facts(count: u16) -> Input {
    let half = count / 2;
    let mut certificates: Vec<Certificate> =
        (0..half).map(|house| name(0, 0, house, &[])).collect();
    certificates.extend((1..half).map(|of| name(of, of, 0, &[0])));
    certificates.push(right(1023, half - 1, &[half - 1]));
    Input::new("facts", 1023, half - 1, &certificates)
}

const HOUSES: u16 = 128;

/// Subjects of six names, each of which means all houses of a net for every house of it.
pub fn six_names(random: &mut Random) -> Input {
    let any = |random: &mut Random| random.below(usize::from(HOUSES)) as u16;
    let mut certificates = Vec::new();
    for house in 0..HOUSES {
        for _ in 0..3 {
            certificates.push(name(house, 1, any(random), &[]));
        }
        certificates.push(name(house, 1, any(random), &[1; 6]));
    }
    for of in 0..500 {
        let issuer = any(random);
        certificates.push(name(issuer, 2, any(random), &[1, 2, 1, 2, 1, 2]));
        if of % 8 == 0 {
            certificates.push(name(issuer, 2, any(random), &[1; 6]));
        }
    }
    certificates.truncate(1022);
    certificates.push(name(any(random), 3, 1000, &[]));
    random.shuffle(&mut certificates);
    certificates.push(right(1023, any(random), &[2, 1, 2, 1, 2, 3]));
    Input::new("six-names", 1023, 1000, &certificates)
}
