//! Chains of names, each of which stands for the next one's name.

use super::{name, right, Input};
use crate::certificate::Certificate;

/// A chain of so many names over houses from 0 on; the last stands for house 1023.
fn chain(count: u16) -> Vec<Certificate> {
    let link = |at: u16| match at + 1 < count {
        true => name(at, at, at + 1, &[at + 1]),
        false => name(at, at, 1023, &[]),
    };
    (0..count).map(link).collect()
}

/// Each round shows one fact: a name's certificate stands before that of the name it stands for.
pub fn rising(count: u16) -> Input {
    let mut certificates = chain(count);
    certificates.push(right(0, 0, &[0]));
    Input::new("chain-rising", 0, 1023, &certificates)
}

/// One round shows all facts.
pub fn falling(count: u16) -> Input {
    let mut certificates = chain(count);
    certificates.reverse();
    certificates.push(right(0, 0, &[0]));
    Input::new("chain-falling", 0, 1023, &certificates)
}

/// A right that is passed from house to house, in an order in which each round passes it once.
pub fn givers(count: u16) -> Input {
    let certificates: Vec<Certificate> =
        (0..count).rev().map(|at| right(at, at + 1, &[])).collect();
    Input::new("chain-givers", 0, count, &certificates)
}
