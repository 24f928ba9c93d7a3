//! Finding of sheets: which lines are written, and which of them are kept.

mod back;
pub mod fast;
mod keep;
pub mod plain;
mod plan;
mod reached;
mod shown;
mod useful;
mod walk;

pub use shown::Steps;

use crate::registry::Registry;
use crate::request::{Asked, Head};

/// A line of a sheet: a certificate's number, and the houses reached.
#[derive(Clone, Copy, PartialEq, Eq, Debug)]
pub struct Line {
    pub certificate: u16,
    pub steps: Steps,
}

/// The two finders; both find the same lines.
#[derive(Clone, Copy, PartialEq, Eq, Debug)]
pub enum Schedule {
    Plain,
    Fast,
}

impl Schedule {
    /// The lines of the sheet, or `None` where the house may not.
    pub fn find(self, registry: &Registry, asked: Asked, day: u32) -> Option<Vec<Line>> {
        match self {
            Schedule::Plain => plain::find(registry, asked, day),
            Schedule::Fast => fast::find(registry, asked, day),
        }
    }
}

/// The bytes of a request with its sheet.
pub fn write(registry: &Registry, house: u16, right: u8, lines: &[Line]) -> Vec<u8> {
    let mut out = Vec::with_capacity(8 + 14 * lines.len());
    Head { house, right, lines: lines.len() as u32 }.write(&mut out);
    for line in lines {
        let subject = registry.certificates()[usize::from(line.certificate)].subject;
        out.extend(line.certificate.to_be_bytes());
        for step in &line.steps[..subject.names().len()] {
            out.extend(step.to_be_bytes());
        }
    }
    out
}
