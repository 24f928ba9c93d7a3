//! Faults and how they are told.

use std::fmt;

#[derive(Clone, Copy, PartialEq, Eq, Debug)]
#[repr(u8)]
pub enum Cause {
    Framing = 1,
    Range = 2,
    Full = 3,
    NoCertificate = 4,
    LastDay = 5,
    TooManyLines = 6,
    NotValid = 7,
    OtherRight = 8,
    IssuerWithout = 9,
    StepNotShown = 10,
    HouseNotShown = 11,
    NoSheet = 12,
}

/// A cause, with the line it is in and the step, where it has them.
#[derive(Clone, Copy, PartialEq, Eq, Debug)]
pub struct Fault {
    pub cause: Cause,
    pub line: Option<u32>,
    pub step: Option<u8>,
}

impl Fault {
    pub fn at_line(cause: Cause, line: u32) -> Fault {
        Fault { cause, line: Some(line), step: None }
    }

    pub fn at_step(line: u32, step: u8) -> Fault {
        Fault { cause: Cause::StepNotShown, line: Some(line), step: Some(step) }
    }
}

impl From<Cause> for Fault {
    fn from(cause: Cause) -> Fault {
        Fault { cause, line: None, step: None }
    }
}

impl fmt::Display for Fault {
    fn fmt(&self, f: &mut fmt::Formatter<'_>) -> fmt::Result {
        write!(f, "{}", self.cause as u8)?;
        if let Some(line) = self.line {
            write!(f, " {line}")?;
        }
        if let Some(step) = self.step {
            write!(f, " {step}")?;
        }
        Ok(())
    }
}
