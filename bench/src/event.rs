//! Events of a delivery.

use crate::bytes::Reader;
use crate::certificate::Certificate;
use crate::fault::Cause;

/// The most bytes that an event has: a certificate with 255 names.
pub const LONGEST: usize = 533;

pub enum Event {
    Certificate(Certificate),
    TakenBack(u16),
    Day,
}

/// Reads one event: `None` where it can't be framed, else the event or the fault of its values.
#[inline]
pub fn read(from: &mut Reader) -> Option<Result<Event, Cause>> {
    match from.u8()? {
        1 => Certificate::read(from).map(|read| read.map(Event::Certificate)),
        2 => Some(Ok(Event::TakenBack(from.u16()?))),
        3 => Some(Ok(Event::Day)),
        _ => None,
    }
}
