//! Deliveries, taken in pieces from whatever can be read.

use crate::bytes::Reader;
use crate::event;
use crate::fault::Cause;
use crate::gate::Gate;
use crate::request;
use std::io::{self, Read};

const PIECE: usize = 1 << 16;

/// What comes of a delivery: an event refused at an offset, or the bytes of a request.
pub enum Told<'a> {
    Refused(u64, Cause),
    Request(&'a Gate, &'a [u8]),
}

/// Takes a delivery of either kind, and tells of refused events and of a request.
pub fn receive<R, F>(gate: &mut Gate, mut from: R, mut tell: F) -> io::Result<()>
where
    R: Read,
    F: FnMut(Told) -> io::Result<()>,
{
    let mut first = Vec::with_capacity(PIECE);
    from.by_ref().take(PIECE as u64).read_to_end(&mut first)?;
    if first.first() == Some(&request::KIND) {
        // One byte more than the longest request shows that it is longer.
        let room = request::LONGEST + 1 - first.len();
        from.take(room as u64).read_to_end(&mut first)?;
        return tell(Told::Request(gate, &first));
    }
    take_events(gate, from, first, |offset, cause| tell(Told::Refused(offset, cause)))
}

/// Takes events piece by piece; an event that can't be framed ends the delivery.
fn take_events<R: Read>(
    gate: &mut Gate,
    mut from: R,
    mut piece: Vec<u8>,
    mut refuse: impl FnMut(u64, Cause) -> io::Result<()>,
) -> io::Result<()> {
    let mut before = 0;
    loop {
        let more = piece.len() >= PIECE;
        let mut reader = Reader::new(&piece);
        while reader.rest.len() >= if more { event::LONGEST } else { 1 } {
            let offset = before + (piece.len() - reader.rest.len()) as u64;
            match event::read(&mut reader) {
                None => return refuse(offset, Cause::Framing),
                Some(Err(cause)) => refuse(offset, cause)?,
                Some(Ok(event)) => gate.take(event).or_else(|cause| refuse(offset, cause))?,
            }
        }
        if !more {
            return Ok(());
        }
        let taken = piece.len() - reader.rest.len();
        piece.drain(..taken);
        before += taken as u64;
        let room = PIECE - piece.len();
        from.by_ref().take(room as u64).read_to_end(&mut piece)?;
    }
}
