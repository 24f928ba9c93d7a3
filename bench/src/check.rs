//! The check of a sheet, in one pass from front to end.

use crate::bits::{only, Bits, Set, EMPTY, LIMIT};
use crate::bytes::{pair, Reader};
use crate::certificate::{Certificate, Statement};
use crate::fault::{Cause, Fault};
use crate::gate::Gate;
use crate::request::Head;

/// Facts shown by the lines that were read: a row of houses for each certificate, and who has the
/// right.
pub struct Table {
    rows: Vec<Bits>,
    /// The rows that have a house in them.
    filled: Bits,
    passing: Bits,
    having: Bits,
}

impl Default for Table {
    fn default() -> Table {
        Table { rows: vec![EMPTY; LIMIT], filled: EMPTY, passing: EMPTY, having: EMPTY }
    }
}

impl Table {
    fn wipe(&mut self, owner: u16) {
        for row in self.filled.numbers() {
            self.rows[usize::from(row)] = EMPTY;
        }
        self.filled = EMPTY;
        self.passing = only(owner);
        self.having = EMPTY;
    }
}

/// Answers a request: its head first, then its lines, then what is left of it.
pub fn answer(gate: &Gate, request: &[u8], table: &mut Table) -> Result<(), Fault> {
    let mut from = Reader::new(request);
    let head = Head::read(&mut from)?;
    let count = gate.registry.certificates().len();
    if head.lines as usize > count * LIMIT {
        return Err(Cause::TooManyLines.into());
    }
    table.wipe(gate.owner);
    let mut check = Check { gate, right: head.right, table };
    for line in 0..head.lines {
        check.line(&mut from, line)?;
    }
    if !from.rest.is_empty() {
        return Err(Cause::Framing.into());
    }
    if !table.passing.has(head.house) && !table.having.has(head.house) {
        return Err(Cause::HouseNotShown.into());
    }
    Ok(())
}

struct Check<'a> {
    gate: &'a Gate,
    right: u8,
    table: &'a mut Table,
}

impl Check<'_> {
    /// Reads a line, judges it, and notes what it shows.
    #[inline]
    fn line(&mut self, from: &mut Reader, line: u32) -> Result<(), Fault> {
        let told = |cause| Fault::at_line(cause, line);
        let number = from.u16().ok_or(told(Cause::Framing))?;
        let found = self.gate.registry.certificates().get(usize::from(number));
        let certificate = found.ok_or(told(Cause::NoCertificate))?;
        let steps = from.take(2 * certificate.subject.names().len()).ok_or(told(Cause::Framing))?;
        if steps.chunks_exact(2).any(|step| usize::from(pair(step)) >= LIMIT) {
            return Err(told(Cause::Range));
        }
        self.gives(certificate).map_err(told)?;
        let reached = self.walk(certificate, steps).map_err(|step| Fault::at_step(line, step))?;
        self.note(certificate, reached);
        Ok(())
    }

    #[inline]
    fn gives(&self, certificate: &Certificate) -> Result<(), Cause> {
        if !certificate.valid_on(self.gate.day) {
            return Err(Cause::NotValid);
        }
        if let Statement::Rights { set, .. } = certificate.statement {
            if set >> self.right & 1 == 0 {
                return Err(Cause::OtherRight);
            }
            if !self.table.passing.has(certificate.issuer) {
                return Err(Cause::IssuerWithout);
            }
        }
        Ok(())
    }

    /// The last house reached, or the first step that isn't shown.
    #[inline]
    fn walk(&self, certificate: &Certificate, steps: &[u8]) -> Result<u16, u8> {
        let mut house = certificate.subject.house;
        let names = certificate.subject.names().iter();
        for (step, (&name, bytes)) in names.zip(steps.chunks_exact(2)).enumerate() {
            let next = pair(bytes);
            let row = self.gate.registry.row(house, name);
            if !row.is_some_and(|row| self.table.rows[usize::from(row)].has(next)) {
                return Err(step as u8);
            }
            house = next;
        }
        Ok(house)
    }

    #[inline]
    fn note(&mut self, certificate: &Certificate, reached: u16) {
        match certificate.statement {
            Statement::Name(name) => {
                if let Some(row) = self.gate.registry.row(certificate.issuer, name) {
                    self.table.rows[usize::from(row)].insert(reached);
                    self.table.filled.insert(row);
                }
            }
            Statement::Rights { passing: true, .. } => self.table.passing.insert(reached),
            Statement::Rights { passing: false, .. } => self.table.having.insert(reached),
        }
    }
}
