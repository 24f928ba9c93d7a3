//! What must hold of the programs' parts on a case, told by definitions that share nothing with
//! them.

use crate::bytes::Reader;
use crate::check::{self, Table};
use crate::delivery::{receive, Told};
use crate::gate::Gate;
use crate::literal;
use crate::meaning::{changes, Meaning};
use crate::request::{Asked, Head};
use crate::schedule::{self, Line, Schedule};
use crate::spans::spans;
use crate::trial::case::Case;
use crate::trial::world::Size;
use std::collections::BTreeSet;

/// How often what was compared.
#[derive(Default, Debug)]
pub struct Counts {
    pub requests: usize,
    pub opened: usize,
    pub questions: usize,
    pub found: usize,
    /// How many sheets have 0, 1, 2 to 3, 4 to 7 lines, and so on.
    pub lines: [usize; 12],
    pub days: usize,
    pub days_allowed: usize,
}

type Checked = Result<(), String>;

/// Runs all comparisons on a case; an error says what differs.
pub fn check(case: &Case, counts: &mut Counts) -> Checked {
    let mut gate = Gate::new(case.owner);
    let mut table = Table::default();
    for delivery in &case.deliveries {
        let mut outcome = Ok(());
        let told = receive(&mut gate, &delivery[..], |told| {
            if let Told::Request(gate, request) = told {
                outcome = request_agrees(gate, request, &mut table, counts);
            }
            Ok(())
        });
        told.map_err(|error| error.to_string()).and(outcome)?;
    }
    let certificates = gate.registry.certificates().iter();
    let mut houses: BTreeSet<u16> =
        certificates.flat_map(|c| [c.issuer, c.subject.house]).collect();
    houses.insert(1023);
    let most = if case.size == Size::Long { 3 } else { 12 };
    let mut questions = Questions { case, gate: &gate, table, counts };
    for head in case.asks.iter().filter_map(|ask| Head::read_alone(ask).ok()) {
        for &house in houses.iter().take(most).chain([&head.house]) {
            questions.sheet_agrees(Asked { owner: case.owner, house, right: head.right })?;
        }
        if case.size != Size::Long {
            let Head { house, right, .. } = head;
            questions.spans_agree(Asked { owner: case.owner, house, right })?;
        }
    }
    Ok(())
}

/// The check of a sheet gives what the definition over sets gives.
fn request_agrees(gate: &Gate, request: &[u8], table: &mut Table, counts: &mut Counts) -> Checked {
    let answer = check::answer(gate, request, table);
    let mut from = Reader::new(request);
    let Ok(Head { house, right, lines }) = Head::read(&mut from) else { return Ok(()) };
    let asked = Asked { owner: gate.owner, house, right };
    let certificates = gate.registry.certificates();
    let literal = literal::check(certificates, &asked, gate.day, lines, from.rest);
    counts.requests += 1;
    counts.opened += usize::from(answer.is_ok());
    match answer == literal {
        true => Ok(()),
        false => Err(format!("a request is answered {answer:?}, not {literal:?}")),
    }
}

/// Questions asked after all deliveries.
struct Questions<'a> {
    case: &'a Case,
    gate: &'a Gate,
    table: Table,
    counts: &'a mut Counts,
}

impl Questions<'_> {
    fn may(&self, asked: Asked, day: u32) -> bool {
        let certificates = self.gate.registry.certificates();
        Meaning::on(certificates, day).may(asked.owner, asked.right, asked.house)
    }

    /// Both finders give the same lines, for a house that may and for no other.
    fn sheet_agrees(&mut self, asked: Asked) -> Checked {
        let Gate { day, ref registry, .. } = *self.gate;
        let plain = Schedule::Plain.find(registry, asked, day);
        self.counts.questions += 1;
        if plain != Schedule::Fast.find(registry, asked, day) {
            return Err(format!("the two finders differ: {asked:?}"));
        }
        if plain.is_some() != self.may(asked, day) {
            return Err(format!("a sheet is not found exactly for a house that may: {asked:?}"));
        }
        let literal = || literal::find(registry.certificates(), &asked, day);
        if self.case.size == Size::Tiny && self.literal_lines(&plain) != literal() {
            return Err(format!("the sheet is not the one that is defined: {asked:?}"));
        }
        plain.map_or(Ok(()), |lines| self.opens(asked, &lines))
    }

    fn literal_lines(&self, found: &Option<Vec<Line>>) -> Option<Vec<literal::Line>> {
        let steps = |line: &Line| {
            let certificate = &self.gate.registry.certificates()[usize::from(line.certificate)];
            (line.certificate, line.steps[..certificate.subject.names().len()].to_vec())
        };
        found.as_ref().map(|lines| lines.iter().map(steps).collect())
    }

    /// The gate opens to whom a sheet was found for.
    fn opens(&mut self, asked: Asked, lines: &[Line]) -> Checked {
        self.counts.found += 1;
        let place = lines.len().checked_ilog2().map_or(0, |log| log as usize + 1);
        self.counts.lines[place.min(11)] += 1;
        let request = schedule::write(&self.gate.registry, asked.house, asked.right, lines);
        check::answer(self.gate, &request, &mut self.table)
            .map_err(|fault| format!("a sheet that was found is answered {fault}: {asked:?}"))
    }

    /// Both schedules give the same spans, which have exactly the days on which the house may,
    /// looked at around every change.
    fn spans_agree(&mut self, asked: Asked) -> Checked {
        let [spans, fast] = [Schedule::Plain, Schedule::Fast]
            .map(|schedule| spans(schedule, &self.gate.registry, asked));
        if spans != fast {
            return Err(format!("the spans of the two finders differ: {spans:?}, {fast:?}"));
        }
        let changes = changes(self.gate.registry.certificates());
        let around =
            changes.iter().flat_map(|&day| [day.saturating_sub(1), day, day.saturating_add(1)]);
        let days: BTreeSet<u32> = around.chain([u32::MAX]).collect();
        for day in days {
            let may = self.may(asked, day);
            self.counts.days += 1;
            self.counts.days_allowed += usize::from(may);
            if may != spans.iter().any(|span| span.first <= day && day <= span.last) {
                return Err(format!("on day {day} the spans are wrong: {spans:?}"));
            }
        }
        let rises = spans.iter().all(|span| span.first <= span.last);
        let apart =
            |pair: &[crate::spans::Span]| u64::from(pair[0].last) + 1 < pair[1].first.into();
        match rises && spans.windows(2).all(apart) {
            true => Ok(()),
            false => Err(format!("the spans touch or do not rise: {spans:?}")),
        }
    }
}
