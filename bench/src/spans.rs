//! The spans of days on which a house may.

use crate::certificate::Certificate;
use crate::registry::Registry;
use crate::request::Asked;
use crate::schedule::fast::Finder;
use crate::schedule::{plain, Line, Schedule};
use std::fmt;

/// Days from the first to the last, both included.
#[derive(Clone, Copy, PartialEq, Eq, Debug)]
pub struct Span {
    pub first: u32,
    pub last: u32,
}

impl fmt::Display for Span {
    fn fmt(&self, f: &mut fmt::Formatter<'_>) -> fmt::Result {
        match self.last {
            u32::MAX => write!(f, "{} on", self.first),
            last => write!(f, "{} {last}", self.first),
        }
    }
}

/// A certificate that is valid on some day.
fn valid_once(certificate: &Certificate) -> bool {
    certificate.first <= certificate.last
}

/// Both schedules give the same spans. The plain one finds anew for each day that is asked, and
/// asks where any certificate becomes valid; the fast one only where one that can matter does.
pub fn spans(schedule: Schedule, registry: &Registry, asked: Asked) -> Vec<Span> {
    let all = registry.certificates();
    match schedule {
        Schedule::Plain => {
            let firsts = first_days(all.iter().filter(|one| valid_once(one)));
            spans_by(registry, &firsts, |day| plain::find(registry, asked, day))
        }
        Schedule::Fast => {
            let mut finder = Finder::new(registry, asked, valid_once);
            let firsts = first_days(finder.certificates().map(|number| &all[usize::from(number)]));
            spans_by(registry, &firsts, |day| finder.find(day))
        }
    }
}

/// The days on which one of these certificates becomes valid, rising.
fn first_days<'a>(certificates: impl Iterator<Item = &'a Certificate>) -> Vec<u32> {
    let mut days: Vec<u32> = certificates.map(|certificate| certificate.first).collect();
    days.sort_unstable();
    days.dedup();
    days
}

/// A sheet holds as long as all its certificates are valid; without one, nothing changes before
/// another certificate becomes valid. So only some of the days need be looked at.
fn spans_by(
    registry: &Registry,
    firsts: &[u32],
    mut find: impl FnMut(u32) -> Option<Vec<Line>>,
) -> Vec<Span> {
    let mut spans: Vec<Span> = Vec::new();
    let mut next = Some(0);
    while let Some(day) = next {
        let Some(lines) = find(day) else {
            next = firsts.get(firsts.partition_point(|&first| first <= day)).copied();
            continue;
        };
        let last = last_day(registry, &lines);
        match spans.last_mut() {
            Some(span) if span.last.checked_add(1) == Some(day) => span.last = last,
            _ => spans.push(Span { first: day, last }),
        }
        next = last.checked_add(1);
    }
    spans
}

/// The last day on which all certificates of a sheet are valid.
fn last_day(registry: &Registry, lines: &[Line]) -> u32 {
    let used = lines.iter().map(|line| usize::from(line.certificate));
    used.map(|number| registry.certificates()[number].last).min().unwrap_or(u32::MAX)
}
