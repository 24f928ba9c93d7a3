//! Random cases against slow definitions, and the binaries against the functions that they call.

mod common;

use common::{files, run};
use plain::bytes::Reader;
use plain::check::{answer, Table};
use plain::delivery::{receive, Told};
use plain::event;
use plain::gate::Gate;
use plain::schedule::Schedule;
use plain::trial::case::Case;
use plain::trial::checks::{check, Counts};

#[test]
fn parts_agree_with_their_definitions() {
    let mut counts = Counts::default();
    for seed in 0..3000 {
        if let Err(difference) = check(&Case::new(seed), &mut counts) {
            panic!("case {seed}: {difference}");
        }
    }
    assert!(counts.found > 1000 && counts.opened > 500 && counts.days_allowed > 1000, "{counts:?}");
}

/// Fault 5 needs more days than a case has, and 12 is none of a gate.
#[test]
fn cases_meet_every_fault() {
    let mut met = [0; 13];
    for seed in 0..3000 {
        let case = Case::new(seed);
        let (mut gate, mut table) = (Gate::new(case.owner), Table::default());
        for delivery in &case.deliveries {
            let told = receive(&mut gate, &delivery[..], |told| {
                let number = match told {
                    Told::Refused(_, cause) => cause as usize,
                    Told::Request(gate, request) => match answer(gate, request, &mut table) {
                        Ok(()) => 0,
                        Err(fault) => fault.cause as usize,
                    },
                };
                met[number] += 1;
                Ok(())
            });
            told.expect("reading from memory does not fail");
        }
    }
    let unmet: Vec<usize> = (0..13).filter(|&number| met[number] < 5).collect();
    assert_eq!(unmet, [5, 12], "{met:?}");
}

/// Whether an event of a delivery begins in front of a place and ends behind it.
fn stands_across(delivery: &[u8], place: usize) -> bool {
    let mut reader = Reader::new(delivery);
    let mut begin = 0;
    while event::read(&mut reader).is_some() {
        let end = delivery.len() - reader.rest.len();
        if place < end {
            return begin < place;
        }
        begin = end;
    }
    false
}

/// The proved programs take events by 16 KiB, the unproved ones by 64 KiB.
#[test]
fn cases_have_events_across_pieces() {
    let mut met = [0; 2];
    for seed in 0..3000 {
        for delivery in Case::new(seed).deliveries {
            met[0] += usize::from(stands_across(&delivery, 2 << 14));
            met[1] += usize::from(stands_across(&delivery, 4 << 14));
        }
    }
    assert!(met.iter().all(|&count| count >= 3), "{met:?}");
}

#[test]
fn binaries_write_what_their_functions_write() {
    for seed in 0..50 {
        let case = Case::new(seed);
        let deliveries = files("binaries", &[&case.deliveries[..], &case.asks[..1]].concat());
        let arguments = [vec![case.owner.to_string()], deliveries].concat();
        let words: Vec<_> = arguments.iter().map(std::ffi::OsString::from).collect();
        let (mut out, mut err) = (Vec::new(), Vec::new());
        let status = plain::programs::until(Schedule::Plain, &words, &mut out, &mut err);
        let written = (out, i32::from(status));
        for until in [env!("CARGO_BIN_EXE_plain-until"), env!("CARGO_BIN_EXE_plain-until-fast")] {
            assert_eq!(run(until, &arguments), written);
        }
        let mut out = Vec::new();
        let status = plain::programs::gate(&words, &mut out, &mut err);
        assert_eq!(run(env!("CARGO_BIN_EXE_plain-gate"), &arguments), (out, i32::from(status)));
    }
}
