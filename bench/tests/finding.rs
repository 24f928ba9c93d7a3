//! The binaries that find and that print spans, on inputs written out by hand.

mod common;

use common::{files, run};
use plain::certificate::{Certificate, Statement, Subject};

const FINDERS: [&str; 2] =
    [env!("CARGO_BIN_EXE_plain-find"), env!("CARGO_BIN_EXE_plain-find-fast")];
const UNTIL: [&str; 2] =
    [env!("CARGO_BIN_EXE_plain-until"), env!("CARGO_BIN_EXE_plain-until-fast")];
const GATE: &str = env!("CARGO_BIN_EXE_plain-gate");

fn certificate(issuer: u16, days: (u32, u32), subject: Subject, statement: Statement) -> Vec<u8> {
    let mut bytes = Vec::new();
    Certificate { issuer, first: days.0, last: days.1, subject, statement }.write(&mut bytes);
    bytes
}

const ALWAYS: (u32, u32) = (0, u32::MAX);

fn name(issuer: u16, of: u16, house: u16, names: &[u16]) -> Vec<u8> {
    certificate(issuer, ALWAYS, Subject::new(house, names), Statement::Name(of))
}

fn right(issuer: u16, house: u16, names: &[u16], passing: bool) -> Vec<u8> {
    let statement = Statement::Rights { set: 8, passing };
    certificate(issuer, ALWAYS, Subject::new(house, names), statement)
}

/// What both finders write for deliveries and a request, asked at the gate of house 1.
fn found(test: &str, deliveries: &[Vec<u8>], ask: &[u8]) -> (Vec<u8>, i32) {
    let arguments =
        [vec!["1".to_string()], files(test, &[deliveries, &[ask.to_vec()]].concat())].concat();
    let [plain, fast] = FINDERS.map(|finder| run(finder, &arguments));
    assert_eq!(plain, fast);
    plain
}

/// The spans that both programs print, asked at the gate of house 1.
fn spans(test: &str, deliveries: &[Vec<u8>], ask: &[u8]) -> (String, i32) {
    let arguments =
        [vec!["1".to_string()], files(test, &[deliveries, &[ask.to_vec()]].concat())].concat();
    let [(out, status), fast] = UNTIL.map(|program| run(program, &arguments));
    assert_eq!((&out, status), (&fast.0, fast.1));
    (String::from_utf8(out).expect("spans are text"), status)
}

fn ask(house: u8) -> Vec<u8> {
    vec![4, 0, house, 3, 0, 0, 0, 0]
}

#[test]
fn finds_two_lines() {
    let events = [name(1, 5, 2, &[]), right(1, 1, &[5], true)].concat();
    let sheet = vec![4, 0, 2, 3, 0, 0, 0, 2, 0, 0, 0, 1, 0, 2];
    assert_eq!(found("two-lines", &[events], &ask(2)), (sheet, 0));
}

#[test]
fn finds_no_sheet_in_an_empty_ring() {
    let events = [name(1, 5, 2, &[5]), name(2, 5, 1, &[5]), right(1, 1, &[5], true)].concat();
    assert_eq!(found("ring", std::slice::from_ref(&events), &ask(4)), (b"12\n".to_vec(), 1));
    let events = [events, name(2, 5, 4, &[])].concat();
    let sheet = vec![4, 0, 4, 3, 0, 0, 0, 3, 0, 3, 0, 0, 0, 4, 0, 2, 0, 4];
    assert_eq!(found("filled-ring", &[events], &ask(4)), (sheet, 0));
}

#[test]
fn replaces_names_twice() {
    let events = [
        name(1, 1, 1, &[2, 2]),
        name(1, 2, 1, &[3, 3]),
        name(1, 3, 1, &[]),
        right(1, 1, &[1], false),
    ];
    let (sheet, status) = found("twice", &[events.concat()], &ask(1));
    assert_eq!((&sheet[..], status), (&[4, 0, 1, 3, 0, 0, 0, 0][..], 0));
}

#[test]
fn takes_the_least_steps_of_the_facts_before_the_turn() {
    let events = [name(1, 5, 9, &[]), name(9, 6, 3, &[]), name(1, 5, 8, &[]), name(8, 6, 3, &[])];
    let events = [events.concat(), right(1, 1, &[5, 6], false)].concat();
    let sheet = vec![4, 0, 3, 3, 0, 0, 0, 3, 0, 2, 0, 3, 0, 4, 0, 8, 0, 3];
    assert_eq!(found("least", &[events], &ask(3)), (sheet, 0));
}

#[test]
fn the_owner_needs_no_lines_and_a_right_without_passing_on_ends() {
    assert_eq!(found("owner", &[], &ask(1)), (ask(1), 0));
    let events = [right(1, 2, &[], false), right(2, 3, &[], true)].concat();
    assert_eq!(found("ends", &[events], &ask(3)), (b"12\n".to_vec(), 1));
}

#[test]
fn tells_the_fault_of_a_request() {
    let faulty: [(&[u8], &str); 9] = [
        (&[], "1\n"),
        (&[4, 0, 2, 3, 0, 0, 0], "1\n"),
        (&[3, 0, 2, 3, 0, 0, 0, 0], "1\n"),
        (&[4, 4, 0, 3, 0, 0, 0, 0], "2\n"),
        (&[4, 0, 2, 64, 0, 0, 0, 0], "2\n"),
        (&[4, 0, 2, 64, 0, 0, 0, 1, 7], "2\n"),
        (&[4, 0, 2, 3, 0, 0, 0, 1], "1\n"),
        (&[4, 0, 2, 3, 0, 0, 0, 0, 0], "1\n"),
        (&[4, 0, 2, 3, 255, 255, 255, 255], "1\n"),
    ];
    for (number, (ask, told)) in faulty.into_iter().enumerate() {
        let test = format!("faulty-{number}");
        assert_eq!(found(&test, &[vec![3]], ask), (told.as_bytes().to_vec(), 1));
        assert_eq!(spans(&test, &[vec![3]], ask), (told.to_string(), 1));
    }
}

#[test]
fn joins_spans_that_touch() {
    let right = |days| {
        let statement = Statement::Rights { set: 8, passing: false };
        certificate(1, days, Subject::new(2, &[]), statement)
    };
    let last = u32::MAX;
    let events =
        [right((5, 9)), right((10, 12)), right((14, 14)), right((20, 19)), right((last, last))];
    let expected = "5 12\n14 14\n4294967295 on\n".to_string();
    assert_eq!(spans("spans", &[events.concat(), vec![3; 7]], &ask(2)), (expected, 0));
    let taken_back = [events.concat(), vec![2, 0, 1]].concat();
    let expected = "5 9\n14 14\n4294967295 on\n".to_string();
    assert_eq!(spans("spans-back", &[taken_back], &ask(2)), (expected, 0));
    assert_eq!(spans("no-spans", &[], &ask(2)), (String::new(), 0));
    assert_eq!(spans("all-spans", &[], &ask(1)), ("0 on\n".to_string(), 0));
}

#[test]
fn a_beginning_without_effect_divides_no_span() {
    let other = |days| {
        let statement = Statement::Rights { set: 4, passing: true };
        certificate(1, days, Subject::new(2, &[]), statement)
    };
    let given = |days| {
        let statement = Statement::Rights { set: 8, passing: true };
        certificate(1, days, Subject::new(2, &[]), statement)
    };
    let events = [other((3, 30)), given((5, 20)), other((7, 9)), given((15, 40)), other((50, 60))];
    let expected = "5 40\n".to_string();
    assert_eq!(spans("no-effect", &[events.concat()], &ask(2)), (expected, 0));
}

#[test]
fn both_schedules_give_the_same_spans() {
    for input in plain::inputs::all(1) {
        let paths = files(&format!("{}-spans", input.name), &[input.events.clone(), input.ask()]);
        let arguments = [vec![input.owner.to_string()], paths].concat();
        let [plain, fast] = UNTIL.map(|program| run(program, &arguments));
        assert!(!plain.0.is_empty() && plain == fast, "{}", input.name);
    }
}

#[test]
fn both_finders_write_a_sheet_that_opens_the_gate() {
    for input in plain::inputs::all(1) {
        let paths = files(&input.name, &[input.events.clone(), input.ask(), Vec::new()]);
        let owner = input.owner.to_string();
        let arguments = [owner.clone(), paths[0].clone(), paths[1].clone()];
        let [(sheet, status), other] = FINDERS.map(|finder| run(finder, &arguments));
        assert_eq!(status, 0, "{}", input.name);
        assert!((&sheet, status) == (&other.0, other.1), "{}", input.name);
        std::fs::write(&paths[2], sheet).expect("a file for tests can be written");
        let answer = run(GATE, &[owner, paths[0].clone(), paths[2].clone()]);
        assert_eq!(answer, (b"open\n".to_vec(), 0), "{}", input.name);
    }
}
