//! The gate's binary: the run that the repository records, deliveries in pieces, and bad arguments.

mod common;

use common::{files, folder, run};
use std::fs;
use std::path::Path;

const GATE: &str = env!("CARGO_BIN_EXE_plain-gate");

fn text(program: &str, arguments: &[String]) -> (String, i32) {
    let (out, status) = run(program, arguments);
    (String::from_utf8(out).expect("answers are text"), status)
}

#[test]
fn answers_as_the_recorded_run() {
    let gate = Path::new(env!("CARGO_MANIFEST_DIR")).join("../crates/gate");
    let arguments =
        fs::read_to_string(gate.join("args")).expect("the recorded arguments are there");
    let path = |(at, word): (usize, &str)| match at {
        0 => word.to_string(),
        _ => gate.join("data").join(word).display().to_string(),
    };
    let arguments: Vec<String> = arguments.split_whitespace().enumerate().map(path).collect();
    let expected = fs::read_to_string(gate.join("stdout")).expect("the recorded output is there");
    assert_eq!(text(GATE, &arguments), (expected, 0));
}

#[test]
fn takes_events_across_pieces() {
    // Refused certificates with 255 names, so that pieces end inside of events.
    let mut long = vec![1, 0, 0, 0, 0, 0, 0, 0, 0, 0, 0, 0, 0, 255];
    long.extend([0; 510]);
    long.extend([0, 0, 0]);
    let mut events = long.repeat(1000);
    events.push(9);
    events.extend(&long);
    let arguments = [vec!["0".to_string()], files("pieces", &[events])].concat();
    let expected = "2\n".repeat(1000) + "1\n";
    assert_eq!(text(GATE, &arguments), (expected, 0));
}

#[test]
fn ends_an_endless_delivery_at_its_first_fault() {
    let arguments = ["0".to_string(), "/dev/zero".to_string()];
    assert_eq!(text(GATE, &arguments), ("1\n".to_string(), 0));
}

#[test]
fn answers_a_request_that_is_too_long() {
    // As many lines as there can be to one certificate without names, and a byte after them.
    let certificate = vec![1, 0, 0, 0, 0, 0, 0, 255, 255, 255, 255, 0, 0, 0, 0, 0, 7];
    let mut request = vec![4, 0, 0, 3, 0, 0, 4, 0];
    request.extend(vec![0; 2 * 1024]);
    let longer = [&request[..], &[0]].concat();
    let mut more = request.clone();
    more[7] = 1;
    let arguments = files("too-long", &[certificate, request, longer, more]);
    let arguments = [vec!["0".to_string()], arguments].concat();
    assert_eq!(text(GATE, &arguments), ("open\n1\n6\n".to_string(), 0));
}

#[test]
fn prints_nothing_for_bad_arguments() {
    let file = files("arguments", &[vec![9]]).remove(0);
    let folder = folder("arguments").display().to_string();
    let bad: [&[&str]; 7] = [
        &[],
        &["1024", &file],
        &["-1", &file],
        &["x", &file],
        &["", &file],
        &["1", &file, "/no/such/file"],
        &["1", &file, &folder],
    ];
    for arguments in bad {
        let arguments: Vec<String> = arguments.iter().map(|word| word.to_string()).collect();
        assert_eq!(text(GATE, &arguments), (String::new(), 1), "{arguments:?}");
    }
    for owner in ["1023", "0", "007"] {
        assert_eq!(text(GATE, &[owner.to_string(), file.clone()]), ("1\n".to_string(), 0));
    }
}
