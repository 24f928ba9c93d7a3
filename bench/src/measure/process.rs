//! Processes: their output, their time, and the instructions they take.

use std::ffi::OsString;
use std::io;
use std::path::Path;
use std::process::{Command, Stdio};
use std::time::{Duration, Instant};

/// What a program wrote to standard output, and its status.
#[derive(PartialEq, Eq, Clone, Debug)]
pub struct Outcome {
    pub out: Vec<u8>,
    pub status: Option<i32>,
}

pub fn outcome(program: &Path, arguments: &[OsString]) -> io::Result<Outcome> {
    let mut command = Command::new(program);
    let run = command.args(arguments).stdin(Stdio::null()).stderr(Stdio::null()).output()?;
    Ok(Outcome { out: run.stdout, status: run.status.code() })
}

/// The best time of several runs: of more if they are short.
pub fn best_time(program: &Path, arguments: &[OsString]) -> io::Result<Duration> {
    const LONG_ENOUGH: Duration = Duration::from_millis(800);
    let mut best = Duration::MAX;
    let (mut total, mut runs) = (Duration::ZERO, 0);
    while runs < 2 || (total < LONG_ENOUGH && runs < 40) {
        let mut command = Command::new(program);
        command.args(arguments).stdin(Stdio::null()).stdout(Stdio::null()).stderr(Stdio::null());
        let start = Instant::now();
        command.status()?;
        let time = start.elapsed();
        best = best.min(time);
        total += time;
        runs += 1;
        if time > 5 * LONG_ENOUGH {
            break;
        }
    }
    Ok(best)
}

/// Whether instructions can be counted here.
pub fn counts_instructions() -> bool {
    let mut command = Command::new("valgrind");
    let run = command.arg("--version").stdout(Stdio::null()).stderr(Stdio::null()).status();
    run.is_ok_and(|status| status.success())
}

/// How many instructions a run takes.
pub fn instructions(program: &Path, arguments: &[OsString]) -> io::Result<Option<u64>> {
    let mut command = Command::new("valgrind");
    command.args(["--tool=callgrind", "--callgrind-out-file=/dev/null"]).arg(program);
    let run = command.args(arguments).stdin(Stdio::null()).stdout(Stdio::null()).output()?;
    let text = String::from_utf8_lossy(&run.stderr);
    let collected = text.lines().find_map(|line| line.split_once("Collected :"));
    Ok(collected.and_then(|(_, number)| number.trim().parse().ok()))
}
