//! bench-self N [SEED]: compares the parts of the unproved side with slow definitions on N cases.

use plain::trial::case::Case;
use plain::trial::checks::{check, Counts};
use std::process::ExitCode;

fn main() -> ExitCode {
    let mut numbers = std::env::args().skip(1).map(|argument| argument.parse::<u64>());
    let (Some(Ok(count)), seed) = (numbers.next(), numbers.next()) else {
        eprintln!("usage: bench-self N [SEED]");
        return ExitCode::FAILURE;
    };
    let start = seed.and_then(Result::ok).unwrap_or(1);
    let mut counts = Counts::default();
    for seed in start..start + count {
        if let Err(difference) = check(&Case::new(seed), &mut counts) {
            println!("case {seed}: {difference}");
            return ExitCode::FAILURE;
        }
    }
    println!("{count} cases agree: {counts:?}");
    ExitCode::SUCCESS
}
