use plain::programs::{main as run, until};
use plain::schedule::Schedule;
use std::process::ExitCode;

fn main() -> ExitCode {
    run(|arguments, out, err| until(Schedule::Plain, arguments, out, err))
}
