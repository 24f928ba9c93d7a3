use plain::programs::{find, main as run};
use plain::schedule::Schedule;
use std::process::ExitCode;

fn main() -> ExitCode {
    run(|arguments, out, err| find(Schedule::Fast, arguments, out, err))
}
