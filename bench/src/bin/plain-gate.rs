use plain::programs::{gate, main as run};
use std::process::ExitCode;

fn main() -> ExitCode {
    run(gate)
}
