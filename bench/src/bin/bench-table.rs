//! bench-table PROVED FOLDER SEED: runs both sides on the named inputs, and prints ratios.

use plain::inputs;
use plain::measure::cases::Files;
use plain::measure::process::{best_time, counts_instructions, instructions, outcome};
use plain::measure::sides::{Pair, Sides, PAIRS};
use plain::measure::table::{cell, ratio, Table};
use std::ffi::OsString;
use std::io;
use std::path::Path;
use std::time::Duration;

/// Runs that take longer are not counted in instructions, which takes some fifty times as long.
const TOO_LONG: Duration = Duration::from_secs(3);

const HEADS: [&str; 8] = [
    "input",
    "proved/unproved",
    "proved ms",
    "unproved ms",
    "ratio",
    "proved Minstr",
    "unproved Minstr",
    "ratio",
];

/// What one program took on one input: milliseconds, and millions of instructions.
#[derive(Clone, Copy)]
struct Measured {
    time: f64,
    instructions: Option<f64>,
}

struct Bench {
    sides: Sides,
    counting: bool,
    table: Table,
    /// What the last row's proved program took; `find` and `until` stand in two rows.
    proved: Option<(String, Measured)>,
}

fn main() -> io::Result<()> {
    let arguments: Vec<String> = std::env::args().skip(1).collect();
    let [proved, folder, seed] = &arguments[..] else {
        return Err(io::Error::other("usage: bench-table PROVED FOLDER SEED"));
    };
    let seed = seed.parse().map_err(io::Error::other)?;
    std::fs::create_dir_all(folder)?;
    let mut bench = Bench {
        sides: Sides::new(proved)?,
        counting: std::env::var_os("NO_INSTRUCTIONS").is_none() && counts_instructions(),
        table: Table::new(&HEADS),
        proved: None,
    };
    bench.row("start of a program", Pair::Gate, &[OsString::from("0")])?;
    for input in inputs::all(seed) {
        let files = Files::write(&input, Path::new(folder), &bench.sides)?;
        for pair in PAIRS {
            bench.row(&files.name, pair, &files.arguments(pair))?;
        }
        if files.name == "consortium" {
            bench.row("consortium, 200 requests", Pair::Gate, &files.many_requests(200))?;
        }
    }
    bench.table.print();
    Ok(())
}

impl Bench {
    /// Measures a pair of programs on the same arguments; their output must be the same.
    fn row(&mut self, name: &str, pair: Pair, arguments: &[OsString]) -> io::Result<()> {
        let path = self.sides.plain(pair);
        let mut proved = None;
        if let Some(proved_path) = self.sides.proved(pair) {
            if outcome(&proved_path, arguments)? != outcome(&path, arguments)? {
                return Err(io::Error::other(format!("{pair} differ: {arguments:?}")));
            }
            let key = format!("{name} {}", pair.proved());
            let known = self.proved.take().filter(|(of, _)| *of == key);
            let measured = match known {
                Some((_, measured)) => measured,
                None => self.measure(&proved_path, arguments)?,
            };
            self.proved = Some((key, measured));
            proved = Some(measured);
        }
        let plain = self.measure(&path, arguments)?;
        self.table.add(cells(name, pair, proved, plain));
        Ok(())
    }

    fn measure(&self, program: &Path, arguments: &[OsString]) -> io::Result<Measured> {
        let time = best_time(program, arguments)?;
        let mut count = None;
        if self.counting && time < TOO_LONG {
            count = instructions(program, arguments)?;
        }
        Ok(Measured {
            time: 1e3 * time.as_secs_f64(),
            instructions: count.map(|count| count as f64 / 1e6),
        })
    }
}

fn cells(name: &str, pair: Pair, proved: Option<Measured>, plain: Measured) -> Vec<String> {
    let number = |value: f64| format!("{value:.2}");
    let time = proved.map(|proved| proved.time);
    let count = proved.and_then(|proved| proved.instructions);
    vec![
        name.to_string(),
        pair.to_string(),
        cell(time, number),
        number(plain.time),
        ratio(time, Some(plain.time)),
        cell(count, number),
        cell(plain.instructions, number),
        ratio(count, plain.instructions),
    ]
}
