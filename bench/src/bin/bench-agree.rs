//! bench-agree PROVED FOLDER N SEED PROGRAM...: compares the programs of both sides byte for byte
//! on N random cases, and stops at the first difference, whose files it leaves in a folder.

use plain::measure::process::{outcome, Outcome};
use plain::measure::sides::{Pair, PAIRS};
use plain::programs;
use plain::schedule::Schedule;
use plain::trial::case::Case;
use std::ffi::OsString;
use std::fs;
use std::io;
use std::path::{Path, PathBuf};
use std::process::ExitCode;

struct Driver {
    proved: PathBuf,
    folder: PathBuf,
    programs: Vec<String>,
    runs: usize,
}

/// A run on which the two sides differ.
struct Difference {
    pair: Pair,
    arguments: Vec<OsString>,
    proved: Outcome,
    plain: Outcome,
}

fn main() -> ExitCode {
    match run(std::env::args().skip(1).collect()) {
        Ok(status) => status,
        Err(error) => {
            eprintln!("{error}");
            ExitCode::FAILURE
        }
    }
}

fn run(arguments: Vec<String>) -> io::Result<ExitCode> {
    let [proved, folder, count, seed, programs @ ..] = &arguments[..] else {
        return Err(io::Error::other("usage: bench-agree PROVED FOLDER N SEED PROGRAM..."));
    };
    let number = |text: &str| text.parse::<u64>().map_err(io::Error::other);
    let (count, start) = (number(count)?, number(seed)?);
    if !programs.iter().all(|program| PAIRS.iter().any(|pair| pair.proved() == program)) {
        return Err(io::Error::other("a program is gate, find or until"));
    }
    let mut driver = Driver {
        proved: PathBuf::from(proved),
        folder: Path::new(folder).join("case"),
        programs: programs.to_vec(),
        runs: 0,
    };
    for seed in start..start + count {
        if let Some(difference) = driver.case(&Case::new(seed))? {
            let left = Path::new(folder).join(format!("difference-{seed}"));
            driver.leave(&difference, &left)?;
            println!(
                "case {seed}: {} differ; the files are in {}",
                difference.pair,
                left.display()
            );
            return Ok(ExitCode::FAILURE);
        }
    }
    println!("{count} cases, {} runs of proved programs: no difference", driver.runs);
    Ok(ExitCode::SUCCESS)
}

impl Driver {
    /// Runs all programs on a case.
    fn case(&mut self, case: &Case) -> io::Result<Option<Difference>> {
        if self.folder.exists() {
            fs::remove_dir_all(&self.folder)?;
        }
        fs::create_dir_all(&self.folder)?;
        let mut arguments = vec![OsString::from(case.owner.to_string())];
        for (number, delivery) in case.deliveries.iter().enumerate() {
            arguments.push(self.put(&format!("delivery-{number}"), delivery)?);
        }
        let mut asks = Vec::new();
        for (number, ask) in case.asks.iter().enumerate() {
            asks.push(self.put(&format!("ask-{number}"), ask)?);
        }
        for program in self.programs.clone() {
            let last: &[OsString] = if program == "gate" { &[OsString::new()] } else { &asks };
            for ask in last {
                let ask = (program != "gate").then(|| ask.clone());
                let all: Vec<OsString> = arguments.iter().cloned().chain(ask).collect();
                if let Some(difference) = self.compare(&program, all)? {
                    return Ok(Some(difference));
                }
            }
        }
        Ok(None)
    }

    fn put(&self, name: &str, bytes: &[u8]) -> io::Result<OsString> {
        let path = self.folder.join(name);
        fs::write(&path, bytes)?;
        Ok(path.into())
    }

    /// Runs a proved program, and all unproved ones that are compared with it.
    fn compare(
        &mut self,
        program: &str,
        arguments: Vec<OsString>,
    ) -> io::Result<Option<Difference>> {
        self.runs += 1;
        let proved = outcome(&self.proved.join(program), &arguments)?;
        for pair in PAIRS.into_iter().filter(|pair| pair.proved() == program) {
            let plain = plain(pair, &arguments);
            if proved != plain {
                return Ok(Some(Difference { pair, arguments, proved, plain }));
            }
        }
        Ok(None)
    }

    /// Leaves the files, the command, and what each side answered.
    fn leave(&self, difference: &Difference, folder: &Path) -> io::Result<()> {
        if folder.exists() {
            fs::remove_dir_all(folder)?;
        }
        fs::rename(&self.folder, folder)?;
        let program = self.proved.join(difference.pair.proved());
        let name =
            |argument: &OsString| Path::new(argument).file_name().unwrap_or_default().to_owned();
        let words: Vec<OsString> = difference.arguments.iter().map(name).collect();
        let words = words.join(&OsString::from(" "));
        let statuses = (difference.proved.status, difference.plain.status);
        let text = format!("{} {}\nstatus {statuses:?}\n", program.display(), words.display());
        fs::write(folder.join("command"), text)?;
        fs::write(folder.join("out-proved"), &difference.proved.out)?;
        fs::write(folder.join("out-plain"), &difference.plain.out)
    }
}

/// The unproved program's function, which its binary calls; a process less to each run.
fn plain(pair: Pair, arguments: &[OsString]) -> Outcome {
    let mut out = Vec::new();
    let err = &mut io::sink();
    let status = match pair {
        Pair::Gate => programs::gate(arguments, &mut out, err),
        Pair::Find => programs::find(Schedule::Plain, arguments, &mut out, err),
        Pair::FindFast => programs::find(Schedule::Fast, arguments, &mut out, err),
        Pair::Until => programs::until(Schedule::Plain, arguments, &mut out, err),
        Pair::UntilFast => programs::until(Schedule::Fast, arguments, &mut out, err),
    };
    Outcome { out, status: Some(i32::from(status)) }
}
