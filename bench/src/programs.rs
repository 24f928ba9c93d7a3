//! The programs, as functions of their arguments, so that tests can run them without a process.

use crate::check::{self, Table};
use crate::delivery::{receive, Told};
use crate::fault::Cause;
use crate::gate::Gate;
use crate::request::{Asked, Head};
use crate::schedule::{self, Schedule};
use crate::spans::spans;
use std::ffi::{OsStr, OsString};
use std::fs::File;
use std::io::{self, Read, Write};
use std::process::ExitCode;

/// Runs a program on the process's arguments.
pub fn main(program: impl Fn(&[OsString], &mut dyn Write, &mut dyn Write) -> u8) -> ExitCode {
    let arguments: Vec<OsString> = std::env::args_os().skip(1).collect();
    let mut out = io::BufWriter::with_capacity(1 << 16, io::stdout().lock());
    let status = program(&arguments, &mut out, &mut io::stderr().lock());
    match out.flush() {
        Ok(()) => ExitCode::from(status),
        Err(_) => ExitCode::FAILURE,
    }
}

/// `gate OWNER FILE...`: prints the fault of each refused event and the answer to each request.
pub fn gate(arguments: &[OsString], out: &mut dyn Write, err: &mut dyn Write) -> u8 {
    let run = |out: &mut dyn Write| {
        let (owner, files) = opened(arguments)?;
        let mut gate = Gate::new(owner);
        let mut table = Table::default();
        for name in files {
            receive(&mut gate, open(name)?, |told| match told {
                Told::Refused(_, cause) => writeln!(out, "{}", cause as u8),
                Told::Request(gate, request) => match check::answer(gate, request, &mut table) {
                    Ok(()) => writeln!(out, "open"),
                    Err(fault) => writeln!(out, "{fault}"),
                },
            })?;
        }
        Ok(0)
    };
    told(run(out), err)
}

/// `find OWNER FILE...`: writes the last file, a request without lines, with its sheet.
pub fn find(
    schedule: Schedule,
    arguments: &[OsString],
    out: &mut dyn Write,
    err: &mut dyn Write,
) -> u8 {
    let run = |out: &mut dyn Write, err: &mut dyn Write| {
        let (gate, head) = asked(arguments, err)?;
        let head = match head {
            Ok(head) => head,
            Err(cause) => return refused(cause, out),
        };
        let Head { house, right, .. } = head;
        let asked = Asked { owner: gate.owner, house, right };
        let Some(lines) = schedule.find(&gate.registry, asked, gate.day) else {
            return refused(Cause::NoSheet, out);
        };
        out.write_all(&schedule::write(&gate.registry, house, right, &lines))?;
        Ok(0)
    };
    told(run(out, err), err)
}

/// `until OWNER FILE...`: prints the spans of days on which the house of the last file may.
pub fn until(
    schedule: Schedule,
    arguments: &[OsString],
    out: &mut dyn Write,
    err: &mut dyn Write,
) -> u8 {
    let run = |out: &mut dyn Write, err: &mut dyn Write| {
        let (gate, head) = asked(arguments, err)?;
        match head {
            Err(cause) => return refused(cause, out),
            Ok(Head { house, right, .. }) => {
                let asked = Asked { owner: gate.owner, house, right };
                for span in spans(schedule, &gate.registry, asked) {
                    writeln!(out, "{span}")?;
                }
            }
        }
        Ok(0)
    };
    told(run(out, err), err)
}

fn told(run: io::Result<u8>, err: &mut dyn Write) -> u8 {
    run.unwrap_or_else(|error| {
        // There is nowhere else to tell of it.
        let _ = writeln!(err, "{error}");
        1
    })
}

fn refused(cause: Cause, out: &mut dyn Write) -> io::Result<u8> {
    writeln!(out, "{}", cause as u8)?;
    Ok(1)
}

/// The owner and the files, each of which was opened once.
fn opened(arguments: &[OsString]) -> io::Result<(u16, &[OsString])> {
    let (owner, files) = arguments.split_first().ok_or(io::Error::other("usage: OWNER FILE..."))?;
    let owner = house(owner).ok_or(io::Error::other("OWNER is a number from 0 to 1023"))?;
    for name in files {
        open(name)?;
    }
    Ok((owner, files))
}

fn house(argument: &OsStr) -> Option<u16> {
    let number = argument.to_str()?.parse().ok()?;
    (number < 1024).then_some(number)
}

/// Opens a file; a folder is refused.
fn open(name: &OsStr) -> io::Result<File> {
    let told = |error| io::Error::other(format!("{}: {error}", name.display()));
    let file = File::open(name).map_err(told)?;
    match file.metadata().map_err(told)?.is_dir() {
        true => Err(told(io::Error::from(io::ErrorKind::IsADirectory))),
        false => Ok(file),
    }
}

/// The gate after the deliveries, in which a request changes nothing, and the last file's head.
fn asked(arguments: &[OsString], err: &mut dyn Write) -> io::Result<(Gate, Result<Head, Cause>)> {
    let (owner, files) = opened(arguments)?;
    let (ask, deliveries) = files.split_last().ok_or(io::Error::other("usage: OWNER FILE..."))?;
    let mut gate = Gate::new(owner);
    for name in deliveries {
        receive(&mut gate, open(name)?, |told| match told {
            Told::Request(..) => Ok(()),
            Told::Refused(offset, cause) => {
                writeln!(err, "{}: byte {offset}: {}", name.display(), cause as u8)
            }
        })?;
    }
    // One byte more than a head shows that something follows it.
    let mut bytes = Vec::new();
    open(ask)?.take(9).read_to_end(&mut bytes)?;
    Ok((gate, Head::read_alone(&bytes)))
}
