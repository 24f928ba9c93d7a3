//! Inputs as files, with the arguments by which the programs take them.

use super::process::outcome;
use super::sides::{Pair, Sides};
use crate::inputs::Input;
use std::ffi::OsString;
use std::fs;
use std::io;
use std::path::{Path, PathBuf};

/// An input whose files were written.
pub struct Files {
    pub name: String,
    owner: OsString,
    events: PathBuf,
    ask: PathBuf,
    request: PathBuf,
}

impl Files {
    /// Writes an input, and the request that the unproved finder gives for it.
    pub fn write(input: &Input, folder: &Path, sides: &Sides) -> io::Result<Files> {
        input.write(folder)?;
        let path = |kind: &str| folder.join(format!("{}.{kind}", input.name));
        let files = Files {
            name: input.name.clone(),
            owner: input.owner.to_string().into(),
            events: path("events"),
            ask: path("ask"),
            request: path("request"),
        };
        let found = outcome(&sides.plain(Pair::FindFast), &files.arguments(Pair::FindFast))?;
        let sheet = if found.status == Some(0) { found.out } else { fs::read(&files.ask)? };
        fs::write(&files.request, sheet)?;
        Ok(files)
    }

    pub fn arguments(&self, pair: Pair) -> Vec<OsString> {
        let last = if pair == Pair::Gate { &self.request } else { &self.ask };
        vec![self.owner.clone(), self.events.clone().into(), last.clone().into()]
    }

    /// The gate's arguments with the request so many times.
    pub fn many_requests(&self, count: usize) -> Vec<OsString> {
        let mut arguments = vec![self.owner.clone(), self.events.clone().into()];
        arguments.extend(std::iter::repeat_n(OsString::from(&self.request), count));
        arguments
    }
}
