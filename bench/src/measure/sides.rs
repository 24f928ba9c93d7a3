//! Where the programs of both sides lie.

use std::fmt;
use std::io;
use std::path::{Path, PathBuf};

/// The proved programs, each with an unproved one that is compared with it.
#[derive(Clone, Copy, PartialEq, Eq, Debug)]
pub enum Pair {
    Gate,
    Find,
    FindFast,
    Until,
    UntilFast,
}

pub const PAIRS: [Pair; 5] = [Pair::Gate, Pair::Find, Pair::FindFast, Pair::Until, Pair::UntilFast];

impl Pair {
    pub fn proved(self) -> &'static str {
        match self {
            Pair::Gate => "gate",
            Pair::Find | Pair::FindFast => "find",
            Pair::Until | Pair::UntilFast => "until",
        }
    }

    pub fn plain(self) -> &'static str {
        match self {
            Pair::Gate => "plain-gate",
            Pair::Find => "plain-find",
            Pair::FindFast => "plain-find-fast",
            Pair::Until => "plain-until",
            Pair::UntilFast => "plain-until-fast",
        }
    }

    /// Whether the unproved program has another schedule than the proved one.
    pub fn is_fast(self) -> bool {
        matches!(self, Pair::FindFast | Pair::UntilFast)
    }
}

impl fmt::Display for Pair {
    fn fmt(&self, f: &mut fmt::Formatter<'_>) -> fmt::Result {
        write!(f, "{}/{}", self.proved(), self.plain())
    }
}

pub struct Sides {
    proved: PathBuf,
    plain: PathBuf,
}

impl Sides {
    /// The unproved programs lie beside the one that runs.
    pub fn new(proved: &str) -> io::Result<Sides> {
        let here = std::env::current_exe()?;
        let plain = here.parent().unwrap_or(Path::new(".")).to_path_buf();
        Ok(Sides { proved: PathBuf::from(proved), plain })
    }

    /// The proved program, if it is there.
    pub fn proved(&self, pair: Pair) -> Option<PathBuf> {
        Some(self.proved.join(pair.proved())).filter(|path| path.is_file())
    }

    pub fn plain(&self, pair: Pair) -> PathBuf {
        self.plain.join(pair.plain())
    }
}
