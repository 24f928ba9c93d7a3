//! Files for tests, and runs of the programs on them.

use std::fs;
use std::path::{Path, PathBuf};
use std::process::Command;

/// A folder of its own for a test.
pub fn folder(test: &str) -> PathBuf {
    let folder = Path::new(env!("CARGO_TARGET_TMPDIR")).join(test);
    fs::create_dir_all(&folder).expect("the folder for tests can be made");
    folder
}

/// Writes files named by letters, and gives their paths.
pub fn files(test: &str, all: &[Vec<u8>]) -> Vec<String> {
    let folder = folder(test);
    let paths = (0..all.len()).map(|number| folder.join(format!("file-{number}")));
    let paths: Vec<PathBuf> = paths.collect();
    for (path, bytes) in paths.iter().zip(all) {
        fs::write(path, bytes).expect("a file for tests can be written");
    }
    paths.iter().map(|path| path.display().to_string()).collect()
}

/// Standard output and status of a program.
pub fn run(program: &str, arguments: &[String]) -> (Vec<u8>, i32) {
    let output = Command::new(program).args(arguments).output().expect("the program runs");
    (output.stdout, output.status.code().expect("the program ends by itself"))
}
