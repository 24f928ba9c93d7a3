//! bench-inputs SEED DIR: writes the named inputs into a folder, and prints their names.

use plain::inputs;
use std::io;
use std::path::Path;

fn main() -> io::Result<()> {
    let mut arguments = std::env::args().skip(1);
    let seed = arguments.next().and_then(|seed| seed.parse().ok());
    let (Some(seed), Some(folder)) = (seed, arguments.next()) else {
        return Err(io::Error::other("usage: bench-inputs SEED DIR"));
    };
    std::fs::create_dir_all(&folder)?;
    for input in inputs::all(seed) {
        input.write(Path::new(&folder))?;
        println!("{}", input.name);
    }
    Ok(())
}
