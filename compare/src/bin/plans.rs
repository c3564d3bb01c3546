//! Writes the example plans: `plans FOLDER` makes a folder in it for each, with the two files.

use compare::files::{bytes, PROGRAM, WITNESS};
use compare::plans::plans;
use std::io;
use std::path::PathBuf;

fn main() -> io::Result<()> {
    let Some(folder) = std::env::args_os().nth(1).map(PathBuf::from) else {
        eprintln!("usage: plans FOLDER");
        std::process::exit(2);
    };
    for (name, pair) in plans() {
        let folder = folder.join(name);
        std::fs::create_dir_all(&folder)?;
        std::fs::write(folder.join(PROGRAM), bytes(&pair.program))?;
        std::fs::write(folder.join(WITNESS), bytes(&pair.witness))?;
    }
    Ok(())
}
