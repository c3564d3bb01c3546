//! Explains the plan in a folder to a person: `explain FOLDER`. Unproved; the proved checker's line
//! comes first. Status 0: an explanation was printed; 1: it could not be; 2: no such folder.

use compare::compare::outcome;
use compare::explain::{explain, Plan};
use compare::proved::Proved;
use std::ffi::OsString;
use std::io::{self, Write};
use std::path::{Path, PathBuf};
use std::process::ExitCode;

fn main() -> ExitCode {
    let arguments: Vec<OsString> = std::env::args_os().skip(1).collect();
    let [folder] = &arguments[..] else {
        eprintln!("usage: explain FOLDER   (a folder with the files plan.lin and plan.wit)");
        return ExitCode::from(2);
    };
    let folder = PathBuf::from(folder);
    if !folder.is_dir() {
        eprintln!("explain: there is no folder {}", folder.display());
        return ExitCode::from(2);
    }
    match print(&folder) {
        Ok(()) => ExitCode::SUCCESS,
        Err(error) => {
            eprintln!("explain: the explanation can't be printed: {error}");
            ExitCode::FAILURE
        }
    }
}

fn print(folder: &Path) -> io::Result<()> {
    let plan = Plan::read(folder);
    let proved = outcome(&Proved, &plan.input());
    let mut out = io::stdout().lock();
    out.write_all(explain(&plan, &proved).as_bytes())?;
    out.flush()
}
