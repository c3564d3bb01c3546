//! Puts a condition in the place of a `?`, for the script `definite-plan`:
//! `definite FOLDER VERTEX CONDITION NEW` reads the plan in a folder and writes the definite one to a
//! new folder. Unproved; the two lines that it prints are the proved checker's. The script has the
//! statuses.

use compare::checker::Answer;
use compare::compare::{outcome, Outcome};
use compare::definite::folder::NewFolder;
use compare::definite::{condition, definite, variables, Fault};
use compare::explain::Plan;
use compare::files::{line, LONGEST};
use compare::generate::Pair;
use compare::proved::Proved;
use std::ffi::OsString;
use std::fs::{self, File};
use std::io::{self, ErrorKind, Write};
use std::os::fd::AsFd;
use std::path::Path;
use std::process::ExitCode;

/// Why nothing was made, and the status that says so.
struct Stop {
    status: u8,
    reason: String,
}

const WRONG_CALL: u8 = 2;
const NOT_WRITTEN: u8 = 3;
const NOT_PRINTED: u8 = 4;
const REFUSED: u8 = 20;

fn main() -> ExitCode {
    let arguments: Vec<OsString> = std::env::args_os().skip(1).collect();
    match run(&arguments) {
        Ok(()) => ExitCode::SUCCESS,
        Err(Stop { status, reason }) => {
            // Without standard error the status is all that is left to say.
            let _ = writeln!(io::stderr(), "definite-plan: {reason}");
            ExitCode::from(status)
        }
    }
}

fn stop(status: u8, reason: impl ToString) -> Stop {
    Stop {
        status,
        reason: reason.to_string(),
    }
}

fn run(arguments: &[OsString]) -> Result<(), Stop> {
    let [folder, vertex, condition, new] = arguments else {
        let usage = "usage: definite FOLDER VERTEX CONDITION NEW";
        return Err(stop(WRONG_CALL, usage));
    };
    let [vertex, condition] = [text(vertex)?, text(condition)?];
    let number = vertex.parse();
    let vertex =
        number.map_err(|_| stop(WRONG_CALL, format!("'{vertex}' is no number of a vertex")))?;
    let [folder, new] = [folder, new].map(Path::new);
    untaken(new)?;
    let plan = Plan::read(folder);
    let before = accepted(&plan)?;
    let pair = made(&plan, vertex, condition)?;
    let mut made = NewFolder::part_of(new).map_err(|error| unwritten(new, error))?;
    let written = made.write(&pair);
    written.map_err(|error| unwritten(new, error))?;
    let after = reread(&made, &pair, &before)?;
    made.rename(new).map_err(|error| unwritten(new, error))?;
    let printed = print(&[(folder, before), (new, after)]);
    printed.map_err(|error| stop(NOT_PRINTED, unprinted(error)))?;
    made.keep();
    Ok(())
}

fn text(argument: &OsString) -> Result<&str, Stop> {
    let no_text = || stop(WRONG_CALL, "an argument is no text in UTF-8");
    argument.to_str().ok_or_else(no_text)
}

/// That nothing has the name of the new folder.
fn untaken(new: &Path) -> Result<(), Stop> {
    match fs::symlink_metadata(new) {
        Err(error) if error.kind() == ErrorKind::NotFound => Ok(()),
        Err(error) => Err(unwritten(new, error)),
        Ok(_) => {
            let reason = format!("{} is there already, and stays as it is", new.display());
            Err(stop(WRONG_CALL, reason))
        }
    }
}

/// The proved checker's answer, which is safe.
fn accepted(plan: &Plan) -> Result<Outcome, Stop> {
    let faults = [&plan.program_fault, &plan.witness_fault];
    if let Some(fault) = faults.into_iter().flatten().next() {
        return Err(stop(REFUSED, fault));
    }
    let proved = outcome(&Proved, &plan.input());
    match proved.0 {
        Answer::Safe(_) => Ok(proved),
        answer => Err(stop(REFUSED, Fault::NotAccepted(answer))),
    }
}

/// The definite plan, if its files are no longer than files may be.
fn made(plan: &Plan, vertex: usize, text: &str) -> Result<Pair, Stop> {
    let no_choice = || stop(REFUSED, Fault::NoChoice(vertex));
    let (globals, columns) = variables(&plan.program, vertex).ok_or_else(no_choice)?;
    let condition = condition::parse(text, globals, columns);
    let condition = condition.map_err(|reason| stop(WRONG_CALL, reason))?;
    let made = definite(&plan.program, &plan.witness, vertex, &condition);
    let pair = made.map_err(|fault| stop(status(fault), fault))?.pair;
    let (words, most) = (pair.witness.len(), LONGEST / 4);
    if words > most {
        let reason =
            format!("the certificate would have {words} words, and a file may have {most}");
        return Err(stop(REFUSED, reason));
    }
    Ok(pair)
}

/// A condition that can't be put in is one of the call; all else is about the plan.
fn status(fault: Fault) -> u8 {
    match fault {
        Fault::Operator(_) | Fault::Coefficients(..) | Fault::BeyondLimits => WRONG_CALL,
        _ => REFUSED,
    }
}

/// The proved checker's answer to what the new files have, which is that of the old ones.
fn reread(made: &NewFolder, pair: &Pair, before: &Outcome) -> Result<Outcome, Stop> {
    let plan = Plan::read(made.path());
    if (&plan.program, &plan.witness) != (&pair.program, &pair.witness) {
        return Err(stop(
            NOT_WRITTEN,
            "the new files don't have what was written",
        ));
    }
    let after = outcome(&Proved, &plan.input());
    if after != *before {
        let reason = format!(
            "the definite plan would have the answer {}, where the plan has {}, so it is not kept; \
             please report the two files to whoever maintains the checkers",
            line(&after),
            line(before)
        );
        return Err(stop(NOT_WRITTEN, reason));
    }
    Ok(after)
}

fn unwritten(new: &Path, error: io::Error) -> Stop {
    let reason = format!("{} couldn't be written: {error}", new.display());
    stop(NOT_WRITTEN, reason)
}

fn unprinted(error: io::Error) -> String {
    format!("standard output can't be written: {error}")
}

fn print(lines: &[(&Path, Outcome)]) -> io::Result<()> {
    let mut text = String::new();
    for (folder, outcome) in lines {
        text += &format!("{}: {}\n", folder.display(), line(outcome));
    }
    // The library's standard output takes a descriptor that can't be written for one that swallows all.
    let mut out = File::from(io::stdout().as_fd().try_clone_to_owned()?);
    out.write_all(text.as_bytes())
}
