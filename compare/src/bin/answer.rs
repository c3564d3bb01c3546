//! Reads `plan.lin` and `plan.wit`, in the folder that is named or in the current one, and prints
//! the line that document 01 asks for, by the second checker.

use compare::checker::check;
use compare::files::{self, line, marked_buffer, read_words};
use std::path::PathBuf;

fn main() {
    let folder: PathBuf = std::env::args().nth(1).unwrap_or_else(|| ".".into()).into();
    let program = read_words(&folder.join(files::PROGRAM));
    let witness = read_words(&folder.join(files::WITNESS));
    let mut buffer = marked_buffer();
    let answer = check(&program, &witness, &mut buffer);
    println!("{}", line(&(answer, buffer)));
}
