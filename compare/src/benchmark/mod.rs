//! The benchmark: what is timed, how, and the tables of it.

pub mod checks;
pub mod forms;
pub mod grammar;
pub mod program;
pub mod shapes;
mod timing;
pub mod trimming;

/// Prints the head of a table, whose first columns, so many, are texts.
fn head(texts: usize, columns: &[&str]) {
    let lines = (0..columns.len()).map(|at| if at < texts { "---" } else { "--:" });
    let lines: Vec<&str> = lines.collect();
    println!("| {} |", columns.join(" | "));
    println!("|{}|", lines.join("|"));
}
