//! The certificate's path edges and summary edges as inequalities.

use super::names::{procedure, row, Names};
use crate::checker::certificate::{Certificate, Disjunct, Target};
use crate::checker::program::Program;
use std::fmt::Write;

pub fn edges(program: &Program, certificate: &Certificate) -> String {
    let mut text = String::from(
        "Path edges: what is to hold whenever a run is at the vertex. x@entry is x when the procedure \
         was entered. Of several disjuncts (1), (2), .. one is to hold.\n",
    );
    for vertex in 1..=program.vertices() {
        let target = Target::Path(vertex);
        let lines = entry(certificate.edges(target), &columns(program, target));
        write_entry(&mut text, &vertex.to_string(), &lines, "never reached");
    }
    let _ = writeln!(
        text,
        "\nSummary edges: what is to hold at the exit of a call. x@exit is x there."
    );
    for number in 0..program.procedures.len() {
        let target = Target::Summary(number);
        let lines = entry(certificate.edges(target), &columns(program, target));
        write_entry(&mut text, &procedure(number), &lines, "never left");
    }
    text
}

pub fn names(program: &Program) -> Names {
    Names {
        globals: program.globals,
    }
}

/// The names of the columns of an entry.
pub fn columns(program: &Program, target: Target) -> Vec<String> {
    let names = names(program);
    match target {
        Target::Path(0) => Vec::new(),
        Target::Path(vertex) => names.path(program.columns(program.procedure_of(vertex))),
        Target::Summary(number) => names.summary(program.procedures[number].parameters),
    }
}

/// A line for each disjunct, numbered if there are several.
fn entry(disjuncts: &[Disjunct], names: &[String]) -> Vec<String> {
    let lines = disjuncts.iter().enumerate().map(|(at, disjunct)| {
        let rows: Vec<String> = disjunct.rows().map(|linear| row(linear, names)).collect();
        let rows = match rows[..] {
            [] => "true".into(),
            _ => rows.join(" and "),
        };
        match disjuncts.len() {
            1 => rows,
            _ => format!("({}) {rows}", at + 1),
        }
    });
    lines.collect()
}

fn write_entry(text: &mut String, name: &str, lines: &[String], none: &str) {
    match lines {
        [] => {
            let _ = writeln!(text, "{name:>6}  {none}");
        }
        [first, others @ ..] => {
            let _ = writeln!(text, "{name:>6}  {first}");
            for line in others {
                let _ = writeln!(text, "{:>6}  {line}", "");
            }
        }
    }
}
