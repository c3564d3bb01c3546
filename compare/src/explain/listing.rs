//! The plan as statements, with vertex numbers and lines, as far as its words can be read.

use super::names::{count, list, procedure, Names};
use crate::checker::program::{Action, Layout, Procedure, Statement, Vertex};
use std::fmt::Write;

/// The plan, or nothing if its sizes or its exits are wrong. Statements that are wrong are marked.
pub fn listing(words: &[i32]) -> Option<String> {
    let layout = Layout::parse(words)?;
    let procedures = layout.procedures().ok()?;
    let names = Names {
        globals: layout.globals,
    };
    let mut text = heading(&layout, procedures.len(), names);
    for (number, of) in procedures.iter().enumerate() {
        let _ = writeln!(text, "\n{}", signature(number, of, names));
        for vertex in of.statements.clone() {
            let statement = layout.statement(vertex, of, &procedures);
            let shown = statement.map(|known| statement_line(&known.action, names));
            let shown = shown.unwrap_or("(wrong: no statement)".into());
            let line = match layout.line(vertex) {
                0 => String::new(),
                line => format!(" (line {line})"),
            };
            let _ = writeln!(text, "{vertex:>6}  {shown}{line}");
        }
        let _ = writeln!(text, "{:>6}  exit", of.exit);
    }
    Some(text)
}

fn heading(layout: &Layout, procedures: usize, names: Names) -> String {
    let statements = count(layout.statements, "statement");
    let procedures = count(procedures, "procedure");
    let globals = match &names.now(layout.globals)[..] {
        [] => "no globals".into(),
        [global] => format!("global {global}"),
        globals => format!("globals {}", list(globals)),
    };
    format!("{statements}, {procedures}, {globals}. An assertion that fails leads to vertex 0.\n")
}

/// Which of the locals are parameters, and where the procedure begins.
fn signature(number: usize, of: &Procedure, names: Names) -> String {
    let locals = &names.now(names.globals + of.locals)[names.globals..];
    let (parameters, others) = locals.split_at(of.parameters);
    let roles = [
        role(parameters, "is a parameter", "are parameters"),
        role(
            others,
            "holds any value at entry",
            "hold any value at entry",
        ),
    ];
    let roles: Vec<String> = roles.into_iter().flatten().collect();
    let roles = match roles[..] {
        [] => "no locals".into(),
        _ => roles.join(", "),
    };
    let (name, parameters) = (procedure(number), parameters.join(", "));
    let (number, start) = (number + 1, of.statements.start);
    format!("{name}({parameters}), procedure {number}, begins at vertex {start}; {roles}")
}

fn role(locals: &[String], one: &str, several: &str) -> Option<String> {
    match locals {
        [] => None,
        [local] => Some(format!("{local} {one}")),
        _ => Some(format!("{} {several}", list(locals))),
    }
}

/// What a statement does and where it leads.
fn statement_line(action: &Action, names: Names) -> String {
    let text = action_text(action, names);
    match action {
        Action::Branch {
            on_true, on_false, ..
        } => format!("{text} then {on_true} else {on_false}"),
        Action::Skip { next } | Action::Assign { next, .. } | Action::Assert { next, .. } => {
            format!("{text}, then {next}")
        }
        Action::Call { back, .. } => format!("{text}, then back at {back}"),
    }
}

/// A statement without where it leads, behind its line if it has one.
pub fn statement_text(statement: &Statement, names: Names) -> String {
    let text = action_text(&statement.action, names);
    match statement.line {
        0 => text,
        line => format!("line {line}, {text}"),
    }
}

fn action_text(action: &Action, names: Names) -> String {
    match action {
        Action::Skip { .. } => "skip".into(),
        Action::Assign {
            column, expression, ..
        } => {
            let (column, value) = (names.column(*column), names.expression(expression));
            format!("{column} = {value}")
        }
        Action::Branch { guard, .. } => format!("if {}", names.guard(guard)),
        Action::Assert { guard, .. } => format!("assert {}", names.guard(guard)),
        Action::Call {
            procedure: callee,
            actuals,
            ..
        } => {
            let actuals: Vec<String> = actuals
                .iter()
                .map(|actual| names.expression(actual))
                .collect();
            format!("call {}({})", procedure(*callee), actuals.join(", "))
        }
    }
}

/// A vertex with what stands there, for a sentence.
pub fn at_vertex(vertex: Vertex, statement: Option<&Statement>, names: Names) -> String {
    match statement {
        Some(statement) => format!("vertex {vertex} ({})", statement_text(statement, names)),
        None => format!("vertex {vertex} (exit)"),
    }
}
