//! A trace step by step, and why one is refused: 10, 11, 12 and 14.

use super::edges::names;
use super::listing::statement_text;
use super::names::{count, list, places, procedure, sign, with_commas, Names};
use crate::checker::program::{Action, Guard, Program, Vertex, ERROR};
use crate::checker::trace::{Run, Trace, OPEN_CALLS, VALUE_LIMIT};
use crate::files::WITNESS;
use std::fmt::Write;

/// Of a run with more steps than twice this, only so many at each end are shown.
const SHOWN: usize = 12;

/// A trace that is a run to a failed assertion.
pub fn good(program: &Program, words: &[i32]) -> Option<String> {
    let replay = Replay::new(program, words, None)?;
    let last = replay.from?;
    let values = names(program).values(replay.run.values());
    let line = match program.line(last) {
        0 => String::new(),
        line => format!(", line {line},"),
    };
    Some(format!(
        "{}After {} the assertion at vertex {last}{line} has failed, with {values}.\n",
        replay.text(),
        count(replay.lines.len(), "step")
    ))
}

/// Refusal 14 at the place of an entry value.
fn left_over(program: &Program, words: &[i32], place: usize) -> Option<String> {
    let trace = Trace::parse(program, words).ok()?;
    let replay = Replay::new(program, words, None)?;
    let (all, left) = (trace.entry_values.len(), words.len() - place);
    let taken = match all - left {
        0 => "Its calls take no entry values".into(),
        taken => format!("Its calls take {}", count(taken, "entry value")),
    };
    Some(format!(
        "{}The run gets to the end of the trace. {taken}, and E, word 2, says that there are {all}: word \
         {place} of {WITNESS}, which is {}, is the first that no call takes, {left} too many.\n",
        replay.text(),
        words.get(place)?
    ))
}

/// Refusals 10 to 12 and 14, at the place of a vertex word or of an entry value.
pub fn refused(program: &Program, words: &[i32], number: u64, place: usize) -> Option<String> {
    let trace = Trace::parse(program, words).ok()?;
    if place >= trace.entry_place() {
        return left_over(program, words, place);
    }
    let at = place.checked_sub(trace.vertex_place())?;
    let listed = *trace.vertices.get(at)?;
    let steps = trace.vertices.len() - 1;
    if at == 0 && listed != 1 {
        return Some(format!(
            "The trace begins with vertex {listed}, word {place} of {WITNESS}; a run begins at \
             vertex 1.\n"
        ));
    }
    let mut replay = Replay::new(program, words, Some(at))?;
    let names = names(program);
    let to = successors(&replay.run);
    let before = format!(
        "{}Step {at} of {steps} is refused; its vertex is word {place} of {WITNESS}.\n\
         Before it: {}; {}.\n{}\nThe trace lists vertex {listed}. ",
        replay.text(),
        names.values(replay.run.values()),
        open_calls(&replay.run),
        outlook(&replay.run, names)
    );
    let step = match number {
        10 => to.first().and_then(|&vertex| i32::try_from(vertex).ok()),
        _ => Some(listed),
    };
    let left = replay.run.entry_values.len();
    let after = match step {
        None => String::new(),
        Some(step) => {
            replay.run.step(step)?;
            after(&replay.run, step, names)
        }
    };
    let fault = match number {
        10 => no_step(listed, &to, at == steps),
        12 => too_deep(&replay.run),
        14 => too_few(&replay.run, left, names),
        _ => too_large(&replay.run, names),
    };
    Some(format!("{before}{}\n{after}", fault?))
}

/// The values that a step leads to, or nothing where entry values are missing.
fn after(run: &Run, step: i32, names: Names) -> String {
    match run.missing {
        0 => {
            let values = names.values(run.values());
            format!("After a step to vertex {step}: {values}.\n")
        }
        _ => String::new(),
    }
}

/// Why the listed vertex is refused, or nothing if it should not have been.
fn no_step(listed: i32, to: &[Vertex], last: bool) -> Option<String> {
    match usize::try_from(listed).is_ok_and(|listed| to.contains(&listed)) {
        false => Some("No step leads there.".into()),
        true => last.then(|| "It is the last, and the last must be 0, a failed assertion.".into()),
    }
}

fn too_deep(run: &Run) -> Option<String> {
    let open = run.calls.len();
    (open > OPEN_CALLS)
        .then(|| format!("There {open} calls are open, and at most {OPEN_CALLS} may be."))
}

/// A call has just lacked entry values, of which so many were left before it.
fn too_few(run: &Run, left: usize, names: Names) -> Option<String> {
    let callee = run.program.procedure_of(vertex(run));
    let others: Vec<String> = others(run.program, callee, names);
    let left = match left {
        0 => "none is left".into(),
        1 => "only 1 is left".into(),
        _ => format!("only {left} are left"),
    };
    (run.missing > 0).then(|| {
        format!(
            "The call takes {}, for {} of {}, and {left} of those behind the vertices.",
            count(others.len(), "entry value"),
            list(&others),
            procedure(callee)
        )
    })
}

/// The names of a procedure's other locals.
fn others(program: &Program, procedure: usize, names: Names) -> Vec<String> {
    let columns = names.now(program.columns(procedure));
    let parameters = program.procedures[procedure].parameters;
    columns[program.globals + parameters..].to_vec()
}

fn too_large(run: &Run, names: Names) -> Option<String> {
    let limit = with_commas(VALUE_LIMIT.unsigned_abs());
    let values = run.values().enumerate();
    let beyond: Vec<String> = values
        .filter(|(_, value)| value.abs() > VALUE_LIMIT)
        .map(|(column, value)| format!("{} = {value}", names.column(column)))
        .collect();
    (!beyond.is_empty()).then(|| format!("There {}, beyond ±{limit}.", list(&beyond)))
}

/// A trace followed up to a vertex, or to its end.
struct Replay<'p> {
    run: Run<'p>,
    start: String,
    /// One for each step.
    lines: Vec<String>,
    /// The vertex before the last step.
    from: Option<Vertex>,
    /// How many words the trace has; its last are the entry values.
    length: usize,
}

impl<'p> Replay<'p> {
    /// Takes the steps before the given one, counted from 1; nothing if one of them can't be taken.
    fn new(program: &'p Program, words: &'p [i32], before: Option<usize>) -> Option<Replay<'p>> {
        let trace = Trace::parse(program, words).ok()?;
        let run = Run::start(program, &trace);
        let names = names(program);
        let start = format!(
            "The run starts at vertex 1 with {}.\n",
            names.values(run.values())
        );
        let mut replay = Replay {
            run,
            start,
            lines: Vec::new(),
            from: None,
            length: words.len(),
        };
        let end = before.unwrap_or(trace.vertices.len());
        for &listed in trace.vertices.get(1..end).unwrap_or_default() {
            replay.step(listed, names)?;
        }
        Some(replay)
    }

    fn step(&mut self, listed: i32, names: Names) -> Option<()> {
        let from = vertex(&self.run);
        let does = deed(&self.run, names);
        let left = self.run.entry_values.len();
        self.run.step(listed)?;
        let taken = self.taken(left, names);
        let (number, values) = (self.lines.len() + 1, names.values(self.run.values()));
        self.lines.push(format!(
            "{number:>6}  from {from} to {listed}: {does}{taken}; now {values}"
        ));
        self.from = Some(from);
        Some(())
    }

    /// Where the entry values stand that the last step took, so many being left before it.
    fn taken(&self, left: usize, names: Names) -> String {
        let (first, end) = (
            self.length - left,
            self.length - self.run.entry_values.len(),
        );
        if first == end {
            return String::new();
        }
        let callee = self.run.program.procedure_of(vertex(&self.run));
        let others = others(self.run.program, callee, names);
        format!(", {} from {}", list(&others), places(first, end - 1))
    }

    /// The start and the steps, those in the middle of a long run left out.
    fn text(&self) -> String {
        let mut text = self.start.clone();
        let all = self.lines.len();
        for (at, line) in self.lines.iter().enumerate() {
            if at < SHOWN || at + SHOWN >= all {
                let _ = writeln!(text, "{line}");
            } else if at == SHOWN {
                let _ = writeln!(
                    text,
                    "        .. steps {} to {} are left out ..",
                    SHOWN + 1,
                    all - SHOWN
                );
            }
        }
        text
    }
}

fn vertex(run: &Run) -> Vertex {
    run.calls.last().map_or(0, |call| call.vertex)
}

/// What the statement at which the run stands does there.
fn deed(run: &Run, names: Names) -> String {
    let Some(statement) = run.program.statement(vertex(run)) else {
        return format!(
            "exit of {}",
            procedure(run.program.procedure_of(vertex(run)))
        );
    };
    let text = statement_text(statement, names);
    match &statement.action {
        Action::Branch { guard, .. } | Action::Assert { guard, .. } => {
            match guard.operator.decides(run.value(&guard.expression)) {
                None => text,
                Some(true) => format!("{text}: {} holds", numbers(run, guard)),
                Some(false) => format!("{text}: {} fails", numbers(run, guard)),
            }
        }
        _ => text,
    }
}

/// `60 < 0`: the guard with its value put in.
fn numbers(run: &Run, guard: &Guard) -> String {
    let value = run.value(&guard.expression);
    format!("{value} {} 0", sign(guard.operator))
}

/// Where the run stands, and which vertices it may go to.
fn outlook(run: &Run, names: Names) -> String {
    let at = vertex(run);
    let to: Vec<String> = successors(run).iter().map(usize::to_string).collect();
    match (at, &to[..]) {
        (ERROR, _) => "The run stands at vertex 0, a failed assertion, and ends there.".into(),
        (_, []) => format!("The run stands at vertex {at}, main's exit, and ends there."),
        (_, to) => format!(
            "The run stands at vertex {at} ({}) and goes on to vertex {}.",
            deed(run, names),
            to.join(" or ")
        ),
    }
}

/// The vertices that a step may lead to: none from vertex 0 and from main's exit without a caller.
fn successors(run: &Run) -> Vec<Vertex> {
    let decided = |guard: &Guard| guard.operator.decides(run.value(&guard.expression));
    if vertex(run) == ERROR {
        return Vec::new();
    }
    match run.program.action(vertex(run)) {
        None => return_point(run).into_iter().collect(),
        Some(Action::Skip { next } | Action::Assign { next, .. }) => vec![*next],
        Some(Action::Branch {
            on_true,
            on_false,
            guard,
        }) => match decided(guard) {
            Some(true) => vec![*on_true],
            Some(false) => vec![*on_false],
            None => vec![*on_true, *on_false],
        },
        Some(Action::Assert { next, guard }) => match decided(guard) {
            Some(true) => vec![*next],
            _ => vec![ERROR],
        },
        Some(Action::Call { procedure, .. }) => {
            vec![run.program.procedures[*procedure].statements.start]
        }
    }
}

/// Where the call that waits goes on.
fn return_point(run: &Run) -> Option<Vertex> {
    let waiting = run.calls.iter().rev().nth(1)?;
    match run.program.action(waiting.vertex) {
        Some(Action::Call { back, .. }) => Some(*back),
        _ => None,
    }
}

/// The open calls with the lowest first, equal neighbours counted.
fn open_calls(run: &Run) -> String {
    let program = run.program;
    // The call that the assertion failed in stands at vertex 0, which belongs to no procedure.
    let callees = run.calls.iter().scan(0, |callee, call| {
        let own = *callee;
        if let Some(Action::Call { procedure, .. }) = program.action(call.vertex) {
            *callee = *procedure;
        }
        Some(own)
    });
    let mut parts: Vec<(usize, usize)> = Vec::new();
    for callee in callees {
        match parts.last_mut() {
            Some((last, times)) if *last == callee => *times += 1,
            _ => parts.push((callee, 1)),
        }
    }
    let parts: Vec<String> = parts
        .into_iter()
        .map(|(callee, times)| match times {
            1 => procedure(callee),
            _ => format!("{} ({times} times)", procedure(callee)),
        })
        .collect();
    format!("open calls: {}", list(&parts))
}
