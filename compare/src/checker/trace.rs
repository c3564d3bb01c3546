//! Trace words and their replay, tests 4 and 9 to 14.

use super::program::{Action, Expression, Program, Vertex, ERROR};
use super::step::{effect, Effect};
use super::{within, Refusal, TRACE};

/// Of start values and of entry values.
pub const START_LIMIT: i32 = 1_000_000_000;
pub const VALUE_LIMIT: i64 = 1_000_000_000_000;
pub const OPEN_CALLS: usize = 64;

/// Place of the first start value.
pub const STARTS: usize = 3;

pub struct Trace<'a> {
    pub starts: &'a [i32],
    pub vertices: &'a [i32],
    pub entry_values: &'a [i32],
}

impl<'a> Trace<'a> {
    pub fn parse(program: &Program, words: &'a [i32]) -> Result<Trace<'a>, Refusal> {
        Trace::with_starts(words, program.columns(0))
    }

    /// Tests 4 and 9, with so many start values.
    pub(super) fn with_starts(words: &'a [i32], starts: usize) -> Result<Trace<'a>, Refusal> {
        let trace = Trace::layout(words, starts).ok_or(Refusal::new(4, 0))?;
        let beyond = |values: &[i32]| {
            let limits = -START_LIMIT..=START_LIMIT;
            values.iter().position(|value| !limits.contains(value))
        };
        let start = beyond(trace.starts).map(|at| STARTS + at);
        let entry = || beyond(trace.entry_values).map(|at| trace.entry_place() + at);
        match start.or_else(entry) {
            None => Ok(trace),
            Some(place) => Err(Refusal::new(9, place)),
        }
    }

    fn layout(words: &'a [i32], starts: usize) -> Option<Trace<'a>> {
        let &[TRACE, steps, entry_values, ref rest @ ..] = words else {
            return None;
        };
        let steps = within(steps, 1..=4_096)?;
        let entry_values = within(entry_values, 0..=32_768)?;
        if rest.len() != starts + steps + 1 + entry_values {
            return None;
        }
        let (starts, rest) = rest.split_at(starts);
        let (vertices, entry_values) = rest.split_at(steps + 1);
        Some(Trace {
            starts,
            vertices,
            entry_values,
        })
    }

    /// Place of the first vertex word.
    pub fn vertex_place(&self) -> usize {
        STARTS + self.starts.len()
    }

    /// Place of the first entry value.
    pub fn entry_place(&self) -> usize {
        self.vertex_place() + self.vertices.len()
    }
}

/// Replays a trace: the number of steps, or the first test that fails. The values at the failed
/// assertion go to the front of the result buffer.
pub fn replay(program: &Program, words: &[i32], buffer: &mut [i64]) -> Result<u64, Refusal> {
    let trace = Trace::parse(program, words)?;
    let steps = trace.vertices.len() - 1;
    let mut run = Run::start(program, &trace);
    for (i, &listed) in trace.vertices.iter().enumerate() {
        // 14 has no line. Nothing is left at the first vertex.
        let line = match i {
            0 => 0,
            _ => program.line(run.top().vertex),
        };
        let place = trace.vertex_place() + i;
        let refused = |number| Err(Refusal::of_line(number, place, line));
        let allowed = match i {
            0 => listed == 1,
            _ => run.step(listed).is_some(),
        };
        if !allowed || (i == steps && listed != ERROR as i32) {
            return refused(10);
        }
        if run.calls.len() > OPEN_CALLS {
            return refused(12);
        }
        if run.missing > 0 {
            return Err(Refusal::new(14, place));
        }
        if run.values().any(|value| value.abs() > VALUE_LIMIT) {
            return refused(11);
        }
    }
    let values: Vec<i64> = run.values().collect();
    all_taken(words, run.entry_values)?;
    write(&values, buffer)?;
    Ok(steps as u64)
}

/// Behind the last vertex no entry value is left.
pub(super) fn all_taken(words: &[i32], left: &[i32]) -> Result<(), Refusal> {
    match left.len() {
        0 => Ok(()),
        left => Err(Refusal::new(14, words.len() - left)),
    }
}

/// Writes the values at the failed assertion to the front of the result buffer, if it is long enough.
pub(super) fn write(values: &[i64], buffer: &mut [i64]) -> Result<(), Refusal> {
    let columns = values.len();
    let front = buffer.get_mut(..columns).ok_or(Refusal::new(13, columns))?;
    front.copy_from_slice(values);
    Ok(())
}

/// A run's state. The last of the open calls is the top one.
pub struct Run<'a> {
    pub program: &'a Program,
    globals: Vec<i64>,
    pub calls: Vec<Call>,
    /// Those that no call has taken yet.
    pub entry_values: &'a [i32],
    /// How many a call lacked. Its last locals are then absent.
    pub missing: usize,
}

pub struct Call {
    pub vertex: Vertex,
    locals: Vec<i64>,
}

impl<'a> Run<'a> {
    pub fn start(program: &'a Program, trace: &Trace<'a>) -> Run<'a> {
        let (globals, locals) = trace.starts.split_at(program.globals);
        let main = Call {
            vertex: 1,
            locals: numbers(locals).collect(),
        };
        Run {
            program,
            globals: numbers(globals).collect(),
            calls: vec![main],
            entry_values: trace.entry_values,
            missing: 0,
        }
    }

    pub(super) fn top(&mut self) -> &mut Call {
        self.calls.last_mut().expect("main's call stays open")
    }

    /// The globals and the top call's locals.
    pub fn values(&self) -> impl Iterator<Item = i64> + '_ {
        let locals = self.calls.last().into_iter().flat_map(|call| &call.locals);
        self.globals.iter().chain(locals).copied()
    }

    pub fn value(&self, expression: &Expression) -> i64 {
        let terms = expression.coefficients.iter().zip(self.values());
        expression.constant + terms.map(|(factor, value)| factor * value).sum::<i64>()
    }

    /// The step to the listed vertex, if there is one.
    pub fn step(&mut self, listed: i32) -> Option<()> {
        let to = Vertex::try_from(listed).ok()?;
        let from = self.top().vertex;
        if from == ERROR {
            return None;
        }
        let program = self.program;
        let Some(action) = program.action(from) else {
            return self.exit(to);
        };
        match effect(program, action, to, |expression| self.value(expression))? {
            Effect::None => {}
            Effect::Set { column, value } => self.set(column, value),
            Effect::Call { callee, actuals } => self.call(to, actuals, callee.others()),
        }
        self.top().vertex = to;
        Some(())
    }

    /// A global, or a local of the top call.
    pub(super) fn set(&mut self, column: usize, value: i64) {
        match column.checked_sub(self.program.globals) {
            None => self.globals[column] = value,
            Some(local) => self.top().locals[local] = value,
        }
    }

    /// Opens a call whose other locals get the next entry values, as far as there are any.
    fn call(&mut self, vertex: Vertex, actuals: &[Expression], others: usize) {
        let (taken, left) = first(self.entry_values, others);
        let parameters = actuals.iter().map(|actual| self.value(actual));
        let locals = parameters.chain(numbers(taken)).collect();
        self.calls.push(Call { vertex, locals });
        self.entry_values = left;
        self.missing = others - taken.len();
    }

    /// Back to the return point of the call below, which waits at its call statement.
    fn exit(&mut self, to: Vertex) -> Option<()> {
        let below = self.calls.len().checked_sub(2)?;
        let waiting = &mut self.calls[below];
        match self.program.action(waiting.vertex) {
            Some(Action::Call { back, .. }) if to == *back => waiting.vertex = to,
            _ => return None,
        }
        self.calls.pop();
        Some(())
    }
}

/// The first values, so many as there are of those that are wanted, and the others.
pub(super) fn first(values: &[i32], wanted: usize) -> (&[i32], &[i32]) {
    values.split_at(wanted.min(values.len()))
}

pub(super) fn numbers(words: &[i32]) -> impl Iterator<Item = i64> + '_ {
    words.iter().map(|&word| word.into())
}
