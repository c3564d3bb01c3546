//! The replay of a trace by the grammar of document 000, section 2.3 (document 02, CR 10), with tests 10 to
//! 14 as the reading goes on:
//!
//! - V → ε | M V | ⟨call, i, δ⟩ V, the valid paths;
//! - M → ε | σ | M M | ⟨call, i, δ⟩ M ⟨ret, i, δ⟩, the level stretches.
//!
//! A state is the report's: a vertex and the values in scope there. The caller's locals are in the label of
//! its call, and the function that reads ⟨call, i, δ⟩ M ⟨ret, i, δ⟩ holds that label until the return. Where
//! the level stretch inside a call ends elsewhere than at an exit the call is unmatched, and what was read
//! inside it is the front of the valid path that follows it: no vertex is read twice.

use super::program::{Action, Expression, Program, Vertex, ERROR};
use super::step::{effect, Effect};
use super::trace::{all_taken, first, numbers, write, Trace, OPEN_CALLS, VALUE_LIMIT};
use super::Refusal;

/// A terminal, the label of one step.
#[derive(Clone, Debug, PartialEq, Eq)]
pub enum Label {
    /// σ
    Step,
    Call(Caller),
    Return(Caller),
}

/// i, the return point of a call, and δ, the locals of the caller.
#[derive(Clone, Debug, PartialEq, Eq)]
pub struct Caller {
    pub back: Vertex,
    pub locals: Vec<i64>,
}

/// A derivation from M: ε, or parts one behind the other by M M.
#[derive(Clone, Debug, Default)]
pub struct Level(pub Vec<Part>);

/// M → σ, and M → ⟨call, i, δ⟩ M ⟨ret, i, δ⟩.
#[derive(Clone, Debug)]
pub enum Part {
    Step,
    Call(Caller, Level),
}

/// A derivation from V, by V → ε, V → M V and V → ⟨call, i, δ⟩ V.
#[derive(Clone, Debug)]
pub enum Path {
    Empty,
    Level(Level, Box<Path>),
    Call(Caller, Box<Path>),
}

impl Level {
    fn write(&self, labels: &mut Vec<Label>) {
        for part in &self.0 {
            match part {
                Part::Step => labels.push(Label::Step),
                Part::Call(caller, inside) => {
                    labels.push(Label::Call(caller.clone()));
                    inside.write(labels);
                    labels.push(Label::Return(caller.clone()));
                }
            }
        }
    }
}

impl Path {
    /// The string that it derives.
    pub fn labels(&self) -> Vec<Label> {
        let mut labels = Vec::new();
        let mut path = self;
        loop {
            path = match path {
                Path::Empty => return labels,
                Path::Level(level, path) => {
                    level.write(&mut labels);
                    path
                }
                Path::Call(caller, path) => {
                    labels.push(Label::Call(caller.clone()));
                    path
                }
            };
        }
    }
}

/// How an accepted trace is read.
#[derive(Clone, Debug)]
pub struct Reading {
    pub path: Path,
    /// The label of each step, by the state before it and the state after it.
    pub labels: Vec<Label>,
    /// At the failed assertion.
    values: Vec<i64>,
}

/// The reading of a trace that is accepted with a long enough buffer.
pub fn reading(program: &[i32], witness: &[i32]) -> Option<Reading> {
    let program = Program::parse(program).ok()?;
    let trace = Trace::parse(&program, witness).ok()?;
    read(&program, &trace, witness).ok()
}

/// Replays a trace: the number of steps, or the first test that fails.
pub(super) fn replay(program: &Program, words: &[i32], buffer: &mut [i64]) -> Result<u64, Refusal> {
    let trace = Trace::parse(program, words)?;
    let reading = read(program, &trace, words)?;
    write(&reading.values, buffer)?;
    Ok(trace.vertices.len() as u64 - 1)
}

/// Reads all vertices as a valid path from a start.
fn read(program: &Program, trace: &Trace, words: &[i32]) -> Result<Reading, Refusal> {
    let place = trace.vertex_place();
    let Some((1, vertices)) = trace.vertices.split_first() else {
        return Err(Refusal::new(10, place));
    };
    let (globals, locals) = trace.starts.split_at(program.globals);
    let mut state = State {
        vertex: 1,
        globals: numbers(globals).collect(),
        locals: numbers(locals).collect(),
    };
    let mut reader = Reader {
        program,
        vertices,
        place: place + 1,
        entry_values: trace.entry_values,
        labels: Vec::with_capacity(vertices.len()),
    };
    let path = reader.valid_path(&mut state)?;
    all_taken(words, reader.entry_values)?;
    Ok(Reading {
        path,
        labels: reader.labels,
        values: state.values().collect(),
    })
}

/// ⟨i, ω⟩: the values are those in scope at the vertex.
struct State {
    vertex: Vertex,
    globals: Vec<i64>,
    locals: Vec<i64>,
}

impl State {
    fn values(&self) -> impl Iterator<Item = i64> + '_ {
        self.globals.iter().chain(&self.locals).copied()
    }

    /// ω(e)
    fn value(&self, expression: &Expression) -> i64 {
        let terms = expression.coefficients.iter().zip(self.values());
        expression.constant + terms.map(|(factor, value)| factor * value).sum::<i64>()
    }
}

/// Where a level stretch ends: at an exit, with vertices left; or before the rest of the valid path, which is
/// nothing, or an unmatched call and what follows it.
enum End {
    Exit,
    Before(Path),
}

struct Reader<'a> {
    program: &'a Program,
    /// Those that are left, and the place of the first of them.
    vertices: &'a [i32],
    place: usize,
    /// Those that no call has taken yet.
    entry_values: &'a [i32],
    labels: Vec<Label>,
}

impl Reader<'_> {
    /// V, from main's start. At main's exit there is no step.
    fn valid_path(&mut self, state: &mut State) -> Result<Path, Refusal> {
        match self.level_stretch(state, 1)? {
            (_, End::Exit) => Err(Refusal::new(10, self.place)),
            (level, End::Before(rest)) => Ok(Path::Level(level, Box::new(rest))),
        }
    }

    /// M, as far as it goes, with so many open calls.
    fn level_stretch(&mut self, state: &mut State, open: usize) -> Result<(Level, End), Refusal> {
        let mut parts = Vec::new();
        while !self.vertices.is_empty() {
            match self.program.action(state.vertex) {
                None if state.vertex != ERROR => return Ok((Level(parts), End::Exit)),
                Some(&Action::Call { back, .. }) => {
                    let locals = state.locals.clone();
                    let caller = Caller { back, locals };
                    self.step(state, open + 1, None)?;
                    match self.level_stretch(state, open + 1)? {
                        (inside, End::Exit) => {
                            self.step(state, open, Some(&caller))?;
                            parts.push(Part::Call(caller, inside));
                        }
                        (inside, End::Before(rest)) => {
                            let rest = Path::Level(inside, Box::new(rest));
                            let rest = Path::Call(caller, Box::new(rest));
                            return Ok((Level(parts), End::Before(rest)));
                        }
                    }
                }
                _ => {
                    self.step(state, open, None)?;
                    parts.push(Part::Step);
                }
            }
        }
        Ok((Level(parts), End::Before(Path::Empty)))
    }

    /// The step to the next vertex, after which so many calls are open; from an exit to the caller, if
    /// there is one.
    fn step(
        &mut self,
        state: &mut State,
        open: usize,
        caller: Option<&Caller>,
    ) -> Result<(), Refusal> {
        let (place, line) = (self.place, self.program.line(state.vertex));
        let refused = |number| Refusal::of_line(number, place, line);
        let (&listed, left) = self.vertices.split_first().ok_or(refused(10))?;
        let to = Vertex::try_from(listed).map_err(|_| refused(10))?;
        let is_at_statement = self.program.action(state.vertex).is_some();
        let lacking = match is_at_statement {
            true => self.leave_statement(state, to),
            false => self.leave_exit(state, to, caller),
        };
        let lacking = lacking.ok_or(refused(10))?;
        if left.is_empty() && to != ERROR {
            return Err(refused(10));
        }
        if open > OPEN_CALLS {
            return Err(refused(12));
        }
        if lacking > 0 {
            return Err(Refusal::new(14, place));
        }
        if state.values().any(|value| value.abs() > VALUE_LIMIT) {
            return Err(refused(11));
        }
        state.vertex = to;
        (self.vertices, self.place) = (left, place + 1);
        Ok(())
    }

    /// From a statement to a vertex, if there is such a step. How many entry values it lacks.
    fn leave_statement(&mut self, state: &mut State, to: Vertex) -> Option<usize> {
        let action = self.program.action(state.vertex)?;
        let value = |expression: &Expression| state.value(expression);
        let mut lacking = 0;
        let label = match (effect(self.program, action, to, value)?, action) {
            (Effect::Call { callee, actuals }, Action::Call { back, .. }) => {
                let (taken, left) = first(self.entry_values, callee.others());
                let entry = actuals.iter().map(value).chain(numbers(taken)).collect();
                let locals = std::mem::replace(&mut state.locals, entry);
                self.entry_values = left;
                lacking = callee.others() - taken.len();
                let back = *back;
                Label::Call(Caller { back, locals })
            }
            (Effect::Set { column, value }, _) => {
                let mut values = state.globals.iter_mut().chain(&mut state.locals);
                *values.nth(column)? = value;
                Label::Step
            }
            _ => Label::Step,
        };
        self.labels.push(label);
        Some(lacking)
    }

    /// From an exit to the return point of the matching call. Where there is no call, at main's exit, and
    /// at vertex 0 there is no step.
    fn leave_exit(
        &mut self,
        state: &mut State,
        to: Vertex,
        caller: Option<&Caller>,
    ) -> Option<usize> {
        let caller = caller.filter(|caller| caller.back == to)?;
        state.locals.clone_from(&caller.locals);
        self.labels.push(Label::Return(Caller {
            back: to,
            locals: state.locals.clone(),
        }));
        Some(0)
    }
}
