//! The check of traces of programs with arrays (document 02, CR 12), by document 001's steps: a read sets a
//! column to an element, a write sets an element, and the index of either lies inside its array.
//!
//! Program words have the number of arrays behind Q, and then their sizes. Tests 1, 27, 2 and 3; then 4 and 9,
//! where the elements are start values behind main's; then, vertex by vertex, 10, 28, 12, 14 and 11; then 14
//! and 13.
//!
//! As far as vertices go, a read and a write are skips: so they stand in the plain program, and what they do
//! beside moving on stands beside it.

use super::linear::linear_words;
use super::program::{Action, Expression, Layout, Procedure, Program, Sizes, Vertex};
use super::program::{ERROR, SIZES};
use super::trace::{all_taken, numbers, write, Run, Trace, OPEN_CALLS, VALUE_LIMIT};
use super::{within, Answer, Refusal};

/// Of a program.
pub const ARRAYS: usize = 4;

/// Of an array.
pub const LARGEST_SIZE: usize = 64;

const READ: i32 = 8;
const WRITE: i32 = 9;

/// Checks a trace of a program with arrays; any other witness input is refused with 4.
pub fn check_arrays(program: &[i32], witness: &[i32], values: &mut [i64]) -> Answer {
    ArrayProgram::parse(program)
        .and_then(|program| replay(&program, witness, values))
        .map_or_else(Answer::from, Answer::Trace)
}

/// The words that an answer of this check is about, from its place on.
pub fn diagnosis<'a>(program: &'a [i32], witness: &'a [i32], answer: Answer) -> &'a [i32] {
    let (words, place) = match answer {
        Answer::Refused {
            number: 27, place, ..
        } => (program, place),
        Answer::Refused {
            number: 28, place, ..
        } => (witness, place),
        _ => return super::diagnosis(program, witness, answer),
    };
    let place = usize::try_from(place).unwrap_or(words.len());
    words.get(place..).unwrap_or(&[])
}

/// A parsed program with arrays.
struct ArrayProgram {
    /// With a skip for each access.
    plain: Program,
    sizes: Vec<usize>,
    /// By statement.
    accesses: Vec<Option<Access>>,
}

/// What a read or a write does.
struct Access {
    array: usize,
    index: Expression,
    kind: AccessKind,
}

enum AccessKind {
    Read { column: usize },
    Write { value: Expression },
}

impl ArrayProgram {
    /// Tests 1 and 27, then 2 and 3.
    fn parse(words: &[i32]) -> Result<ArrayProgram, Refusal> {
        let wrong = Refusal::new(1, 0);
        let sizes = Sizes::parse(words).ok_or(wrong)?;
        let count = *words.get(SIZES).ok_or(wrong)?;
        let count = within(count, 0..=ARRAYS).ok_or(Refusal::new(27, SIZES))?;
        let first = SIZES + 1;
        let layout = Layout::behind(words, first + count, &sizes).ok_or(wrong)?;
        let sizes = array_sizes(&words[first..first + count])
            .map_err(|array| Refusal::new(27, first + array))?;
        let mut accesses = Vec::new();
        let plain = Program::of(&layout, |vertex, procedure, procedures| {
            let (next, access) = match layout.kind(vertex) {
                READ => read(&layout, vertex, procedure, count)?,
                WRITE => written(&layout, vertex, procedure, count)?,
                _ => {
                    accesses.push(None);
                    return layout.statement(vertex, procedure, procedures);
                }
            };
            accesses.push(Some(access));
            layout.with_line(vertex, Action::Skip { next })
        })?;
        Ok(ArrayProgram {
            plain,
            sizes,
            accesses,
        })
    }

    /// What the statement at a vertex reads or writes, if it is one that does.
    fn access(&self, vertex: Vertex) -> Option<&Access> {
        self.accesses.get(vertex.checked_sub(1)?)?.as_ref()
    }

    /// The elements of its arrays, in the order of their start values.
    fn elements(&self, mut starts: &[i32]) -> Vec<Vec<i64>> {
        let arrays = self.sizes.iter().map(|&size| {
            let (array, rest) = starts.split_at(size);
            starts = rest;
            numbers(array).collect()
        });
        arrays.collect()
    }
}

/// The sizes, or the first array whose size is beyond its limit.
fn array_sizes(words: &[i32]) -> Result<Vec<usize>, usize> {
    let sizes = words.iter().enumerate();
    sizes
        .map(|(array, &word)| within(word, 1..=LARGEST_SIZE).ok_or(array))
        .collect()
}

/// Successor, column, array, index expression.
fn read(
    layout: &Layout,
    vertex: Vertex,
    procedure: &Procedure,
    arrays: usize,
) -> Option<(Vertex, Access)> {
    let columns = layout.globals + procedure.locals;
    let row = layout.fields(vertex, 3 + linear_words(columns))?;
    let column = within(row[1], 0..=columns.checked_sub(1)?)?;
    let access = Access {
        array: within(row[2], 0..=arrays.checked_sub(1)?)?,
        index: Expression::parse(&row[3..])?,
        kind: AccessKind::Read { column },
    };
    Some((procedure.vertex(row[0])?, access))
}

/// Successor, array, index expression, value expression.
fn written(
    layout: &Layout,
    vertex: Vertex,
    procedure: &Procedure,
    arrays: usize,
) -> Option<(Vertex, Access)> {
    let width = linear_words(layout.globals + procedure.locals);
    let row = layout.fields(vertex, 2 + 2 * width)?;
    let (index, value) = row[2..].split_at(width);
    let value = Expression::parse(value)?;
    let access = Access {
        array: within(row[1], 0..=arrays.checked_sub(1)?)?,
        index: Expression::parse(index)?,
        kind: AccessKind::Write { value },
    };
    Some((procedure.vertex(row[0])?, access))
}

/// Replays a trace: the number of steps, or the first test that fails. The values at the failed
/// assertion, without the elements, go to the front of the result buffer.
fn replay(program: &ArrayProgram, words: &[i32], values: &mut [i64]) -> Result<u64, Refusal> {
    let plain = &program.plain;
    let columns = plain.columns(0);
    let elements: usize = program.sizes.iter().sum();
    let trace = Trace::with_starts(words, columns + elements)?;
    let (main, elements) = trace.starts.split_at(columns);
    let of_main = Trace {
        starts: main,
        ..trace
    };
    let mut replay = Replay {
        program,
        run: Run::start(plain, &of_main),
        elements: program.elements(elements),
    };
    let place = trace.vertex_place();
    let Some((1, vertices)) = trace.vertices.split_first() else {
        return Err(Refusal::new(10, place));
    };
    for (i, &listed) in vertices.iter().enumerate() {
        let line = plain.line(replay.run.top().vertex);
        let is_last = i + 1 == vertices.len();
        replay.arrive(listed, is_last).map_err(|number| {
            let has_line = (10..=12).contains(&number);
            Refusal::of_line(number, place + 1 + i, if has_line { line } else { 0 })
        })?;
    }
    let last: Vec<i64> = replay.run.values().collect();
    all_taken(words, replay.run.entry_values)?;
    write(&last, values)?;
    Ok(vertices.len() as u64)
}

/// A run's state and the elements of its arrays.
struct Replay<'a> {
    program: &'a ArrayProgram,
    run: Run<'a>,
    elements: Vec<Vec<i64>>,
}

impl Replay<'_> {
    /// The step to the listed vertex, or the number of the first test there that fails.
    fn arrive(&mut self, listed: i32, is_last: bool) -> Result<(), u64> {
        let access = self.program.access(self.run.top().vertex);
        if self.run.step(listed).is_none() || (is_last && listed != ERROR as i32) {
            return Err(10);
        }
        if let Some(access) = access {
            self.access(access).ok_or(28_u64)?;
        }
        if self.run.calls.len() > OPEN_CALLS {
            return Err(12);
        }
        if self.run.missing > 0 {
            return Err(14);
        }
        let elements = self.elements.iter().flatten().copied();
        let mut values = self.run.values().chain(elements);
        match values.any(|value| value.abs() > VALUE_LIMIT) {
            true => Err(11),
            false => Ok(()),
        }
    }

    /// Reads or writes an element, if there is one of the index. The skip before it changed no value.
    fn access(&mut self, access: &Access) -> Option<()> {
        let index = usize::try_from(self.run.value(&access.index)).ok()?;
        let element = self.elements[access.array].get_mut(index)?;
        match &access.kind {
            AccessKind::Read { column } => self.run.set(*column, *element),
            AccessKind::Write { value } => *element = self.run.value(value),
        }
        Some(())
    }
}
