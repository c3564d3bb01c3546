//! Damage aimed at one test, at the first, a middle or the last of the words that it looks at, with
//! the answer that must follow.

mod constant_rows;
mod constants;
mod entry_values;
mod lines;
mod sparse;
mod trees;

pub use constant_rows::one_column;
pub use constants::constants;
pub use entry_values::{clashing, Clash, Fault};
pub use sparse::sparse;
pub use trees::trees;

use super::constants::BEYOND;
use super::large;
use super::lines::{some, LARGEST};
use super::program_words::ProgramWords;
use super::trace_words::TraceWords;
use super::traces::Trace;
use super::{Input, Pair};
use crate::checker::linear::{linear_words, CONSTANT_WORDS};
use crate::checker::{witness_layout, Answer};
use crate::random::Random;
use std::ops::Range;

/// Where in the order of exits, statements, entries, entailments, splits or leaves of a tree, start
/// values, vertices, entry values or calls that take some.
#[derive(Clone, Copy, Debug, PartialEq, Eq, PartialOrd, Ord, Hash)]
pub enum Spot {
    First,
    Middle,
    Last,
}

impl Spot {
    pub const ALL: [Spot; 3] = [Spot::First, Spot::Middle, Spot::Last];

    /// One of `1..=count`; a middle one only if there is one.
    pub(crate) fn number(self, random: &mut Random, count: usize) -> Option<usize> {
        match self {
            Spot::First => (count >= 1).then_some(1),
            Spot::Middle => (count >= 3).then(|| 2 + random.below(count - 2)),
            Spot::Last => (count >= 2).then_some(count),
        }
    }
}

/// An input with its answer and the values that a trace leaves in the buffer.
#[derive(Clone, Debug)]
pub struct Aimed {
    pub input: Input,
    pub spot: Spot,
    pub answer: Answer,
    pub values: Vec<i64>,
    /// What was aimed at, where that is more than a number and a spot.
    pub case: Option<&'static str>,
}

fn refused(number: u64, place: usize) -> Answer {
    refused_at(number, place, 0)
}

fn refused_at(number: u64, place: usize, line: i32) -> Answer {
    Answer::Refused {
        number,
        place: place as u64,
        line: line as u64,
    }
}

/// An accepted pair damaged for each of the numbers 1 to 8 and 15.
pub fn certificate(random: &mut Random, pair: &Pair) -> Vec<Aimed> {
    let mut aim = Aim {
        random,
        pair,
        aimed: Vec::new(),
    };
    aim.program_sizes();
    aim.certificate_sizes();
    for spot in Spot::ALL {
        aim.exit(spot);
        aim.statement(spot);
        aim.entry(spot);
        aim.entailment(spot);
    }
    aim.constant_rows();
    aim.left_words();
    aim.aimed
}

/// A pair whose program is damaged for each of the numbers 1 to 3, whatever its witness input is.
pub fn program(random: &mut Random, pair: &Pair) -> Vec<Aimed> {
    let mut aim = Aim {
        random,
        pair,
        aimed: Vec::new(),
    };
    for spot in Spot::ALL {
        aim.program_sizes();
        aim.exit(spot);
        aim.statement(spot);
    }
    aim.aimed
}

/// An accepted pair damaged for 3 beside lines of all sorts.
pub fn lines(random: &mut Random, pair: &Pair) -> Vec<Aimed> {
    let mut aim = Aim {
        random,
        pair,
        aimed: Vec::new(),
    };
    for spot in Spot::ALL {
        aim.lines(spot);
    }
    aim.aimed
}

/// A trace with short and long buffers and damaged for the numbers 4, 9, 10, 13 and 14; or one that
/// is refused at a vertex anyway, with any buffer and also cut there or with entry values missing.
pub fn trace(random: &mut Random, trace: &Trace) -> Vec<Aimed> {
    let mut aim = Aim {
        random,
        pair: &trace.pair,
        aimed: Vec::new(),
    };
    match trace.answer {
        Answer::Refused { number, place, .. } => aim.limit(trace, number, place as usize),
        _ => {
            aim.buffers(trace);
            aim.trace_sizes();
            for spot in Spot::ALL {
                aim.start_value(spot);
                aim.vertex(spot);
                aim.lines_left(spot);
            }
            aim.words_after_zero();
            aim.entry_values(trace);
        }
    }
    aim.aimed
}

struct Aim<'a> {
    random: &'a mut Random,
    pair: &'a Pair,
    aimed: Vec<Aimed>,
}

impl Aim<'_> {
    fn push(&mut self, program: Vec<i32>, witness: Vec<i32>, spot: Spot, answer: Answer) {
        let buffer = super::buffer(self.random, 20);
        self.aimed.push(Aimed {
            input: Input {
                program,
                witness,
                buffer,
            },
            spot,
            answer,
            values: Vec::new(),
            case: None,
        });
    }

    /// A damaged witness input, by what was aimed at.
    fn push_case(&mut self, case: &'static str, witness: Vec<i32>, spot: Spot, answer: Answer) {
        self.push_witness(witness, spot, answer);
        let last = self.aimed.last_mut().expect("just added");
        last.case = Some(case);
    }

    /// A damaged program, by what was aimed at.
    fn push_program_case(
        &mut self,
        case: &'static str,
        program: Vec<i32>,
        spot: Spot,
        answer: Answer,
    ) {
        self.push_program(program, spot, answer);
        let last = self.aimed.last_mut().expect("just added");
        last.case = Some(case);
    }

    /// Gives the last one so short a buffer.
    fn shorten_buffer(&mut self, length: usize) {
        let last = self.aimed.last_mut().expect("just added");
        last.input.buffer.truncate(length);
    }

    fn push_program(&mut self, program: Vec<i32>, spot: Spot, answer: Answer) {
        let witness = self.pair.witness.clone();
        self.push(program, witness, spot, answer);
    }

    fn push_witness(&mut self, witness: Vec<i32>, spot: Spot, answer: Answer) {
        let program = self.pair.program.clone();
        self.push(program, witness, spot, answer);
    }

    fn program_sizes(&mut self) {
        let sizes = [
            (0, [0, -1, 1_025, i32::MAX]),
            (1, [0, -1, 33, i32::MAX]),
            (2, [-1, 9, i32::MIN, i32::MAX]),
            (3, [-1, 12_001, i32::MIN, i32::MAX]),
        ];
        let (at, wrong) = *self.random.pick(&sizes);
        let mut program = self.pair.program.clone();
        match self.random.below(4) {
            0 => program[at] = *self.random.pick(&wrong),
            1 => program.truncate(self.random.below(program.len())),
            2 => {
                // A size of 0 that makes no total wrong.
                let (statements, procedures) = *self.random.pick(&[(0, 1), (1, 0)]);
                program = large::sized(statements, procedures, 0, 0, 9).program;
            }
            _ => program.push(0),
        }
        self.push_program(program, Spot::First, refused(1, 0));
    }

    /// Number 2, by the kind, the row's place, or a row of its own at the end of the pool.
    fn exit(&mut self, spot: Spot) {
        let given = ProgramWords(&self.pair.program);
        let Some(procedure) = spot.number(self.random, given.procedures()) else {
            return;
        };
        let vertex = given.statements() + procedure;
        let size = given.pool_size();
        let [first, locals, parameters] = given.exit_row(procedure);
        let above = match procedure {
            1 => 0,
            _ => given.exit_row(procedure - 1)[0],
        };
        let program = match self.random.below(4) {
            0 => {
                let kind = *self.random.pick(&[0, 1, 2, 3, 4, 5, 7, -1, i32::MAX]);
                given.with_word(ProgramWords::kind(vertex), kind)
            }
            1 => {
                let places = [-1, size - 2, size, i32::MIN, i32::MAX];
                let place = *self.random.pick(&places);
                given.with_word(given.place(vertex), place)
            }
            _ => {
                let rows = [
                    [above, locals, parameters],
                    [-1, locals, parameters],
                    [given.statements() as i32 + 1, locals, parameters],
                    [first, 9, parameters],
                    [first, -1, 0],
                    [first, i32::MAX, 0],
                    [first, locals, -1],
                    [first, locals, locals + 1],
                ];
                let row = *self.random.pick(&rows);
                given.with_row(vertex, &row)
            }
        };
        self.push_program(program, spot, refused(2, ProgramWords::kind(vertex)));
    }

    /// Number 3, by the kind, the row's place, or one field of a row at the end of the pool.
    fn statement(&mut self, spot: Spot) {
        let given = ProgramWords(&self.pair.program);
        let Some(vertex) = spot.number(self.random, given.statements()) else {
            return;
        };
        let size = given.pool_size();
        let row = given.statement_row(vertex);
        let program = match self.random.below(6) {
            0 => {
                let kind = *self.random.pick(&[0, 6, 7, -1, i32::MIN]);
                given.with_word(ProgramWords::kind(vertex), kind)
            }
            1 => {
                // A call's row may be shorter elsewhere, but never two words.
                let least = match given.0[ProgramWords::kind(vertex)] {
                    5 => 3,
                    _ => row.len() as i32,
                };
                let short = size - least + 1;
                let place = *self.random.pick(&[-1, size, short, i32::MIN, i32::MAX]);
                given.with_word(given.place(vertex), place)
            }
            2 if given.0[ProgramWords::kind(vertex)] == 4 => {
                // `?` as it may stand in a branch.
                let exit = (given.statements() + given.procedure_of(vertex)) as i32;
                let mut words = vec![0; row.len()];
                words[..2].copy_from_slice(&[row[0], exit]);
                given.with_row(vertex, &words)
            }
            _ => {
                let wrong = wrong_fields(&given, vertex, &row);
                let (at, word) = *self.random.pick(&wrong);
                let mut row = row;
                row[at] = word;
                given.with_row(vertex, &row)
            }
        };
        let first = ProgramWords(&program).first_word(vertex);
        let line = first.filter(|line| (0..=LARGEST).contains(line));
        let answer = refused_at(3, ProgramWords::kind(vertex), line.unwrap_or(0));
        self.push_program(program, spot, answer);
    }

    fn certificate_sizes(&mut self) {
        let mut witness = self.pair.witness.clone();
        match self.random.below(5) {
            0 => witness[0] = *self.random.pick(&[0, 2, 5, -1, i32::MIN, i32::MAX]),
            1 => witness[1] = *self.random.pick(&[-1, witness[1] + 1, i32::MIN, i32::MAX]),
            2 => witness[2] = *self.random.pick(&[-1, witness[2] + 1, i32::MIN, i32::MAX]),
            3 => witness.truncate(self.random.below(witness.len())),
            _ => witness.push(0),
        }
        self.push_witness(witness, Spot::First, refused(4, 0));
    }

    /// Number 5, by the count, the place, or disjuncts of its own at the end of the rows.
    fn entry(&mut self, spot: Spot) {
        let given = ProgramWords(&self.pair.program);
        let Some(entry) = spot.number(self.random, given.entries()) else {
            return;
        };
        let columns = given.entry_columns(entry);
        let (count, place) = (2 + entry, 2 + given.entries() + entry);
        let mut witness = self.pair.witness.clone();
        match self.random.below(4) {
            0 => witness[count] = *self.random.pick(&[-1, 9, i32::MIN, i32::MAX]),
            1 => {
                witness[count] = witness[count].max(1);
                witness[place] = *self.random.pick(&[-1, witness[1], i32::MIN, i32::MAX]);
            }
            _ => {
                let before = self.random.below(9);
                let mut words = vec![0; before];
                words.extend(match before {
                    // Nothing is wrong but that it is the ninth.
                    8 => vec![0],
                    _ => self.wrong_disjunct(columns),
                });
                let end = 3 + 2 * given.entries() + witness[1] as usize;
                witness[count] = before as i32 + 1;
                witness[place] = witness[1];
                witness[1] += words.len() as i32;
                witness.splice(end..end, words);
            }
        }
        self.push_witness(witness, spot, refused(5, count));
    }

    /// A row count beyond its limit, a row one word short, or one number beyond its limit.
    fn wrong_disjunct(&mut self, columns: usize) -> Vec<i32> {
        let rows = *self.random.pick(&[1, 2, 3, 33]);
        let width = linear_words(columns);
        let mut words = vec![0; 1 + rows * width];
        words[0] = rows as i32;
        if rows == 33 {
            return words;
        }
        let row = self.random.below(rows);
        let constant = 1 + row * width;
        match self.random.below(4) {
            0 => return vec![*self.random.pick(&[-1, 33, i32::MIN, i32::MAX])],
            1 => {
                words.pop();
            }
            2 if columns > 0 => {
                let at = constant + CONSTANT_WORDS + self.random.below(columns);
                words[at] = *self.random.pick(&[1_001, -1_001, i32::MIN, i32::MAX]);
            }
            _ => {
                let wrong = self.random.pick(&BEYOND);
                words[constant..constant + CONSTANT_WORDS].copy_from_slice(wrong);
            }
        }
        words
    }

    /// Numbers 6 and 7 at one entailment.
    fn entailment(&mut self, spot: Spot) {
        let Pair { program, witness } = self.pair;
        let layout = witness_layout(program, witness).expect("the pair is accepted");
        let Some(number) = spot.number(self.random, layout.len()) else {
            return;
        };
        let Range { start: place, end } = layout[number - 1].words();
        let premises = layout[number - 1].premises;
        let leaves = layout[number - 1]
            .parts
            .iter()
            .filter(|part| !part.is_split);
        let leaves: Vec<Range<usize>> = leaves.map(|leaf| leaf.words.clone()).collect();

        // In a leaf of a tree, or in the one leaf that is the whole witness.
        let leaf = self.random.pick(&leaves).clone();
        let wrong = *self.random.pick(&[-1, 1_001, i32::MIN, i32::MAX]);
        let mut out_of_range = witness.clone();
        match self.random.below(4) {
            0 if leaf.len() > 1 => out_of_range[leaf.start + 1] = wrong,
            1 if leaf.len() > 1 => out_of_range[leaf.end - 1] = wrong,
            // A divisor, the only word after the first that may not be 0.
            2 if leaf.len() > 1 && witness[leaf.start] > 0 => out_of_range[leaf.start + 1] = 0,
            _ => out_of_range[leaf.start] = *self.random.pick(&[-2, 9, i32::MIN, i32::MAX]),
        }
        self.push_witness(out_of_range, spot, refused(6, place));

        let mut missing = witness.clone();
        missing.truncate(place + self.random.below(end - place));
        missing[2] -= (witness.len() - missing.len()) as i32;
        self.push_witness(missing, spot, refused(6, place));

        // A contradiction of nothing: its constant is 0.
        let mut empty = witness.clone();
        empty.splice(place..end, vec![0; 1 + premises]);
        empty[2] += empty.len() as i32 - witness.len() as i32;
        self.push_witness(empty, spot, refused(7, place));
    }

    fn left_words(&mut self) {
        let mut witness = self.pair.witness.clone();
        let left = 1 + self.random.below(3);
        for _ in 0..left {
            witness.push(*self.random.pick(&[0, 1, -1, i32::MIN, i32::MAX]));
        }
        witness[2] += left as i32;
        let place = self.pair.witness.len();
        self.push_witness(witness, Spot::Last, refused(8, place));
    }

    /// A trace that is refused at the vertex word `place`. Cut there it ends with another vertex
    /// than 0, and that comes first.
    fn limit(&mut self, trace: &Trace, number: u64, place: usize) {
        let mut words = TraceWords::of(self.pair);
        let steps = words.steps();
        let at = place - words.vertex_place(0);
        let spot = match at {
            // The first step can pass the value limit, and the 64th can open the 65th call.
            1 => Spot::First,
            64 if number == 12 => Spot::First,
            _ if at + 1 >= steps => Spot::Last,
            _ => Spot::Middle,
        };
        let line = self.left_line(&words, at);
        self.push_limit(spot, number, place, line, None);
        let left = words.vertices[at - 1] as usize;
        if number != 10 {
            let given = ProgramWords(&self.pair.program);
            let mut row = given.statement_row(left);
            for line in [0, 1, LARGEST, some(self.random), some(self.random)] {
                row[0] = line;
                let program = given.with_row(left, &row);
                self.push_limit(spot, number, place, line, Some(program));
            }
        }
        if number != 10 {
            self.missing_at_limit(trace, number, at);
        }
        if self.pair.witness[place] != 0 {
            words.vertices.truncate(at + 1);
            let answer = refused_at(10, place, line);
            self.push_witness(words.words(), Spot::Last, answer);
        }
    }

    /// The trace itself, refused at the vertex word `place`, with its program or another one.
    fn push_limit(
        &mut self,
        spot: Spot,
        number: u64,
        place: usize,
        line: i32,
        program: Option<Vec<i32>>,
    ) {
        let case = match (number, line) {
            (10, _) => "10 leaving an exit",
            (11, 0) => "11 leaving a statement without a line",
            (11, _) => "11 leaving a statement",
            (_, 0) => "12 leaving a statement without a line",
            _ => "12 leaving a statement",
        };
        let witness = self.pair.witness.clone();
        self.push_case(case, witness, spot, refused_at(number, place, line));
        if let (Some(program), Some(last)) = (program, self.aimed.last_mut()) {
            last.input.program = program;
        }
    }

    /// Buffers of 0, k − 1, k, k + 1 and 100 numbers.
    fn buffers(&mut self, trace: &Trace) {
        let columns = trace.values.len();
        let short = columns.saturating_sub(1);
        for length in [0, short, columns, columns + 1, 100] {
            let (answer, values) = match length < columns {
                true => (refused(13, columns), Vec::new()),
                false => (trace.answer, trace.values.clone()),
            };
            let buffer = super::buffer(self.random, length);
            self.aimed.push(Aimed {
                input: Input {
                    program: self.pair.program.clone(),
                    witness: self.pair.witness.clone(),
                    buffer,
                },
                spot: Spot::Last,
                answer,
                values,
                case: None,
            });
        }
    }

    fn trace_sizes(&mut self) {
        let mut witness = self.pair.witness.clone();
        match self.random.below(7) {
            0 => witness[0] = *self.random.pick(&[0, 2, 5, -1, i32::MIN, i32::MAX]),
            1 => witness[1] = *self.random.pick(&[0, -1, 4_097, witness[1] + 1, i32::MAX]),
            2 => {
                let wrong = [-1, 32_769, witness[2] + 1, i32::MIN, i32::MAX];
                witness[2] = *self.random.pick(&wrong);
            }
            3 => witness.truncate(self.random.below(witness.len())),
            4 => {
                // No step at all, and the total to match.
                let mut words = TraceWords::of(self.pair);
                words.vertices.truncate(1);
                witness = words.words();
            }
            5 => {
                // A size less and the other more, out of their ranges.
                let (fewer, more) = *self.random.pick(&[(1, 2), (2, 1)]);
                witness[more] += witness[fewer] + 1;
                witness[fewer] = -1;
            }
            _ => witness.push(0),
        }
        self.push_witness(witness, Spot::First, refused(4, 0));
    }

    fn start_value(&mut self, spot: Spot) {
        let starts = ProgramWords(&self.pair.program).starts();
        let Some(number) = spot.number(self.random, starts) else {
            return;
        };
        let mut witness = self.pair.witness.clone();
        let place = 2 + number;
        let wrong = [1_000_000_001, -1_000_000_001, i32::MIN, i32::MAX];
        // Those after it may be wrong too.
        let last = match self.random.chance(50) {
            true => place,
            false => 2 + starts,
        };
        for value in &mut witness[place..=last] {
            *value = *self.random.pick(&wrong);
        }
        self.push_witness(witness, spot, refused(9, place));
    }

    fn vertex(&mut self, spot: Spot) {
        let given = ProgramWords(&self.pair.program);
        let mut witness = self.pair.witness.clone();
        let vertices = witness[1] as usize + 1;
        let Some(number) = spot.number(self.random, vertices) else {
            return;
        };
        let place = 2 + given.starts() + number;
        let beyond = (given.statements() + given.procedures()) as i32 + 1;
        witness[place] = match spot {
            Spot::First => *self.random.pick(&[0, 2, -1, beyond]),
            Spot::Middle => *self.random.pick(&[-1, beyond, i32::MIN, i32::MAX]),
            Spot::Last => *self.random.pick(&[-1, 1, beyond - 1, beyond]),
        };
        let line = self.left_line(&TraceWords::of(self.pair), number - 1);
        self.push_witness(witness, spot, refused_at(10, place, line));
    }

    /// Vertex 0 in the middle has no step, not even to itself.
    fn words_after_zero(&mut self) {
        let mut words = TraceWords::of(self.pair);
        let place = words.vertex_place(words.vertices.len());
        for _ in 0..self.random.below(3) {
            words.vertices.push(self.random.between(0, 3));
        }
        words.vertices.push(0);
        if words.steps() <= super::traces::STEPS {
            let case = "10 leaving vertex 0";
            self.push_case(case, words.words(), Spot::Middle, refused(10, place));
        }
    }
}

/// Words of a statement's row, behind its line, that test 3 does not allow, by their place in the row.
fn wrong_fields(given: &ProgramWords, vertex: usize, row: &[i32]) -> Vec<(usize, i32)> {
    let procedure = given.procedure_of(vertex);
    let (statements, procedures) = (given.statements(), given.procedures());
    let mut vertices = vec![0, -1, (statements + procedures) as i32 + 1, i32::MAX];
    for other in (1..=procedures).filter(|other| *other != procedure) {
        vertices.push((statements + other) as i32);
        vertices.push(given.exit_row(other)[0]);
    }
    let mut wrong: Vec<(usize, i32)> = vertices.iter().map(|&vertex| (1, vertex)).collect();
    let columns = given.columns(procedure);
    match given.0[ProgramWords::kind(vertex)] {
        2 => wrong.extend([-1, columns as i32, i32::MIN, i32::MAX].map(|column| (2, column))),
        3 => {
            wrong.extend(vertices.iter().map(|&vertex| (2, vertex)));
            wrong.extend([-1, 7].map(|operator| (3, operator)));
            if row[4..].iter().any(|&word| word != 0) {
                wrong.push((3, 0));
            }
        }
        4 => wrong.extend([-1, 0, 7].map(|operator| (2, operator))),
        5 => {
            let numbers = [0, -1, procedures as i32 + 1, i32::MAX];
            wrong.extend(numbers.map(|number| (2, number)));
        }
        _ => {}
    }
    for constant in given.expressions(vertex) {
        wrong.extend([4_001, -4_002, i32::MIN, i32::MAX].map(|word| (constant, word)));
        wrong.extend([1_000_000, -1, i32::MIN].map(|word| (constant + 1, word)));
        let coefficients = constant + CONSTANT_WORDS;
        for coefficient in coefficients..coefficients + columns {
            wrong.extend([1_001, -1_001, i32::MIN].map(|word| (coefficient, word)));
        }
    }
    wrong
}
