//! Damage aimed at lines: a 3 by a line beyond its range or beside any other line, and a 10 at steps
//! that leave statements with and without a line, exits and nothing at all.

use super::{refused, refused_at, wrong_fields, Aim, Spot};
use crate::checker::{witness_layout, Answer};
use crate::generate::lines::{some, BEYOND, LARGEST};
use crate::generate::program_words::ProgramWords;
use crate::generate::trace_words::TraceWords;

const UNKNOWN: [i32; 6] = [0, 7, 8, -1, i32::MIN, i32::MAX];

impl Aim<'_> {
    /// The line of the vertex that the step to the listed vertex of this number leaves. The steps
    /// before it are right.
    pub(super) fn left_line(&self, words: &TraceWords, at: usize) -> i32 {
        let left = at.checked_sub(1).map(|before| words.vertices[before]);
        left.map_or(0, |vertex| ProgramWords(&self.pair.program).line(vertex))
    }

    /// Number 3 at one statement, each time with a row of its own at the end of the pool or with
    /// another's.
    pub(super) fn lines(&mut self, spot: Spot) {
        let given = ProgramWords(&self.pair.program);
        let Some(vertex) = spot.number(self.random, given.statements()) else {
            return;
        };
        self.lines_of_rows(spot, vertex);
        self.lines_of_kinds(spot, vertex);
        self.lines_of_cut_rows(spot, vertex);
        self.lines_of_shared_rows(spot, vertex);
    }

    /// The statement's row with another line.
    fn row_at(&self, vertex: usize, line: i32) -> Vec<i32> {
        let mut row = ProgramWords(&self.pair.program).statement_row(vertex);
        row[0] = line;
        row
    }

    /// A row with a wrong field behind this line.
    fn wrong_row(&mut self, vertex: usize, line: i32) -> Vec<i32> {
        let mut row = self.row_at(vertex, line);
        let wrong = wrong_fields(&ProgramWords(&self.pair.program), vertex, &row);
        let (at, word) = *self.random.pick(&wrong);
        row[at] = word;
        row
    }

    fn some_line(&mut self) -> i32 {
        let line = some(self.random);
        *self.random.pick(&[line, line, 1, LARGEST])
    }

    /// A line beyond its range, and any line before a field that is wrong.
    fn lines_of_rows(&mut self, spot: Spot, vertex: usize) {
        let given = ProgramWords(&self.pair.program);
        let place = ProgramWords::kind(vertex);
        let (line, beyond) = (self.some_line(), *self.random.pick(&BEYOND));
        let program = given.with_row(vertex, &self.row_at(vertex, beyond));
        self.push_program_case(
            "3 a line beyond its range",
            program,
            spot,
            refused(3, place),
        );
        for (case, word, answer) in [
            ("3 a field behind a line", line, refused_at(3, place, line)),
            ("3 a field behind line 0", 0, refused(3, place)),
            (
                "3 a field behind a line beyond its range",
                beyond,
                refused(3, place),
            ),
        ] {
            let row = self.wrong_row(vertex, word);
            self.push_program_case(case, given.with_row(vertex, &row), spot, answer);
        }
        // A line at its limits, or none, is right.
        let layout = witness_layout(&self.pair.program, &self.pair.witness);
        let count = layout.expect("the pair is accepted").len();
        let line = *self.random.pick(&[0, 1, LARGEST]);
        let program = given.with_row(vertex, &self.row_at(vertex, line));
        let answer = Answer::Safe(count as u64);
        self.push_program_case("a line at a limit", program, spot, answer);
    }

    /// A kind that there is not, or an exit's, with a row that is right, that has one word, or that
    /// is right for an exit.
    fn lines_of_kinds(&mut self, spot: Spot, vertex: usize) {
        let given = ProgramWords(&self.pair.program);
        let place = ProgramWords::kind(vertex);
        let (line, beyond) = (self.some_line(), *self.random.pick(&BEYOND));
        let exit = given.exit_row(given.procedure_of(vertex));
        let unknown = *self.random.pick(&UNKNOWN);
        let row = self.row_at(vertex, line);
        for (case, kind, row, line) in [
            ("3 an unknown kind", unknown, &row[..], line),
            ("3 an unknown kind, one word", unknown, &[line], line),
            (
                "3 an unknown kind at a line beyond its range",
                unknown,
                &[beyond],
                0,
            ),
            ("3 kind 6 at a statement", 6, &row, line),
            ("3 kind 6 and an exit's row", 6, &exit, exit[0]),
        ] {
            let mut program = given.with_row(vertex, row);
            program[place] = kind;
            self.push_program_case(case, program, spot, refused_at(3, place, line));
        }
    }

    /// The first words of a row at the end of the pool, the others past it; and a place that is past
    /// the pool itself.
    fn lines_of_cut_rows(&mut self, spot: Spot, vertex: usize) {
        let given = ProgramWords(&self.pair.program);
        let place = ProgramWords::kind(vertex);
        let (line, beyond) = (self.some_line(), *self.random.pick(&BEYOND));
        let length = given.statement_row(vertex).len();
        let some = 1 + self.random.below(length - 1);
        for (case, word, left, line) in [
            ("3 a row cut off behind its line", line, 1, line),
            ("3 a row cut off", line, some, line),
            ("3 a row cut off behind line 0", 0, some, 0),
            (
                "3 a row cut off behind a line beyond its range",
                beyond,
                some,
                0,
            ),
        ] {
            let row = self.row_at(vertex, word);
            let program = given.with_row(vertex, &row[..left]);
            self.push_program_case(case, program, spot, refused_at(3, place, line));
        }
        let size = given.pool_size();
        let past = [-1, size, size + 1, i32::MIN, i32::MAX];
        let past = *self.random.pick(&past);
        let mut program = given.with_word(given.place(vertex), past);
        if self.random.chance(50) {
            program[place] = *self.random.pick(&UNKNOWN);
        }
        self.push_program_case("3 a row past the pool", program, spot, refused(3, place));
    }

    /// A wrong row that a later statement has too, and a statement of no known kind at the row of
    /// another one or of an exit.
    fn lines_of_shared_rows(&mut self, spot: Spot, vertex: usize) {
        let given = ProgramWords(&self.pair.program);
        let statements = given.statements();
        let place = ProgramWords::kind(vertex);
        let line = self.some_line();
        if vertex < statements {
            let row = self.wrong_row(vertex, line);
            let later = vertex + 1 + self.random.below(statements - vertex);
            let mut program = given.with_row(vertex, &row);
            program[given.place(later)] = program[given.place(vertex)];
            let answer = refused_at(3, place, line);
            self.push_program_case("3 a row of two statements", program, spot, answer);
        }
        let procedure = 1 + self.random.below(given.procedures());
        let mut others = vec![(
            "3 at the row of an exit",
            statements + procedure,
            given.exit_row(procedure)[0],
        )];
        if statements > 1 {
            let other = 1 + (vertex + self.random.below(statements - 1)) % statements;
            let line = given.statement_row(other)[0];
            others.push(("3 at the row of another statement", other, line));
        }
        for (case, other, line) in others {
            let shared = given.0[given.place(other)];
            let mut program = given.with_word(given.place(vertex), shared);
            program[place] = *self.random.pick(&UNKNOWN);
            self.push_program_case(case, program, spot, refused_at(3, place, line));
        }
    }

    /// Number 10 where an accepted trace leaves a statement or an exit, and where it is cut: its last
    /// vertex isn't 0, though the step to it is right.
    pub(super) fn lines_left(&mut self, spot: Spot) {
        let words = TraceWords::of(self.pair);
        let given = ProgramWords(&self.pair.program);
        let statements = 1..=given.statements() as i32;
        let beyond = (given.statements() + given.procedures()) as i32 + 1;
        let steps = 1..=words.steps();
        let (from_statements, from_exits): (Vec<usize>, Vec<usize>) = steps
            .clone()
            .partition(|&at| statements.contains(&words.vertices[at - 1]));
        for (case, places) in [
            ("10 leaving a statement", from_statements),
            ("10 leaving an exit", from_exits),
        ] {
            let Some(number) = spot.number(self.random, places.len()) else {
                continue;
            };
            let at = places[number - 1];
            let line = self.left_line(&words, at);
            let case = match (case, line) {
                ("10 leaving a statement", 0) => "10 leaving a statement without a line",
                _ => case,
            };
            let mut wrong = words.clone();
            wrong.vertices[at] = *self.random.pick(&[-1, beyond, i32::MIN, i32::MAX]);
            let answer = refused_at(10, words.vertex_place(at), line);
            self.push_case(case, wrong.words(), spot, answer);
        }
        let cuts: Vec<usize> = steps.filter(|&at| words.vertices[at] != 0).collect();
        if let Some(number) = spot.number(self.random, cuts.len()) {
            let at = cuts[number - 1];
            let line = self.left_line(&words, at);
            let mut cut = words.clone();
            cut.vertices.truncate(at + 1);
            let answer = refused_at(10, words.vertex_place(at), line);
            let case = match line {
                0 => "10 of a last vertex, without a line",
                _ => "10 of a last vertex, leaving a line",
            };
            self.push_case(case, cut.words(), spot, answer);
        }
        if spot == Spot::First {
            let mut wrong = words.clone();
            wrong.vertices[0] = *self.random.pick(&[0, 2, -1, beyond - 1, beyond]);
            let answer = refused(10, words.vertex_place(0));
            self.push_case("10 at the first vertex", wrong.words(), spot, answer);
        }
    }
}
