//! Damage to program words: 1, 27, 2 and 3.

use super::*;
use crate::checker::linear::linear_words;
use crate::generate::lines::{BEYOND, LARGEST};

impl Aim<'_> {
    /// 1, by a size, by the total, and where something else is wrong too.
    pub(super) fn sizes(&mut self) {
        let sizes = [
            (0, [0, -1, 1_025, i32::MAX]),
            (1, [0, -1, 33, i32::MAX]),
            (2, [-1, 9, i32::MIN, i32::MAX]),
            (3, [-1, 12_001, i32::MIN, i32::MAX]),
        ];
        let answer = refused(1, 0);
        let (at, wrong) = *self.random.pick(&sizes);
        let mut words = self.words();
        words[at] = *self.random.pick(&wrong);
        self.push_program("size", words.clone(), Spot::First, answer);
        words[4] = *self.random.pick(&[-1, 5, i32::MIN, i32::MAX]);
        self.push_program("size and count of arrays", words, Spot::First, answer);

        let words = self.words();
        let cuts = [
            (Spot::First, self.random.below(5)),
            (Spot::Middle, self.random.below(words.len())),
            (Spot::Last, words.len() - 1),
        ];
        for (spot, length) in cuts {
            self.push_program("words missing", words[..length].to_vec(), spot, answer);
        }
        let more = [&words[..], &[0]].concat();
        self.push_program("a word more", more.clone(), Spot::Last, answer);
        if let Some(array) = Spot::Last.number(self.random, self.header.len()) {
            let mut more = more;
            more[4 + array - 1] = *self.random.pick(&[0, -1, 65]);
            self.push_program("total and array size", more, Spot::Last, answer);
        }
        // Another number of arrays, within its limits: the total isn't right then.
        let mut words = self.words();
        words[4] = (words[4] + 1 + self.random.between(0, 3)) % 5;
        self.push_program("another count of arrays", words, Spot::First, answer);
    }

    /// 27 at the number of arrays.
    pub(super) fn array_counts(&mut self) {
        let counts = [-1, 5, 6, 64, i32::MIN, i32::MAX];
        let mut words = self.words();
        words[4] = *self.random.pick(&counts);
        let answer = refused(27, 4);
        self.push_program("count of arrays", words.clone(), Spot::First, answer);
        match self.random.chance(50) {
            true => words.push(0),
            false => words.truncate(5 + self.random.below(words.len() - 5)),
        }
        self.push_program("count of arrays and total", words, Spot::First, answer);
    }

    /// 27 at the size of an array.
    pub(super) fn array_sizes(&mut self, spot: Spot) {
        let Some(array) = spot.number(self.random, self.made.program.sizes.len()) else {
            return;
        };
        let wrong = [0, -1, 65, i32::MIN, i32::MAX];
        let place = 4 + array;
        let answer = refused(27, place);
        let mut words = self.words();
        words[place] = *self.random.pick(&wrong);
        self.push_program("array size", words.clone(), spot, answer);
        let last = 4 + self.made.program.sizes.len();
        if place < last {
            let mut words = words.clone();
            words[last] = *self.random.pick(&wrong);
            self.push_program("two array sizes", words, spot, answer);
        }
        // A kind that there is not, at an exit or at a statement.
        let given = ProgramWords(&self.headless);
        let vertices = given.statements() + given.procedures();
        let exit = self.kind_place(vertices);
        words[exit] = 7;
        self.push_program("array size and exit", words.clone(), spot, answer);
        words[exit] = 6;
        words[self.kind_place(1)] = 7;
        self.push_program("array size and statement", words, spot, answer);
    }

    /// 2, and where a statement and the mark are wrong too.
    pub(super) fn exit(&mut self, spot: Spot) {
        let given = ProgramWords(&self.headless);
        let Some(procedure) = spot.number(self.random, given.procedures()) else {
            return;
        };
        let vertex = given.statements() + procedure;
        let headless = wrong_exit(self.random, &given, procedure);
        let answer = refused(2, self.kind_place(vertex));
        let mut words = with_header(&headless, &self.header);
        self.push_program("exit", words.clone(), spot, answer);
        words[self.kind_place(1)] = 7;
        self.push_marked("exit, statement and mark", words, spot, answer);
    }

    /// 3 at any statement, by its kind, its row's place or its line, and where the mark is wrong too.
    pub(super) fn statement(&mut self, spot: Spot) {
        let given = ProgramWords(&self.headless);
        let Some(vertex) = spot.number(self.random, given.statements()) else {
            return;
        };
        let has_arrays = !self.made.program.sizes.is_empty();
        let headless = wrong_statement(self.random, &given, vertex, has_arrays);
        self.push_statement("statement", headless.clone(), vertex, spot);
        let answer = self.cases[self.cases.len() - 1].answer;
        let mut words = with_header(&headless, &self.header);
        let last = self.made.program.plain.statement_count();
        if vertex < last {
            words[self.kind_place(last)] = 7;
        }
        self.push_marked("statement, later one and mark", words, spot, answer);
    }

    /// With a mark of a certificate.
    fn push_marked(&mut self, name: &'static str, program: Vec<i32>, spot: Spot, answer: Answer) {
        let mut witness = self.made.trace.words();
        witness[0] = *self.random.pick(&[1, 4]);
        self.push(name, Pair { program, witness }, spot, answer);
    }

    /// 3 at a read or a write, by one of its fields or by a row that is cut off.
    pub(super) fn access(&mut self, spot: Spot) {
        let program = &self.made.program;
        let count = program.accesses.len();
        let Some(at) = spot.number(self.random, count) else {
            return;
        };
        let Some((&vertex, access)) = program.accesses.iter().nth(at - 1) else {
            return;
        };
        let given = ProgramWords(&self.headless);
        let arrays = program.sizes.len() as i32;
        let row = wrong_access(self.random, &given, vertex, arrays);
        let name = match access.kind {
            AccessKind::Read { .. } => "read",
            AccessKind::Write { .. } => "write",
        };
        let headless = given.with_row(vertex, &row);
        self.push_statement(name, headless, vertex, spot);
    }

    /// 3 at a statement, with the line that its row begins with.
    fn push_statement(
        &mut self,
        name: &'static str,
        headless: Vec<i32>,
        vertex: usize,
        spot: Spot,
    ) {
        let first = ProgramWords(&headless).first_word(vertex);
        let line = first.filter(|line| (0..=LARGEST).contains(line));
        let answer = refused_at(3, self.kind_place(vertex), line.unwrap_or(0));
        let words = with_header(&headless, &self.header);
        self.push_program(name, words, spot, answer);
    }
}

/// An exit that is wrong by its kind, its row's place, or a row of its own at the end of the pool.
fn wrong_exit(random: &mut Random, given: &ProgramWords, procedure: usize) -> Vec<i32> {
    let vertex = given.statements() + procedure;
    let size = given.pool_size();
    let [first, locals, parameters] = given.exit_row(procedure);
    match random.below(4) {
        0 => {
            let kind = *random.pick(&[0, 1, 5, 7, 8, 9, -1, i32::MAX]);
            given.with_word(ProgramWords::kind(vertex), kind)
        }
        1 => {
            let place = *random.pick(&[-1, size - 2, size, i32::MIN, i32::MAX]);
            given.with_word(given.place(vertex), place)
        }
        _ => {
            let rows = [
                [0, locals, parameters],
                [given.statements() as i32 + 1, locals, parameters],
                [first, 9, parameters],
                [first, -1, 0],
                [first, locals, -1],
                [first, locals, locals + 1],
            ];
            let row = *random.pick(&rows);
            given.with_row(vertex, &row)
        }
    }
}

/// A statement that is wrong by its kind, its row's place or its line.
fn wrong_statement(
    random: &mut Random,
    given: &ProgramWords,
    vertex: usize,
    has_arrays: bool,
) -> Vec<i32> {
    let size = given.pool_size();
    match random.below(4) {
        0 => {
            let kind = *random.pick(&[0, 6, 7, 10, -1, i32::MIN, i32::MAX]);
            given.with_word(ProgramWords::kind(vertex), kind)
        }
        1 => {
            let place = *random.pick(&[-1, size, size - 1, i32::MIN, i32::MAX]);
            given.with_word(given.place(vertex), place)
        }
        2 if !has_arrays => {
            // An access to an array that there is not, in a row that is long enough.
            let line = given.line(vertex as i32);
            let row = [&[line, vertex as i32][..], &[0; 40]].concat();
            let words = given.with_row(vertex, &row);
            let kind = *random.pick(&[8, 9]);
            ProgramWords(&words).with_word(ProgramWords::kind(vertex), kind)
        }
        _ => {
            let line = *random.pick(&BEYOND);
            // No row is longer.
            let rest = given.row(vertex).iter().skip(1).take(150);
            let row: Vec<i32> = [line].iter().chain(rest).copied().collect();
            given.with_row(vertex, &row)
        }
    }
}

/// The row of a read or a write with a wrong successor, column, array or word of an expression, or cut off.
fn wrong_access(random: &mut Random, given: &ProgramWords, vertex: usize, arrays: i32) -> Vec<i32> {
    let procedure = given.procedure_of(vertex);
    let columns = given.columns(procedure);
    let width = linear_words(columns);
    let is_read = given.0[ProgramWords::kind(vertex)] == 8;
    let (fields, length) = match is_read {
        true => (4, 4 + width),
        false => (3, 3 + 2 * width),
    };
    let mut row = given.row(vertex)[..length].to_vec();
    let vertices = given.statements() + given.procedures();
    // The exit of the procedure behind it, if there is one; else that is no vertex.
    let other = given.statements() + procedure + 1;
    let successors = [0, -1, other as i32, vertices as i32 + 1, i32::MAX];
    match random.below(8) {
        0 => row[1] = *random.pick(&successors),
        1 => row[fields - 1] = *random.pick(&[-1, arrays, 4, i32::MIN, i32::MAX]),
        2 if is_read => row[2] = *random.pick(&[-1, columns as i32, i32::MIN, i32::MAX]),
        3 => row.truncate(1 + random.below(length - 1)),
        _ => {
            // In the index expression or, of a write, in the last one.
            let first = *random.pick(&[fields, length - width]);
            let (at, words) = match random.below(if columns > 0 { 3 } else { 2 }) {
                0 => (first, [4_001, -4_001]),
                1 => (first + 1, [-1, 1_000_000]),
                _ => (first + 2 + random.below(columns), [1_001, -1_001]),
            };
            row[at] = *random.pick(&words);
        }
    }
    row
}
