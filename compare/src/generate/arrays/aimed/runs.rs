//! Damage to traces, and to what the statements of a run do: 4, 9, 10, 28, 12, 14, 11 and 13.

use super::*;
use std::collections::BTreeSet;

const BEYOND: [i32; 4] = [1_000_000_001, -1_000_000_001, i32::MIN, i32::MAX];

impl Aim<'_> {
    /// 4, and where a start value is beyond its limit too.
    pub(super) fn marks(&mut self) {
        let answer = refused(4, 0);
        let words = self.made.trace.words();
        let with = |at: usize, word: i32| {
            let mut words = words.clone();
            words[at] = word;
            words
        };
        let mark = *self.random.pick(&[0, 1, 2, 4, 5, -3, i32::MIN]);
        let marked = with(0, mark);
        let steps = with(
            1,
            *self.random.pick(&[0, -1, 4_097, words[1] + 1, i32::MAX]),
        );
        let values = with(2, *self.random.pick(&[-1, 32_769, words[2] + 1, i32::MAX]));
        let more = [&words[..], &[0]].concat();
        let fewer = words[..self.random.below(words.len())].to_vec();
        let mut beyond = marked.clone();
        if let Some(word) = beyond.get_mut(3) {
            *word = i32::MAX;
        }
        let damaged = [marked, steps, values, more, fewer, beyond];
        for (name, words) in [
            "mark",
            "steps",
            "count of entry values",
            "a word more",
            "words missing",
            "mark and start value",
        ]
        .into_iter()
        .zip(damaged)
        {
            self.push_witness(name, words, Spot::First, answer);
        }
        if self.made.program.elements() > 0 {
            let mut trace = self.made.trace.clone();
            trace.starts.truncate(self.made.program.plain.columns(0));
            self.push_witness("without elements", trace.words(), Spot::First, answer);
        }
    }

    /// 9 at main's start values, at elements and at entry values, and where one behind it and the first
    /// vertex are wrong too.
    pub(super) fn start_values(&mut self, spot: Spot) {
        let trace = &self.made.trace;
        let columns = self.made.program.plain.columns(0);
        let entry = trace.entry_place(0);
        let ranges = [
            ("start value of main", 3..3 + columns),
            (
                "start value of an element",
                3 + columns..trace.vertex_place(0),
            ),
            ("entry value", entry..entry + trace.entry_values.len()),
        ];
        for (name, range) in ranges {
            let Some(at) = spot.number(self.random, range.len()) else {
                continue;
            };
            let place = range.start + at - 1;
            let mut words = self.made.trace.words();
            words[place] = *self.random.pick(&BEYOND);
            self.push_witness(name, words.clone(), spot, refused(9, place));
            let last = words.len() - 1;
            if last > place && self.made.trace.entry_values.len() > 0 {
                words[last] = *self.random.pick(&BEYOND);
            }
            words[self.made.trace.vertex_place(0)] = 2;
            self.push_witness(
                "two start values and vertex",
                words,
                spot,
                refused(9, place),
            );
        }
    }

    /// What is refused at a vertex is refused with 10 if that vertex is the last one. What comes behind it
    /// doesn't count: vertices of all sorts, entry values that the call there lacks or that are left over,
    /// and a short buffer.
    pub(super) fn where_refused(&mut self) {
        let Ending::Refused(number) = self.made.ending else {
            return;
        };
        let last = self.made.visits.len() - 1;
        let [with_last, with_others] = match number {
            12 => ["open call and last vertex", "open call and others"],
            28 => ["index and last vertex", "index and others"],
            _ => ["value and last vertex", "value and others"],
        };
        let mut trace = self.made.trace.clone();
        trace.vertices.truncate(last + 1);
        let answer = refused_at(10, trace.vertex_place(last), self.made.line(last));
        self.push_witness(with_last, trace.words(), Spot::Last, answer);

        let mut trace = self.made.trace.clone();
        trace.vertices[last + 1] = *self.random.pick(&[1, 7, -1, i32::MIN]);
        match number {
            12 => trace
                .entry_values
                .truncate(self.made.visits[last - 1].taken),
            _ => trace.entry_values.push(1),
        }
        self.push_witness(with_others, trace.words(), Spot::Last, self.made.answer());
        self.shorten_buffer(0);
    }

    /// 10 at the first vertex and behind vertex 0; 14 at an entry value that is left over, also with a short
    /// buffer.
    pub(super) fn ends(&mut self) {
        let given = self.made.trace.clone();
        let mut trace = given.clone();
        trace.vertices[0] = *self.random.pick(&[0, 2, -1, i32::MAX]);
        let answer = refused(10, trace.vertex_place(0));
        self.push_witness("first vertex", trace.words(), Spot::First, answer);
        let mut trace = given.clone();
        trace.vertices.push(self.random.between(0, 1));
        let answer = refused(10, trace.vertex_place(trace.steps()));
        self.push_witness("behind vertex 0", trace.words(), Spot::Last, answer);
        let mut trace = given;
        let count = trace.entry_values.len();
        let more = 1 + self.random.below(3);
        trace.entry_values.extend(vec![7; more]);
        let answer = refused(14, trace.entry_place(count));
        self.push_witness("left over", trace.words(), Spot::Last, answer);
        self.push_witness("left over and buffer", trace.words(), Spot::Last, answer);
        self.shorten_buffer(0);
    }

    /// 10 at a vertex that no step leads to, also where an entry value is left over and the buffer is short.
    pub(super) fn vertex(&mut self, spot: Spot) {
        let Some(at) = spot.number(self.random, self.made.trace.steps()) else {
            return;
        };
        let mut trace = self.made.trace.clone();
        let program = &self.made.program.plain;
        let before = self.made.visits[at - 1].vertex;
        let vertices = (program.statement_count() + program.procedures.len()) as i32;
        let mut wrong = vec![vertices + 1, -1, i32::MIN, i32::MAX];
        if !self.is_choice(before) {
            let others = (0..=vertices).filter(|&vertex| vertex != trace.vertices[at]);
            wrong.extend(others);
        }
        trace.vertices[at] = *self.random.pick(&wrong);
        let answer = refused_at(10, trace.vertex_place(at), self.made.line(at));
        self.push_witness("vertex", trace.words(), spot, answer);
        trace.entry_values.push(0);
        self.push_witness("vertex, left over and buffer", trace.words(), spot, answer);
        self.shorten_buffer(0);
    }

    fn is_choice(&self, vertex: usize) -> bool {
        let statement = statement(&self.made.program, vertex);
        matches!(statement, Some(Statement::Branch { .. }))
    }

    /// 10 at a last vertex that isn't 0.
    pub(super) fn cut(&mut self, spot: Spot) {
        let Some(at) = spot.number(self.random, self.made.trace.steps() - 1) else {
            return;
        };
        let mut trace = self.made.trace.clone();
        trace.vertices.truncate(at + 1);
        let answer = refused_at(10, trace.vertex_place(at), self.made.line(at));
        self.push_witness("last vertex", trace.words(), spot, answer);
    }

    /// 28 at the first use of a read or a write, and where something else is wrong there.
    pub(super) fn index(&mut self, spot: Spot) {
        let accesses = &self.made.program.accesses;
        let uses = self.first_uses(|vertex| accesses.contains_key(&vertex));
        let Some(number) = spot.number(self.random, uses.len()) else {
            return;
        };
        let at = uses[number - 1];
        let vertex = self.made.visits[at - 1].vertex;
        let index = self.made.visits[at].index.unwrap_or(0);
        let mut program = self.made.program.clone();
        let size = program.sizes[program.accesses[&vertex].array] as i64;
        let wrong = [-1, -1, size, size, size + 1, -size, 1_000_000, -1_000_000];
        let wanted = *self.random.pick(&wrong);
        let Some(access) = program.accesses.get_mut(&vertex) else {
            return;
        };
        access.index.constant += wanted - index;
        if access.index.constant.abs() > 4_000_000_000 {
            return;
        }
        let name = match access.kind {
            AccessKind::Read { .. } => "index of a read",
            AccessKind::Write { .. } => "index of a write",
        };
        let place = self.made.trace.vertex_place(at);
        let trace = self.made.trace.clone();
        self.push_made(name, &program, &trace, spot, refused(28, place));
        self.index_and_vertex(&program, at, spot);
        self.index_and_value(program, at, spot);
    }

    /// 10 at the vertex behind an access whose index is beyond its array.
    fn index_and_vertex(&mut self, program: &ArrayProgram, at: usize, spot: Spot) {
        let given = &self.made.trace;
        let answer = refused_at(10, given.vertex_place(at), self.made.line(at));
        let mut trace = given.clone();
        trace.vertices[at] = *self.random.pick(&[-1, 0, i32::MAX]);
        self.push_made("index and vertex", program, &trace, spot, answer);
        let mut trace = self.made.trace.clone();
        trace.vertices.truncate(at + 1);
        self.push_made("index and last vertex", program, &trace, spot, answer);
    }

    /// 28 there, where a value beyond its limit is written, or else an entry value is left over and the buffer
    /// is short.
    fn index_and_value(&mut self, mut program: ArrayProgram, at: usize, spot: Spot) {
        let vertex = self.made.visits[at - 1].vertex;
        let mut trace = self.made.trace.clone();
        let answer = refused(28, trace.vertex_place(at));
        let far = program.far;
        let kind = program
            .accesses
            .get_mut(&vertex)
            .map(|access| &mut access.kind);
        if let (Some(far), Some(AccessKind::Write { value })) = (far, kind) {
            *value = beyond(value.coefficients.len(), far);
            self.push_made("index and value", &program, &trace, spot, answer);
        }
        trace.entry_values.push(0);
        self.push_made(
            "index, left over and buffer",
            &program,
            &trace,
            spot,
            answer,
        );
        self.shorten_buffer(0);
    }

    /// The vertex words at which a statement has been left for the first time, of those that are wanted.
    fn first_uses(&self, is_wanted: impl Fn(usize) -> bool) -> Vec<usize> {
        let mut seen = BTreeSet::new();
        let left = self.made.visits.iter().map(|visit| visit.vertex);
        let uses = (1..self.made.visits.len()).zip(left);
        uses.filter(|&(_, vertex)| seen.insert(vertex) && is_wanted(vertex))
            .map(|(at, _)| at)
            .collect()
    }

    /// 11 at the first use of a write, an assignment or a call.
    pub(super) fn value(&mut self, spot: Spot) {
        let Some(far) = self.made.program.far else {
            return;
        };
        let uses = self.first_uses(|vertex| gives_value(&self.made.program, vertex));
        let Some(number) = spot.number(self.random, uses.len()) else {
            return;
        };
        let at = uses[number - 1];
        let mut program = self.made.program.clone();
        let vertex = self.made.visits[at - 1].vertex;
        let Some(name) = made_beyond(&mut program, vertex, far) else {
            return;
        };
        let given = self.made.trace.clone();
        let (place, line) = (given.vertex_place(at), self.made.line(at));
        self.push_made(name, &program, &given, spot, refused_at(11, place, line));
        let mut trace = given.clone();
        trace.vertices.truncate(at + 1);
        let answer = refused_at(10, place, line);
        self.push_made("value and last vertex", &program, &trace, spot, answer);
        let taken = self.made.visits[at - 1].taken;
        if self.made.visits[at].taken > taken {
            let mut trace = given;
            trace.entry_values.truncate(taken);
            let answer = refused(14, place);
            self.push_made("missing and value", &program, &trace, spot, answer);
        }
    }

    /// 14 at a call that finds too few entry values, and 10 where that is the last vertex.
    pub(super) fn missing(&mut self, spot: Spot) {
        let visits = &self.made.visits;
        let takes = (1..visits.len()).filter(|&at| visits[at].taken > visits[at - 1].taken);
        let takes: Vec<usize> = takes.collect();
        let Some(number) = spot.number(self.random, takes.len()) else {
            return;
        };
        let at = takes[number - 1];
        let (before, after) = (visits[at - 1].taken, visits[at].taken);
        let mut trace = self.made.trace.clone();
        let left = before + self.random.below(after - before);
        trace.entry_values.truncate(left);
        let place = trace.vertex_place(at);
        self.push_witness("missing", trace.words(), spot, refused(14, place));
        trace.vertices.truncate(at + 1);
        let answer = refused_at(10, place, self.made.line(at));
        self.push_witness("missing and last vertex", trace.words(), spot, answer);
    }

    /// 13 with a buffer of no cell, of some and of one too few; and none too few.
    pub(super) fn buffer(&mut self, spot: Spot) {
        let values = self.made.values().to_vec();
        let columns = values.len();
        let words = self.made.trace.words();
        if let Some(length) = spot.number(self.random, columns) {
            let answer = refused(13, columns);
            self.push_witness("buffer", words.clone(), spot, answer);
            self.shorten_buffer(length - 1);
        }
        self.push_witness("buffer of k", words, spot, self.made.answer());
        self.shorten_buffer(columns);
        if let Some(case) = self.cases.last_mut() {
            case.values = values;
        }
    }
}

/// One beyond the limit of values.
fn beyond(columns: usize, far: i64) -> Expression {
    Expression::sum(columns, far.signum(), &[(0, 1_000)])
}

/// The statement at a vertex, a skip for an access.
fn statement(program: &ArrayProgram, vertex: usize) -> Option<&Statement> {
    let procedures = program.plain.procedures.iter();
    let mut statements = procedures.flat_map(|procedure| &procedure.statements);
    statements.nth(vertex.checked_sub(1)?)
}

/// Whether a value is worked out there and stored.
fn gives_value(program: &ArrayProgram, vertex: usize) -> bool {
    match (program.accesses.get(&vertex), statement(program, vertex)) {
        (Some(access), _) => matches!(access.kind, AccessKind::Write { .. }),
        (None, Some(Statement::Assign { .. })) => true,
        (None, Some(Statement::Call { actuals, .. })) => !actuals.is_empty(),
        _ => false,
    }
}

/// Lets the statement at a vertex give a value beyond its limit.
fn made_beyond(program: &mut ArrayProgram, vertex: usize, far: i64) -> Option<&'static str> {
    let access = program.accesses.get_mut(&vertex);
    let (value, name) = match access.map(|access| &mut access.kind) {
        Some(AccessKind::Write { value }) => (value, "value of a write"),
        _ => match statement_at(&mut program.plain, vertex) {
            Statement::Assign { expression, .. } => (expression, "value of an assignment"),
            Statement::Call { actuals, .. } => (actuals.last_mut()?, "actual of a call"),
            _ => return None,
        },
    };
    *value = beyond(value.coefficients.len(), far);
    Some(name)
}
