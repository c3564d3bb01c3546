//! What is wrong with the words of `plan.lin`: refusals 1 to 3.

use super::faults::{range_text, Faults};
use super::names::{list, procedure, Names};
use crate::checker::linear::linear_words;
use crate::checker::program::{Layout, Procedure, Vertex, LARGEST_LINE};
use crate::files::PROGRAM;

/// Refusal 1.
pub fn sizes(words: &[i32]) -> Vec<String> {
    let mut faults = Faults::new(PROGRAM, words);
    if words.len() < 4 {
        faults.add(format!(
            "{PROGRAM} has {} words; the first four are its sizes n, p, G and Q.",
            words.len()
        ));
        return faults.found();
    }
    let sizes = [
        faults.expect(0, 1..=1_024, "n, the number of statements"),
        faults.expect(1, 1..=32, "p, the number of procedures"),
        faults.expect(2, 0..=8, "G, the number of globals"),
        faults.expect(3, 0..=12_000, "Q, the number of pool words"),
    ];
    if sizes == [true; 4] {
        let [n, p, q] = [0, 1, 3].map(|place| faults.word(place));
        let sum = format!("4 + 2 × ({n} + {p}) + {q}");
        let parts = "the sizes, a kind and a place for each vertex, and Q pool words";
        faults.total(4 + 2 * (n + p) + q, &sum, parts);
    }
    faults.found()
}

/// Refusal 2, of the exit whose kind word stands at the place.
pub fn exit(words: &[i32], place: usize) -> Vec<String> {
    let mut faults = Faults::new(PROGRAM, words);
    let pool = Pool::new(words);
    let vertex = vertex_of(place);
    let number = vertex - pool.statements - 1;
    let of = format!("of {}'s exit, vertex {vertex}", procedure(number));
    faults.expect(place, 6..=6, &format!("the kind {of}"));
    if let Some(row) = pool.row(&mut faults, vertex, 3, &of) {
        let statements = pool.statements as i64;
        let first = format!("the first statement in the row {of}");
        match number {
            0 => faults.expect(row, 1..=1, &first),
            _ => {
                let before = pool.first(&faults, vertex - 1);
                let right = (before + 1..=statements).contains(&faults.word(row));
                let should = format!(
                    "above {before}, the first of the procedure before, and at most {statements}"
                );
                faults.unless(right, row, &first, &should)
            }
        };
        let locals = faults.expect(row + 1, 0..=8, &format!("L, the locals, in the row {of}"));
        let most = if locals { faults.word(row + 1) } else { 8 };
        let parameters =
            format!("F, the parameters, of which there are at most L, in the row {of}");
        faults.expect(row + 2, 0..=most, &parameters);
    }
    faults.found()
}

/// Refusal 3, of the statement whose kind word stands at the place.
pub fn statement(words: &[i32], place: usize) -> Vec<String> {
    let vertex = vertex_of(place);
    let procedures = Layout::parse(words).and_then(|layout| layout.procedures().ok());
    let procedures = procedures.unwrap_or_default();
    let Some(of) = procedures
        .iter()
        .find(|procedure| procedure.statements.contains(&vertex))
    else {
        return Vec::new();
    };
    let test = StatementTest {
        pool: Pool::new(words),
        vertex,
        of,
        procedures: &procedures,
    };
    let mut faults = Faults::new(PROGRAM, words);
    test.run(&mut faults);
    faults.found()
}

/// The vertex whose kind word stands at the place.
fn vertex_of(place: usize) -> Vertex {
    place - 3
}

/// Where rows stand in words whose sizes are right.
struct Pool {
    statements: usize,
    vertices: usize,
    globals: usize,
    length: usize,
}

impl Pool {
    fn new(words: &[i32]) -> Pool {
        let [statements, procedures, globals, length] =
            [0, 1, 2, 3].map(|place| words[place] as usize);
        Pool {
            statements,
            vertices: statements + procedures,
            globals,
            length,
        }
    }

    /// The place in the file where the vertex's row begins, if so many words of it lie in the pool.
    fn row(&self, faults: &mut Faults, vertex: Vertex, length: usize, of: &str) -> Option<usize> {
        let what = format!("the place in the pool of the row {of}");
        let place = 3 + self.vertices + vertex;
        let Some(last) = self.length.checked_sub(length) else {
            let pool = self.length;
            faults.add(format!(
                "The row {of} takes {length} words, and the pool has only {pool}."
            ));
            return None;
        };
        let right = (0..=last as i64).contains(&faults.word(place));
        let (places, pool) = (range_text(0..=last as i64), self.length);
        let should =
            format!("{places}, so that the {length} words of the row lie in the pool of {pool}");
        faults
            .unless(right, place, &what, &should)
            .then(|| 4 + 2 * self.vertices + faults.word(place) as usize)
    }

    /// The first statement that an exit which passed has in its row.
    fn first(&self, faults: &Faults, exit: Vertex) -> i64 {
        let row = faults.word(3 + self.vertices + exit) as usize;
        faults.word(4 + 2 * self.vertices + row)
    }
}

struct StatementTest<'a> {
    pool: Pool,
    vertex: Vertex,
    of: &'a Procedure,
    procedures: &'a [Procedure],
}

impl StatementTest<'_> {
    fn run(&self, faults: &mut Faults) {
        let columns = self.pool.globals + self.of.locals;
        match faults.word(3 + self.vertex) {
            1 => self.skip(faults),
            2 => self.assign(faults, columns),
            3 => self.branch(faults, columns),
            4 => self.assert(faults, columns),
            5 => self.call(faults, columns),
            _ => {
                let what = format!("the kind of statement {}", self.vertex);
                faults.expect(3 + self.vertex, 1..=5, &what);
            }
        }
    }

    /// Where the words behind the line stand in the row of a statement of this kind, if so many of
    /// them lie in the pool.
    fn row(&self, faults: &mut Faults, length: usize, kind: &str) -> Option<usize> {
        let of = format!("of vertex {} ({kind})", self.vertex);
        let row = self.pool.row(faults, self.vertex, 1 + length, &of)?;
        Some(row + 1)
    }

    /// The line at the front of the row that the words behind it are of.
    fn line(&self, faults: &mut Faults, row: usize) {
        let what = format!("the line of vertex {}", self.vertex);
        faults.expect(row - 1, 0..=LARGEST_LINE as i64, &what);
    }

    fn names(&self, columns: usize) -> Vec<String> {
        let names = Names {
            globals: self.pool.globals,
        };
        names.now(columns)
    }

    fn successor(&self, faults: &mut Faults, place: usize, what: &str) {
        let statements = &self.of.statements;
        let (first, last, exit) = (statements.start, statements.end - 1, self.of.exit);
        let vertex = usize::try_from(faults.word(place)).unwrap_or(0);
        let right = statements.contains(&vertex) || vertex == exit;
        let what = format!("{what} of vertex {}", self.vertex);
        let statements = range_text(first as i64..=last as i64);
        let should = format!("{statements}, or the exit {exit}: a vertex of the same procedure");
        faults.unless(right, place, &what, &should);
    }

    fn expression(&self, faults: &mut Faults, place: usize, columns: usize, what: &str) {
        let of = format!("{what} of vertex {}", self.vertex);
        faults.expression(place, &self.names(columns), &of);
    }

    /// An operator and the expression behind it.
    fn guard(&self, faults: &mut Faults, place: usize, columns: usize, least: i64) {
        let what = format!("the operator of vertex {}", self.vertex);
        faults.expect(place, least..=6, &what);
        self.expression(faults, place + 1, columns, "the condition");
        if faults.word(place) == 0 && least == 0 {
            for word in place + 1..place + 1 + linear_words(columns) {
                let what = format!(
                    "in the condition of vertex {}, whose operator is 0, a ?",
                    self.vertex
                );
                faults.expect(word, 0..=0, &what);
            }
        }
    }

    fn skip(&self, faults: &mut Faults) {
        if let Some(row) = self.row(faults, 1, "a skip") {
            self.line(faults, row);
            self.successor(faults, row, "the successor");
        }
    }

    fn assign(&self, faults: &mut Faults, columns: usize) {
        let Some(row) = self.row(faults, 2 + linear_words(columns), "an assignment") else {
            return;
        };
        self.line(faults, row);
        self.successor(faults, row, "the successor");
        let right = (0..columns as i64).contains(&faults.word(row + 1));
        let what = format!("the column that vertex {} assigns to", self.vertex);
        let should = match &self.names(columns)[..] {
            [] => "that of a variable, and there are none".into(),
            names => format!(
                "{}, for {}",
                range_text(0..=columns as i64 - 1),
                list(names)
            ),
        };
        faults.unless(right, row + 1, &what, &should);
        self.expression(faults, row + 2, columns, "the expression");
    }

    fn branch(&self, faults: &mut Faults, columns: usize) {
        if let Some(row) = self.row(faults, 3 + linear_words(columns), "a branch") {
            self.line(faults, row);
            self.successor(faults, row, "the successor if true");
            self.successor(faults, row + 1, "the successor if false");
            self.guard(faults, row + 2, columns, 0);
        }
    }

    fn assert(&self, faults: &mut Faults, columns: usize) {
        if let Some(row) = self.row(faults, 2 + linear_words(columns), "an assertion") {
            self.line(faults, row);
            self.successor(faults, row, "the successor");
            self.guard(faults, row + 1, columns, 1);
        }
    }

    fn call(&self, faults: &mut Faults, columns: usize) {
        let Some(row) = self.row(faults, 2, "a call") else {
            return;
        };
        self.line(faults, row);
        self.successor(faults, row, "the return point");
        let what = format!("the procedure that vertex {} calls", self.vertex);
        if !faults.expect(row + 1, 1..=self.procedures.len() as i64, &what) {
            return;
        }
        let callee = faults.word(row + 1) as usize - 1;
        let parameters = self.procedures[callee].parameters;
        let kind = format!("a call of {}", procedure(callee));
        let width = linear_words(columns);
        if let Some(row) = self.row(faults, 2 + parameters * width, &kind) {
            for parameter in 0..parameters {
                let what = format!("the expression for parameter l{parameter}");
                let place = row + 2 + parameter * width;
                self.expression(faults, place, columns, &what);
            }
        }
    }
}
