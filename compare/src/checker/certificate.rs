//! Certificate words of both forms, tests 4, 5, 25 and 15.

use super::program::{Program, Vertex, ERROR};
use super::row::{Form, Row};
use super::{within, Refusal};

/// The most words of a certificate.
pub const LARGEST: usize = 1_000_000;

/// Place of the number of row words.
const ROW_WORDS: usize = 1;

/// Place of the first count word.
const COUNTS: usize = 3;

/// A parsed certificate: the edges, and the witness words not yet looked at.
#[derive(Debug)]
pub struct Certificate<'a> {
    path: Vec<Vec<Disjunct<'a>>>,
    summaries: Vec<Vec<Disjunct<'a>>>,
    pub witness_words: &'a [i32],
}

/// Rows over so many columns. Entries may share words, so the rows stay where they stand.
#[derive(Clone, Copy, Debug)]
pub struct Disjunct<'a> {
    /// Those of the rows.
    words: &'a [i32],
    form: Form,
    rows: usize,
    pub columns: usize,
}

/// What an entailment leads to.
#[derive(Clone, Copy, Debug, PartialEq, Eq)]
pub enum Target {
    Path(Vertex),
    Summary(usize),
}

impl<'a> Disjunct<'a> {
    /// Takes a disjunct off the front, if all of its words are there and in range.
    fn take(rest: &mut &'a [i32], form: Form, columns: usize) -> Option<Disjunct<'a>> {
        let rows = within(*rest.split_off_first()?, 0..=32)?;
        let before = *rest;
        for _ in 0..rows {
            if !Row::take(rest, form, columns)?.is_in_range(columns) {
                return None;
            }
        }
        Some(Disjunct {
            words: &before[..before.len() - rest.len()],
            form,
            rows,
            columns,
        })
    }

    pub fn rows(&self) -> impl ExactSizeIterator<Item = Row<'a>> {
        let (form, columns) = (self.form, self.columns);
        let mut rest = self.words;
        let mut next = move || Row::take(&mut rest, form, columns).expect("its words are there");
        (0..self.rows).map(move |_| next())
    }

    pub fn row_count(&self) -> usize {
        self.rows
    }

    /// How many words it has, its row count among them.
    fn length(&self) -> usize {
        1 + self.words.len()
    }
}

impl<'a> Certificate<'a> {
    /// Reads a certificate of either form.
    pub fn parse(program: &Program, words: &'a [i32]) -> Result<Certificate<'a>, Refusal> {
        let form = words.first().and_then(|&mark| Form::of(mark));
        Certificate::parse_form(form.ok_or(Refusal::new(4, 0))?, program, words)
    }

    /// Reads a certificate of this form; any other is refused with 4.
    pub fn parse_form(
        form: Form,
        program: &Program,
        words: &'a [i32],
    ) -> Result<Certificate<'a>, Refusal> {
        let columns = entry_columns(program);
        let layout = Layout::parse(words, form, columns.len()).ok_or(Refusal::new(4, 0))?;
        let mut entries = Vec::with_capacity(columns.len());
        // Where the words of the entries before end, if these stand as sparse form asks.
        let mut free = 0;
        for (entry, columns) in columns.into_iter().enumerate() {
            let refused = |number| Err(Refusal::new(number, COUNTS + entry));
            let (count, place) = (layout.counts[entry], layout.places[entry]);
            let Some(disjuncts) = disjuncts(layout.rows, count, place, form, columns) else {
                return refused(5);
            };
            let rows = || disjuncts.iter().flat_map(Disjunct::rows);
            if form == Form::Sparse {
                if usize::try_from(place) != Ok(free) || !rows().all(Row::is_sparse) {
                    return refused(25);
                }
                free += disjuncts.iter().map(Disjunct::length).sum::<usize>();
            }
            if rows().any(Row::is_constant) {
                return refused(15);
            }
            entries.push(disjuncts);
        }
        if form == Form::Sparse && free != layout.rows.len() {
            return Err(Refusal::new(25, ROW_WORDS));
        }
        let summaries = entries.split_off(program.vertices());
        Ok(Certificate {
            path: entries,
            summaries,
            witness_words: layout.witness_words,
        })
    }

    /// The disjuncts of each entry, vertices and then summaries.
    pub fn entries(&self) -> impl Iterator<Item = &[Disjunct<'a>]> {
        self.path.iter().chain(&self.summaries).map(Vec::as_slice)
    }

    /// The disjuncts of a target. Vertex 0 has none.
    pub fn edges(&self, target: Target) -> &[Disjunct<'a>] {
        match target {
            Target::Path(ERROR) => &[],
            Target::Path(vertex) => &self.path[vertex - 1],
            Target::Summary(procedure) => &self.summaries[procedure],
        }
    }
}

/// The number of columns of each entry, vertices and then summaries.
fn entry_columns(program: &Program) -> Vec<usize> {
    let path = (1..=program.vertices()).map(|vertex| {
        let procedure = program.procedure_of(vertex);
        2 * program.columns(procedure)
    });
    let summaries = program
        .procedures
        .iter()
        .map(|procedure| 2 * program.globals + procedure.parameters);
    path.chain(summaries).collect()
}

/// Test 5 for one entry.
fn disjuncts(
    rows: &[i32],
    count: i32,
    place: i32,
    form: Form,
    columns: usize,
) -> Option<Vec<Disjunct<'_>>> {
    let count = within(count, 0..=8)?;
    if count == 0 {
        return Some(Vec::new());
    }
    let mut rest = rows.get(usize::try_from(place).ok()?..)?;
    (0..count)
        .map(|_| Disjunct::take(&mut rest, form, columns))
        .collect()
}

/// The arrays of the certificate words, mark and sizes tested and nothing else.
struct Layout<'a> {
    counts: &'a [i32],
    places: &'a [i32],
    rows: &'a [i32],
    witness_words: &'a [i32],
}

impl<'a> Layout<'a> {
    fn parse(words: &'a [i32], form: Form, entries: usize) -> Option<Layout<'a>> {
        let &[mark, row_words, witness_words, ref rest @ ..] = words else {
            return None;
        };
        if mark != form.mark() {
            return None;
        }
        let row_words = within(row_words, 0..=LARGEST)?;
        let witness_words = within(witness_words, 0..=LARGEST)?;
        if words.len() > LARGEST || rest.len() != 2 * entries + row_words + witness_words {
            return None;
        }
        let (counts, rest) = rest.split_at(entries);
        let (places, rest) = rest.split_at(entries);
        let (rows, witness_words) = rest.split_at(row_words);
        Some(Layout {
            counts,
            places,
            rows,
            witness_words,
        })
    }
}
