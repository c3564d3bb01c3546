//! The two forms of the same certificates side by side, and the converters between them. Where the
//! library has no sparse certificates, the cells of the proved checker are left open.

use super::head;
use super::shapes::{self, Shape};
use super::timing::{best, checked, Call, MORE_TURNS, TURNS};
use crate::checker::certificate::LARGEST;
use crate::checker::row::Form;
use crate::checker::Answer;
use crate::compare::sparse::Direction;
use crate::compare::{Second, Subject};
use crate::convert::Writing;
use crate::generate::large::Multipliers;
use crate::generate::sparse::Parts;
use crate::generate::Pair;
use crate::proved::{self, Proved};
use std::hint::black_box;

/// A certificate as it was made; in dense form with its entries in order and unshared; in sparse form.
struct Forms<'a> {
    dense: &'a Pair,
    laid_out: Pair,
    sparse: Pair,
}

impl Forms<'_> {
    fn of(dense: &Pair) -> Forms<'_> {
        let parts = Parts::of(dense);
        Forms {
            dense,
            laid_out: parts.pair(&dense.program, Form::Dense),
            sparse: parts.pair(&dense.program, Form::Sparse),
        }
    }
}

fn turns(pair: &Pair) -> usize {
    match pair.witness.len() {
        ..20_000 => MORE_TURNS,
        _ => TURNS,
    }
}

/// Words, and nanoseconds for each entailment.
pub fn both_forms() {
    let columns = [
        "certificate",
        "multipliers",
        "entailments",
        "words, dense",
        "laid out",
        "sparse",
        "proved, ns an entailment, dense",
        "sparse",
        "sparse/dense",
        "second, ns an entailment, dense",
        "sparse",
        "sparse/dense",
    ];
    head(2, &columns);
    shapes::for_both_forms().for_each(|shape| forms_row(&shape));
}

fn forms_row(shape: &Shape) {
    let forms = Forms::of(&shape.pair);
    let sparse = &forms.sparse;
    let mut checks: Vec<(&dyn Subject, &Pair)> =
        vec![(&Proved, forms.dense), (&Second, forms.dense)];
    // The second checker, and the proved one where the library takes sparse certificates.
    for subject in proved::converters() {
        checks.push((subject, sparse));
    }
    let times = checked(turns(&shape.pair), Answer::Safe(shape.count), &checks);
    let each = |at: usize| times.get(at).map(|time| time / shape.count as f64);
    println!(
        "| {} | {} | {} | {} | {} | {} | {} |",
        shape.title(),
        shape.count,
        forms.dense.witness.len(),
        forms.laid_out.witness.len(),
        sparse.witness.len(),
        side_by_side(each(0), each(3)),
        side_by_side(each(1), each(2))
    );
}

/// The times in dense and in sparse form.
fn side_by_side(dense: Option<f64>, sparse: Option<f64>) -> String {
    let [in_dense, in_sparse] = [dense, sparse].map(|time| nanoseconds(time, 0));
    format!("{in_dense} | {in_sparse} | {}", ratio(sparse, dense))
}

/// A time with so many digits behind the point.
fn nanoseconds(seconds: Option<f64>, digits: usize) -> String {
    cell(seconds.map(|seconds| 1e9 * seconds), digits)
}

fn ratio(time: Option<f64>, other: Option<f64>) -> String {
    cell(time.zip(other).map(|(time, other)| time / other), 2)
}

fn cell(number: Option<f64>, digits: usize) -> String {
    number.map_or("–".into(), |number| format!("{number:.digits$}"))
}

/// Nanoseconds for each word that is read. Multipliers are copied alike, whichever they are, and a result
/// of too many words isn't listed.
pub fn converters() {
    let columns = [
        "certificate",
        "converter",
        "words read",
        "words written",
        "proved, ns/word",
        "second, ns/word",
        "proved/second",
    ];
    head(2, &columns);
    for shape in shapes::for_both_forms() {
        if shape.multipliers == Multipliers::Sparse {
            let forms = Forms::of(&shape.pair);
            converter_row(&shape.name, Direction::ToSparse, forms.dense, &forms.sparse);
            converter_row(
                &shape.name,
                Direction::ToDense,
                &forms.sparse,
                &forms.laid_out,
            );
        }
    }
}

fn converter_row(name: &str, direction: Direction, from: &Pair, to: &Pair) {
    let (read, written) = (from.witness.len(), to.witness.len());
    if written > LARGEST {
        return;
    }
    let calls = proved::converters()
        .into_iter()
        .map(|converter| -> Call<Writing> {
            let mut result = vec![0; written];
            Box::new(move || direction.convert(converter, black_box(from), black_box(&mut result)))
        });
    let times = best(
        turns(from),
        Writing::Written(written as u64),
        calls.collect(),
    );
    let each = |at: usize| times.get(at).map(|time| time / read as f64);
    let (second, proved) = (each(0), each(1));
    println!(
        "| {name} | {} | {read} | {written} | {} | {} | {} |",
        match direction {
            Direction::ToSparse => "to sparse",
            Direction::ToDense => "to dense",
        },
        nanoseconds(proved, 2),
        nanoseconds(second, 2),
        ratio(proved, second)
    );
}
