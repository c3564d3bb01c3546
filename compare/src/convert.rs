//! The second implementation of the converters between the two forms of a certificate (document 02,
//! CR 9).
//!
//! They read a certificate as the second checker does, tests 1 to 5, 25 and 15, and write its entries
//! in order, each at the next free place.

use crate::checker::certificate::{Certificate, Disjunct, LARGEST};
use crate::checker::program::Program;
use crate::checker::row::{Form, Row};
use crate::checker::Refusal;
use std::fmt;

/// What a converter answers: the number of words that it wrote, or the first test that failed.
#[must_use]
#[derive(Clone, Copy, Debug, PartialEq, Eq)]
pub enum Writing {
    Written(u64),
    /// With 3 the line of the statement, if it has one; else 0.
    Refused {
        number: u64,
        place: u64,
        line: u64,
    },
}

impl Writing {
    /// A refusal without a line.
    pub fn refused(number: u64, place: u64) -> Writing {
        Writing::Refused {
            number,
            place,
            line: 0,
        }
    }
}

impl From<Refusal> for Writing {
    fn from(refusal: Refusal) -> Writing {
        Writing::Refused {
            number: refusal.number,
            place: refusal.place as u64,
            line: refusal.line,
        }
    }
}

impl fmt::Display for Writing {
    fn fmt(&self, out: &mut fmt::Formatter) -> fmt::Result {
        match self {
            Writing::Written(words) => write!(out, "written {words}"),
            Writing::Refused {
                number,
                place,
                line,
            } => write!(out, "refused {number} {place} {line}"),
        }
    }
}

/// Writes a dense certificate in sparse form to the front of the result buffer.
pub fn to_sparse(program: &[i32], certificate: &[i32], result: &mut [i32]) -> Writing {
    convert(program, certificate, [Form::Dense, Form::Sparse], result)
}

/// Writes a sparse certificate in dense form to the front of the result buffer.
pub fn to_dense(program: &[i32], certificate: &[i32], result: &mut [i32]) -> Writing {
    convert(program, certificate, [Form::Sparse, Form::Dense], result)
}

fn convert(program: &[i32], words: &[i32], [from, to]: [Form; 2], result: &mut [i32]) -> Writing {
    let certificate =
        Program::parse(program).and_then(|program| Certificate::parse_form(from, &program, words));
    certificate
        .map(|certificate| {
            let entries = certificate.entries().map(<[Disjunct]>::iter);
            laid_out(entries, to, certificate.witness_words)
        })
        .and_then(|words| write(&words, result))
        .map_or_else(Writing::from, Writing::Written)
}

/// The words of a certificate of this form, each entry, which has these disjuncts, at the next free
/// place. Unshared they may be more than a certificate may have.
pub(crate) fn laid_out<'a: 'b, 'b>(
    entries: impl Iterator<Item = impl Iterator<Item = &'b Disjunct<'a>>>,
    form: Form,
    witness_words: &[i32],
) -> Vec<i32> {
    let (mut counts, mut places, mut rows) = (Vec::new(), Vec::new(), Vec::new());
    for disjuncts in entries {
        let mut count = 0;
        places.push(rows.len() as i32);
        for disjunct in disjuncts {
            count += 1;
            rows.push(disjunct.row_count() as i32);
            for row in disjunct.rows() {
                add_row(&mut rows, row, form, disjunct.columns);
            }
        }
        counts.push(count);
    }
    let head = [form.mark(), rows.len() as i32, witness_words.len() as i32];
    [&head, &counts[..], &places, &rows, witness_words].concat()
}

fn add_row(words: &mut Vec<i32>, row: Row, form: Form, columns: usize) {
    words.extend(row.spelling);
    match form {
        Form::Dense => words.extend(row.coefficients(columns)),
        Form::Sparse => {
            let terms = || row.terms().filter(|(_, coefficient)| *coefficient != 0);
            words.push(terms().count() as i32);
            words.extend(terms().map(|(column, _)| column as i32));
            words.extend(terms().map(|(_, coefficient)| coefficient));
        }
    }
}

/// Test 26, and only then the words.
pub(crate) fn write(words: &[i32], result: &mut [i32]) -> Result<u64, Refusal> {
    let count = words.len();
    let front = result.get_mut(..count).filter(|_| count <= LARGEST);
    front.ok_or(Refusal::new(26, 0))?.copy_from_slice(words);
    Ok(count as u64)
}
