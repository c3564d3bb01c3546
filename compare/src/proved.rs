//! The proved checker, through its C interface, as the subject of a comparison.

use crate::checker::arrays::check_arrays;
use crate::checker::Answer;
use crate::compare::{Converter, Second, Subject};
use crate::convert::Writing;
use crate::trim::{self, Trimmer};

/// The proved checker.
pub struct Proved;

impl Subject for Proved {
    fn check(&self, program: &[i32], witness: &[i32], buffer: &mut [i64]) -> Answer {
        check(program, witness, buffer)
    }
}

/// The proved checker's answer.
pub fn check(program: &[i32], witness: &[i32], buffer: &mut [i64]) -> Answer {
    answer(leukarion::check_into(program, witness, buffer))
}

/// The proved replay by the grammar.
pub struct ProvedByGrammar;

impl Subject for ProvedByGrammar {
    fn check(&self, program: &[i32], witness: &[i32], buffer: &mut [i64]) -> Answer {
        replay_by_grammar(program, witness, buffer)
    }
}

/// Its answer.
pub fn replay_by_grammar(program: &[i32], witness: &[i32], buffer: &mut [i64]) -> Answer {
    answer(leukarion::replay_by_grammar_into(program, witness, buffer))
}

/// The answer as the second checker writes it.
pub fn answer(told: leukarion::Answer) -> Answer {
    match told {
        leukarion::Answer::Safe(count) => Answer::Safe(count),
        leukarion::Answer::Trace(steps) => Answer::Trace(steps),
        leukarion::Answer::Refused {
            number,
            place,
            line,
        } => Answer::Refused {
            number,
            place,
            line,
        },
    }
}

/// Those whose sparse certificates and converters are tested.
pub fn converters() -> Vec<&'static dyn Converter> {
    vec![&Second, &Proved]
}

impl Converter for Proved {
    fn to_sparse(&self, program: &[i32], certificate: &[i32], result: &mut [i32]) -> Writing {
        writing(leukarion::to_sparse(program, certificate, result))
    }

    fn to_dense(&self, program: &[i32], certificate: &[i32], result: &mut [i32]) -> Writing {
        writing(leukarion::to_dense(program, certificate, result))
    }
}

/// The second trimmer and the proved one.
pub const TRIMMERS: [Trimmer; 2] = [trim::trim, trim];

/// A check of traces of programs with arrays.
pub type ArrayChecker = fn(&[i32], &[i32], &mut [i64]) -> Answer;

/// The second one.
pub const ARRAY_CHECKERS: &[ArrayChecker] = &[check_arrays];

/// The proved trimmer.
pub fn trim(program: &[i32], certificate: &[i32], result: &mut [i32]) -> Writing {
    writing(leukarion::trim(program, certificate, result))
}

/// The answer as the second implementation writes it.
fn writing(told: leukarion::Writing) -> Writing {
    match told {
        leukarion::Writing::Written(words) => Writing::Written(words),
        leukarion::Writing::Refused {
            number,
            place,
            line,
        } => Writing::Refused {
            number,
            place,
            line,
        },
    }
}
