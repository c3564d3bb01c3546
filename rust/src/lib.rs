//! The proved checker for Rust: slices in, an answer and the words it is about out; for traces also by
//! the report's grammar. And the proved writers of certificates: the converters between the two forms,
//! and the trimmer. The functions behind them are those of `include/leukarion.h`.

/// How many values a trace gives back at most: 8 globals and 8 locals.
pub const MOST_VALUES: usize = 16;

/// A number that no value can be. A buffer filled with it shows afterwards how many values it got.
const NO_VALUE: i64 = i64::MIN;

/// What a check answers.
#[must_use]
#[derive(Clone, Copy, Debug, PartialEq, Eq)]
pub enum Answer {
    /// The certificate holds: no assertion can fail. With the number of entailments.
    Safe(u64),
    /// The trace is a run that fails an assertion. With the number of its steps.
    Trace(u64),
    /// The first test that failed, by its number, and the word at which it failed. With 3 the line
    /// of the wrong statement, with 10 to 12 the line of the statement that the step leaves, if it
    /// has one; with other numbers, and where there is none, 0.
    Refused { number: u64, place: u64, line: u64 },
}

/// An answer, and what it is about.
#[must_use]
#[derive(Clone, Copy, Debug, PartialEq, Eq)]
pub struct Checked<'a> {
    pub answer: Answer,
    /// After a refusal the words of the program, or of the certificate or trace, from its place
    /// on; otherwise the empty end of the certificate or trace. They are a part of what was
    /// checked, with nothing copied.
    pub diagnosis: &'a [i32],
    values: [i64; MOST_VALUES],
    value_count: usize,
}

impl Checked<'_> {
    /// After [`Answer::Trace`] the values at the failed assertion, globals before locals;
    /// otherwise none.
    pub fn values(&self) -> &[i64] {
        &self.values[..self.value_count]
    }
}

/// Checks the words of a program with those of a certificate or a trace.
pub fn check<'a>(program: &'a [i32], witness: &'a [i32]) -> Checked<'a> {
    checked(leukarion_check, program, witness)
}

/// The same with a buffer of the caller's. After [`Answer::Trace`] the front of `values` holds the
/// values at the failed assertion; otherwise, and behind the front, `values` is as it was. Where
/// it is too short the answer is refusal 13, and its place how many numbers it must hold.
pub fn check_into(program: &[i32], witness: &[i32], values: &mut [i64]) -> Answer {
    told(leukarion_check, program, witness, values).answer()
}

/// Checks the words of a program with those of a trace, which is read by the two nonterminals of the
/// report's grammar: a valid path is level stretches and unmatched calls, and a level stretch holds calls
/// with level stretches inside. It answers what [`check`] answers, and refuses a certificate with 4.
pub fn replay_by_grammar<'a>(program: &'a [i32], trace: &'a [i32]) -> Checked<'a> {
    checked(leukarion_replay_by_grammar, program, trace)
}

/// The same with a buffer of the caller's, which is as with [`check_into`].
pub fn replay_by_grammar_into(program: &[i32], trace: &[i32], values: &mut [i64]) -> Answer {
    told(leukarion_replay_by_grammar, program, trace, values).answer()
}

fn checked<'a>(checker: Checker, program: &'a [i32], witness: &'a [i32]) -> Checked<'a> {
    let mut values = [NO_VALUE; MOST_VALUES];
    let told = told(checker, program, witness, &mut values);
    Checked {
        answer: told.answer(),
        diagnosis: told.diagnosis(program, witness),
        values,
        value_count: values
            .iter()
            .take_while(|value| **value != NO_VALUE)
            .count(),
    }
}

fn told(checker: Checker, program: &[i32], witness: &[i32], values: &mut [i64]) -> Told {
    // The three slices are all that the function reads and writes, and any three will do.
    unsafe {
        checker(
            program.as_ptr(),
            program.len(),
            witness.as_ptr(),
            witness.len(),
            values.as_mut_ptr(),
            values.len(),
        )
    }
}

/// What a converter or the trimmer answers.
#[must_use]
#[derive(Clone, Copy, Debug, PartialEq, Eq)]
pub enum Writing {
    /// The new certificate stands at the front of the result. With its number of words.
    Written(u64),
    /// The first test that failed, as in [`Answer::Refused`]; the result is as it was.
    Refused { number: u64, place: u64, line: u64 },
}

/// Writes a dense certificate, one that begins with 1, with sparse rows, so that it begins with 4.
/// It is tested as [`check`] tests it, up to its witness words, which are copied and not judged. After
/// [`Writing::Written`] the front of `result` holds the words; otherwise, and behind the front,
/// `result` is as it was. Where it is too short, or there would be more than 1,000,000 words, the
/// answer is refusal 26.
pub fn to_sparse(program: &[i32], certificate: &[i32], result: &mut [i32]) -> Writing {
    write(leukarion_to_sparse, program, certificate, result)
}

/// Writes a sparse certificate with dense rows, in the same way.
pub fn to_dense(program: &[i32], certificate: &[i32], result: &mut [i32]) -> Writing {
    write(leukarion_to_dense, program, certificate, result)
}

/// Writes what is used of an accepted certificate of either form, with dense rows: the disjuncts that
/// the start's witness names, and again those that the witness of an entailment with kept disjuncts
/// names. The result is accepted too, and trimming it again gives the same words. What [`check`]
/// refuses is refused alike, and a trace with 4; the result is as with [`to_sparse`].
pub fn trim(program: &[i32], certificate: &[i32], result: &mut [i32]) -> Writing {
    write(leukarion_trim, program, certificate, result)
}

fn write(writer: Writer, program: &[i32], certificate: &[i32], result: &mut [i32]) -> Writing {
    // The three slices are all that the function reads and writes, and any three will do.
    let told = unsafe {
        writer(
            program.as_ptr(),
            program.len(),
            certificate.as_ptr(),
            certificate.len(),
            result.as_mut_ptr(),
            result.len(),
        )
    };
    told.writing()
}

/// `struct leukarion_answer` of the header.
#[repr(C)]
struct Told {
    kind: u64,
    number: u64,
    place: u64,
    part: u64,
    line: u64,
}

impl Told {
    /// By the header's numbers of kinds.
    fn answer(&self) -> Answer {
        match self.kind {
            1 => Answer::Safe(self.number),
            2 => Answer::Trace(self.number),
            3 => Answer::Refused {
                number: self.number,
                place: self.place,
                line: self.line,
            },
            kind => unreachable!("the library gave an answer of kind {kind}"),
        }
    }

    /// By the header's numbers of kinds, of a writer.
    fn writing(&self) -> Writing {
        match self.kind {
            3 => Writing::Refused {
                number: self.number,
                place: self.place,
                line: self.line,
            },
            4 => Writing::Written(self.number),
            kind => unreachable!("the library gave an answer of kind {kind}"),
        }
    }

    /// Which input a refusal is about, the library says.
    fn diagnosis<'a>(&self, program: &'a [i32], witness: &'a [i32]) -> &'a [i32] {
        let (words, place) = match self.part {
            1 => (program, self.place),
            2 => (witness, self.place),
            _ => (witness, u64::MAX),
        };
        let end = words.len();
        &words[usize::try_from(place).map_or(end, |place| place.min(end))..]
    }
}

/// The check of the header, or its replay by the grammar.
type Checker = unsafe extern "C" fn(*const i32, usize, *const i32, usize, *mut i64, usize) -> Told;

/// A converter of the header, or its trimmer.
type Writer = unsafe extern "C" fn(*const i32, usize, *const i32, usize, *mut i32, usize) -> Told;

extern "C" {
    // As in the header: the library of another interface has no function of this name.
    #[link_name = "leukarion_check_0_5"]
    fn leukarion_check(
        program: *const i32,
        program_words: usize,
        witness: *const i32,
        witness_words: usize,
        values: *mut i64,
        values_length: usize,
    ) -> Told;

    #[link_name = "leukarion_to_sparse_0_6"]
    fn leukarion_to_sparse(
        program: *const i32,
        program_words: usize,
        certificate: *const i32,
        certificate_words: usize,
        result: *mut i32,
        result_words: usize,
    ) -> Told;

    #[link_name = "leukarion_to_dense_0_6"]
    fn leukarion_to_dense(
        program: *const i32,
        program_words: usize,
        certificate: *const i32,
        certificate_words: usize,
        result: *mut i32,
        result_words: usize,
    ) -> Told;

    #[link_name = "leukarion_trim_0_7"]
    fn leukarion_trim(
        program: *const i32,
        program_words: usize,
        certificate: *const i32,
        certificate_words: usize,
        result: *mut i32,
        result_words: usize,
    ) -> Told;

    #[link_name = "leukarion_replay_by_grammar_0_8"]
    fn leukarion_replay_by_grammar(
        program: *const i32,
        program_words: usize,
        trace: *const i32,
        trace_words: usize,
        values: *mut i64,
        values_length: usize,
    ) -> Told;
}

#[cfg(test)]
mod tests {
    use super::*;
    use std::ptr::{null, null_mut};

    const PLAN_A: [i32; 25] = [
        2, 1, 1, 15, 2, 4, 6, 0, 6, 12, 0, 2, 0, 0, 540, 0, 0, 3, 1, -1, 999400, 1, 1, 0, 0,
    ];

    /// Plan A with this constant, of one low word, for 540, its statements at lines 12 and 1,000,000.
    fn plan(constant: i32) -> [i32; 25] {
        let mut plan = PLAN_A;
        plan[10] = 12;
        plan[14] = constant;
        plan[16] = 1_000_000;
        plan
    }

    /// The kind, the number, the place and the line of the check for these words, an empty array by a
    /// null pointer.
    fn told(program: &[i32], witness: &[i32]) -> (u64, u64, u64, u64) {
        told_by(leukarion_check, program, witness)
    }

    fn told_by(checker: Checker, program: &[i32], witness: &[i32]) -> (u64, u64, u64, u64) {
        let pointer = |words: &[i32]| match words {
            [] => null(),
            _ => words.as_ptr(),
        };
        let (program_words, witness_words) = (program.len(), witness.len());
        let (program, witness) = (pointer(program), pointer(witness));
        let values = null_mut();
        let told = unsafe { checker(program, program_words, witness, witness_words, values, 0) };
        (told.kind, told.number, told.place, told.line)
    }

    #[test]
    fn null_pointers_of_empty_arrays() {
        let certificate = [
            1, 6, 8, 1, 1, 1, 1, 0, 1, 0, 0, 0, 1, -1, 999460, 0, 1, 1, 1, 1, 1, 0, 1, 1, 1,
        ];
        assert_eq!(told(&[], &[]), (3, 1, 0, 0));
        assert_eq!(told(&[], &certificate), (3, 1, 0, 0));
        assert_eq!(told(&PLAN_A, &[]), (3, 4, 0, 0));
        assert_eq!(told(&PLAN_A, &certificate), (1, 5, 0, 0));
        assert_eq!(told(&plan(660), &[3, 2, 0, 0, 1, 2, 0]), (3, 13, 1, 0));
    }

    /// 0 with safe and with a trace, and with each number but 3 and 10 to 12.
    #[test]
    fn lines() {
        let certificate = [
            1, 6, 8, 1, 1, 1, 1, 0, 1, 0, 0, 0, 1, -1, 999460, 0, 1, 1, 1, 1, 1, 0, 1, 1, 1,
        ];
        let trace = [3, 2, 0, 0, 1, 2, 0];
        assert_eq!(told(&plan(540), &certificate), (1, 5, 0, 0));
        assert_eq!(told(&plan(660), &certificate), (3, 7, 18, 0));
        assert_eq!(told(&plan(599), &trace), (3, 10, 6, 1_000_000));
        let mut values = [0];
        let told = super::told(leukarion_check, &plan(660), &trace, &mut values);
        assert_eq!((told.kind, told.number, told.line), (2, 2, 0));
        let mut wrong = plan(660);
        wrong[4] = 7;
        let checked = check(&wrong, &trace);
        let (number, place, line) = (3, 4, 12);
        let refused = Answer::Refused {
            number,
            place,
            line,
        };
        assert_eq!(checked.answer, refused);
        assert_eq!(checked.diagnosis.as_ptr_range(), wrong[4..].as_ptr_range());
    }

    #[test]
    fn an_entry_value_left_over() {
        let (plan, trace) = (plan(660), [3, 2, 1, 0, 1, 2, 0, 5]);
        let checked = check(&plan, &trace);
        let (number, place, line) = (14, 7, 0);
        let refused = Answer::Refused {
            number,
            place,
            line,
        };
        assert_eq!(checked.answer, refused);
        assert_eq!(checked.diagnosis.as_ptr_range(), trace[7..].as_ptr_range());
        assert_eq!(checked.values(), []);
    }

    #[test]
    fn by_the_grammar() {
        let trace = [3, 2, 0, 0, 1, 2, 0];
        let certificate = &DENSE_A[..];
        let told =
            |program: &[i32], trace: &[i32]| told_by(leukarion_replay_by_grammar, program, trace);
        assert_eq!(told(&[], &[]), (3, 1, 0, 0));
        assert_eq!(told(&[], certificate), (3, 1, 0, 0));
        assert_eq!(told(&PLAN_A, &[]), (3, 4, 0, 0));
        assert_eq!(told(&PLAN_A, certificate), (3, 4, 0, 0));
        assert_eq!(told(&PLAN_A, &SPARSE_A), (3, 4, 0, 0));
        assert_eq!(told(&plan(660), &trace), (3, 13, 1, 0));
        assert_eq!(told(&plan(599), &trace), (3, 10, 6, 1_000_000));
        let plan = plan(660);
        let checked = replay_by_grammar(&plan, &trace);
        assert_eq!(checked, check(&plan, &trace));
        assert_eq!(checked.answer, Answer::Trace(2));
        assert_eq!(checked.values(), [660]);
        let mut values = [7; 3];
        let answer = replay_by_grammar_into(&plan, &trace, &mut values);
        assert_eq!((answer, values), (Answer::Trace(2), [660, 7, 7]));
        let refused = replay_by_grammar(&PLAN_A, certificate);
        assert_eq!(refused.diagnosis.as_ptr_range(), certificate.as_ptr_range());
        assert_eq!(refused.values(), []);
    }

    const DENSE_A: [i32; 27] = [
        1, 8, 8, 1, 1, 1, 1, 0, 1, 6, 7, 0, 1, -1, 999460, 0, 1, 0, 0, 1, 1, 1, 1, 0, 1, 1, 1,
    ];

    const SPARSE_A: [i32; 28] = [
        4, 9, 8, 1, 1, 1, 1, 0, 1, 7, 8, 0, 1, -1, 999460, 1, 1, 1, 0, 0, 1, 1, 1, 1, 0, 1, 1, 1,
    ];

    #[test]
    fn there_and_back() {
        let mut result = [7; 30];
        assert_eq!(check(&PLAN_A, &SPARSE_A).answer, Answer::Safe(5));
        assert_eq!(
            to_sparse(&PLAN_A, &DENSE_A, &mut result),
            Writing::Written(28)
        );
        assert_eq!((&result[..28], &result[28..]), (&SPARSE_A[..], &[7, 7][..]));
        let mut back = [7; 30];
        assert_eq!(
            to_dense(&PLAN_A, &SPARSE_A, &mut back),
            Writing::Written(27)
        );
        assert_eq!((&back[..27], &back[27..]), (&DENSE_A[..], &[7, 7, 7][..]));
    }

    #[test]
    fn conversions_refused() {
        let refused = |number, place| Writing::Refused {
            number,
            place,
            line: 0,
        };
        let mut short = [7; 27];
        assert_eq!(to_sparse(&PLAN_A, &DENSE_A, &mut short), refused(26, 0));
        assert_eq!(to_sparse(&PLAN_A, &SPARSE_A, &mut short), refused(4, 0));
        assert_eq!(to_sparse(&[], &DENSE_A, &mut short), refused(1, 0));
        assert_eq!(to_dense(&PLAN_A, &[], &mut []), refused(4, 0));
        let mut twice = SPARSE_A;
        twice[9] = 8;
        assert_eq!(to_dense(&PLAN_A, &twice, &mut short), refused(25, 5));
        assert_eq!(short, [7; 27]);
        let checked = check(&PLAN_A, &twice);
        assert_eq!(checked.diagnosis.as_ptr_range(), twice[5..].as_ptr_range());
    }

    #[test]
    fn trimmed() {
        let refused = |number, place| Writing::Refused {
            number,
            place,
            line: 0,
        };
        let shared = [
            1, 6, 8, 1, 1, 1, 1, 0, 1, 0, 0, 0, 1, -1, 999460, 0, 1, 1, 1, 1, 1, 0, 1, 1, 1,
        ];
        for certificate in [&shared[..], &DENSE_A[..], &SPARSE_A[..]] {
            let mut result = [7; 30];
            assert_eq!(
                trim(&PLAN_A, certificate, &mut result),
                Writing::Written(27)
            );
            assert_eq!((&result[..27], &result[27..]), (&DENSE_A[..], &[7; 3][..]));
            let mut short = [7; 26];
            assert_eq!(trim(&PLAN_A, certificate, &mut short), refused(26, 0));
            assert_eq!(short, [7; 26]);
        }
        let mut result = [7; 30];
        let trace = [3, 2, 0, 0, 1, 2, 0];
        assert_eq!(trim(&plan(660), &trace, &mut result), refused(4, 0));
        assert_eq!(trim(&plan(660), &DENSE_A, &mut result), refused(7, 20));
        assert_eq!(trim(&[], &DENSE_A, &mut []), refused(1, 0));
        assert_eq!(result, [7; 30]);
    }
}
