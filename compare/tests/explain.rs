//! The explanations: those of the example plans in whole, and of damaged inputs that they name what
//! is wrong. `./explain-plan plans/NAME >plans/NAME/explained.txt` writes an example's anew.

mod common;

use common::{
    words, CERTIFICATE_A, CERTIFICATE_C, PROGRAM_A, PROGRAM_B, PROGRAM_C, PROGRAM_S, TRACE_B,
};
use compare::checker::{witness_layout, Answer};
use compare::compare::{inputs, outcome, Counts, Refused, Subject, NUMBERS};
use compare::explain::{explain, Plan, UNEXPLAINED};
use compare::files::{bytes, in_repository, line, Folder, LONGEST, PROGRAM, WITNESS};
use compare::generate::sparse::{self, Form, Parts};
use compare::generate::{certificates, Pair};
use compare::plans::plans;
use compare::proved::{converters, Proved};
use compare::random::Random;
use std::fs::{self, File};
use std::path::Path;
use std::process::{Command, Output};

/// The program, run on a folder.
fn run(folder: &Path) -> Output {
    program().arg(folder).output().unwrap()
}

fn program() -> Command {
    Command::new(env!("CARGO_BIN_EXE_explain"))
}

/// The proved checker; for sparse certificates where the library takes them.
fn asked(witness: &[i32]) -> &'static dyn Subject {
    match witness.first().and_then(|&mark| Form::of(mark)) {
        Some(Form::Sparse) => converters().pop().expect("the second is always there"),
        _ => &Proved,
    }
}

/// The proved checker's answer to these words, and the explanation.
fn explained(program: &[i32], witness: &[i32]) -> (Answer, String) {
    let plan = Plan::new(program.to_vec(), witness.to_vec());
    let proved = outcome(asked(witness), &plan.input());
    (proved.0, explain(&plan, &proved))
}

/// The words of a text with some changed.
fn changed(text: &str, changes: &[(usize, i32)]) -> Vec<i32> {
    let mut words = words(text);
    for &(place, word) in changes {
        words[place] = word;
    }
    words
}

/// Asserts the first line of the explanation, and that its last part has these phrases in this
/// order.
fn assert_explained(program: &[i32], witness: &[i32], expected: &str, phrases: &[&str]) {
    let (_, text) = explained(program, witness);
    assert_eq!(text.lines().next(), Some(expected), "{text}");
    let part = text.find("WHY IT IS").or(text.find("THE RUN"));
    let mut rest = &text[part.expect("a last part")..];
    for phrase in phrases {
        let Some(at) = rest.find(phrase) else {
            panic!("{phrase}\n-- isn't in its place in --\n{text}");
        };
        rest = &rest[at + phrase.len()..];
    }
}

#[test]
fn example_plans() {
    for (name, _) in plans() {
        let folder = in_repository("plans").join(name);
        let stored = fs::read_to_string(folder.join("explained.txt")).expect(name);
        let output = run(&folder);
        let printed = String::from_utf8(output.stdout).unwrap();
        assert_eq!(printed, stored, "{name}");
        assert!(
            output.status.success() && output.stderr.is_empty(),
            "{name}"
        );
    }
}

/// Refusal 1.
#[test]
fn sizes_of_plans() {
    let certificate = words(CERTIFICATE_A);
    let refused = "refused 1 0 0";
    assert_explained(
        &changed(PROGRAM_A, &[(1, 33)]),
        &certificate,
        refused,
        &["Word 1 of plan.lin, p, the number of procedures, is 33; it must be 1 to 32."],
    );
    assert_explained(
        &words(PROGRAM_A)[..24],
        &certificate,
        refused,
        &["plan.lin has 24 words; it must have 4 + 2 × (2 + 1) + 15 = 25:"],
    );
    assert_explained(
        &[2, 1, 1],
        &certificate,
        refused,
        &["plan.lin has 3 words; the first four"],
    );
}

/// Refusal 2.
#[test]
fn exits() {
    assert_explained(
        &changed(PROGRAM_A, &[(6, 1), (23, 9)]),
        &words(CERTIFICATE_A),
        "refused 2 6 0",
        &[
            "Word 6 of plan.lin, the kind of main's exit, vertex 3, is 1; it must be 6.",
            "Word 23 of plan.lin, L, the locals, in the row of main's exit, vertex 3, is 9; it must \
             be 0 to 8.",
        ],
    );
    assert_explained(
        &changed(PROGRAM_C, &[(45, 1), (47, 2)]),
        &words(CERTIFICATE_C),
        "refused 2 9 0",
        &[
            "Word 45 of plan.lin, the first statement in the row of p2's exit, vertex 6, is 1; it \
             must be above 1, the first of the procedure before, and at most 4.",
            "Word 47 of plan.lin, F, the parameters, of which there are at most L, in the row of \
             p2's exit, vertex 6, is 2; it must be 0 to 1.",
        ],
    );
    assert_explained(
        &changed(PROGRAM_A, &[(9, 13)]),
        &words(CERTIFICATE_A),
        "refused 2 6 0",
        &[
            "Word 9 of plan.lin, the place in the pool of the row of main's exit, vertex 3, is 13; \
             it must be 0 to 12, so that the 3 words of the row lie in the pool of 15.",
        ],
    );
}

/// Refusal 3. The first statement of program A is at line 7 here, the second at line 1,000,000.
#[test]
fn statements() {
    let lines = [(10, 7), (16, 1_000_000)];
    let changed_a = |change| changed(PROGRAM_A, &[lines[0], lines[1], change]);
    for (program, vertex, line, phrase) in [
        (
            changed_a((4, 6)),
            1,
            7,
            "Word 4 of plan.lin, the kind of statement 1, is 6; it must be 1 to 5.",
        ),
        (
            changed_a((8, 11)),
            2,
            // The word at place 11 of the pool.
            1,
            "Word 8 of plan.lin, the place in the pool of the row of vertex 2 (an assertion), is 11; \
             it must be 0 to 9, so that the 6 words of the row lie in the pool of 15.",
        ),
        (
            changed_a((8, -1)),
            2,
            0,
            "Word 8 of plan.lin, the place in the pool of the row of vertex 2 (an assertion), is -1;",
        ),
        (
            changed_a((10, 1_000_001)),
            1,
            0,
            "Word 10 of plan.lin, the line of vertex 1, is 1000001; it must be 0 to 1,000,000.",
        ),
        (
            changed_a((16, -1)),
            2,
            0,
            "Word 16 of plan.lin, the line of vertex 2, is -1; it must be 0 to 1,000,000.",
        ),
        (
            changed_a((12, 1)),
            1,
            7,
            "Word 12 of plan.lin, the column that vertex 1 assigns to, is 1; it must be 0, for g0.",
        ),
        (
            changed_a((17, 4)),
            2,
            1_000_000,
            "Word 17 of plan.lin, the successor of vertex 2, is 4; it must be 1 to 2, or the exit 3: \
             a vertex of the same procedure.",
        ),
        (
            changed_a((18, 7)),
            2,
            1_000_000,
            "Word 18 of plan.lin, the operator of vertex 2, is 7; it must be 1 to 6.",
        ),
        (
            changed_a((21, -1_001)),
            2,
            1_000_000,
            "Word 21 of plan.lin, the coefficient of g0 in the condition of vertex 2, is -1001; it \
             must be within ±1,000.",
        ),
        (
            changed(PROGRAM_C, &[(17, 3)]),
            1,
            0,
            "Word 17 of plan.lin, the return point of vertex 1, is 3; it must be 1 to 2, or the exit \
             5: a vertex of the same procedure.",
        ),
        (
            changed(PROGRAM_C, &[(18, 3)]),
            1,
            0,
            "Word 18 of plan.lin, the procedure that vertex 1 calls, is 3; it must be 1 to 2.",
        ),
        (
            changed_a((20, 1_000_000)),
            2,
            1_000_000,
            "Word 20 of plan.lin, the low word of the constant of the condition of vertex 2, is \
             1000000; it must be 0 to 999,999.",
        ),
        (
            changed_a((14, -1)),
            1,
            7,
            "Word 14 of plan.lin, the low word of the constant of the expression of vertex 1, is -1; \
             it must be 0 to 999,999.",
        ),
        (
            changed_a((19, -4_002)),
            2,
            1_000_000,
            "Words 19 and 20 of plan.lin, the constant of the condition of vertex 2, are -4002 and \
             999400, which is -4001000600; it must be within ±4,000,000,000.",
        ),
        (
            changed(PROGRAM_C, &[(19, 4_000)]),
            1,
            0,
            "Words 19 and 20 of plan.lin, the constant of the expression for parameter l0 of vertex \
             1, are 4000 and 5, which is 4000000005; it must be within ±4,000,000,000.",
        ),
        (
            words("1 1 0 9 | 3 6 | 0 6 | 3 1 1 0 1 0 1 0 0"),
            1,
            3,
            "Word 12 of plan.lin, in the condition of vertex 1, whose operator is 0, a ?, is 1; it \
             must be 0.",
        ),
        (
            words("1 1 0 9 | 3 6 | 0 6 | 3 1 1 0 0 5 1 0 0"),
            1,
            3,
            "Word 13 of plan.lin, in the condition of vertex 1, whose operator is 0, a ?, is 5; it \
             must be 0.",
        ),
    ] {
        let refused = format!("refused 3 {} {line}", 3 + vertex);
        let mut phrases = vec![phrase];
        let said = format!("It is the statement at line {line} of the plan's text.\n");
        if line != 0 {
            phrases.insert(0, &said);
        }
        assert_explained(&program, &words(CERTIFICATE_A), &refused, &phrases);
        let (_, text) = explained(&program, &words(CERTIFICATE_A));
        assert_eq!(text.contains("of the plan's text"), line != 0, "{text}");
        let at = match line {
            0 => String::new(),
            _ => format!(" (line {line})"),
        };
        let wrong = format!("     {vertex}  (wrong: no statement){at}\n");
        assert!(text.contains(&wrong), "{text}");
    }
}

/// Lines of statements that are right, in the plan and at an entailment.
#[test]
fn lines() {
    let program = changed(PROGRAM_A, &[(10, 7), (16, 12)]);
    let certificate = changed(CERTIFICATE_A, &[(14, 999_400)]);
    let (_, text) = explained(&program, &certificate);
    for line in [
        "refused 7 21 0\n",
        "     1  g0 = 540, then 2 (line 7)\n     2  assert g0 - 600 < 0, then 3 (line 12)\n     3  exit\n",
        "from vertex 2 (line 12, assert g0 - 600 < 0), its disjunct 1,",
    ] {
        assert!(text.contains(line), "{line}\n{text}");
    }
}

/// Refusal 4.
#[test]
fn sizes_of_certificates_and_traces() {
    let program = words(PROGRAM_A);
    for (witness, phrase) in [
        (
            vec![5],
            "Word 0 of plan.wit, its mark, is 5; it must be 1 for a certificate, 4 for a sparse one or 3 \
             for a trace.",
        ),
        (
            vec![2, 2, 0, 1, 2, 0],
            "is 2; it must be 1 for a certificate, 4 for a sparse one or 3 for a trace.\n2 was the mark of \
             a trace before",
        ),
        (vec![1, 5], "plan.wit has 2 words; the first three of a certificate are 1, R and W."),
        (vec![3, 2], "plan.wit has 2 words; the first three"),
        (
            changed(CERTIFICATE_A, &[(2, -1)]),
            "Word 2 of plan.wit, W, the number of witness words, is -1; it must be at least 0.",
        ),
        (
            changed(CERTIFICATE_A, &[(1, 7)]),
            "plan.wit has 25 words; it must have 3 + 2 × 4 + 7 + 8 = 26:",
        ),
        (
            changed(TRACE_B, &[(1, 4_097)]),
            "Word 1 of plan.wit, N, the number of steps, is 4097; it must be 1 to 4,096.",
        ),
        (
            changed(TRACE_B, &[(1, 3)]),
            "plan.wit has 7 words; it must have 3 + 1 + 3 + 1 + 0 = 8:",
        ),
        (
            changed(TRACE_B, &[(2, 32_769)]),
            "Word 2 of plan.wit, E, the number of entry values, is 32769; it must be 0 to 32,768.",
        ),
        (
            changed(TRACE_B, &[(2, 5)]),
            "plan.wit has 7 words; it must have 3 + 1 + 2 + 1 + 5 = 12:",
        ),
    ] {
        assert_explained(&program, &witness, "refused 4 0 0", &[phrase]);
    }
}

/// Refusal 5.
#[test]
fn entries() {
    for (changes, refused, phrases) in [
        (
            [(4, 9)],
            "refused 5 4 0",
            [
                "the entry of vertex 2.",
                "Word 4 of plan.wit, how many disjuncts vertex 2 has, is 9; it must be 0 to 8.",
            ],
        ),
        (
            [(10, 6)],
            "refused 5 6 0",
            [
                "the entry of the summary of main.",
                "Word 10 of plan.wit, the place in the row words of the disjuncts of the summary of \
                 main, is 6; it must be 0 to 5",
            ],
        ),
        (
            [(12, 2)],
            "refused 5 4 0",
            [
                "the entry of vertex 2.",
                "Word 12 of plan.wit says that disjunct 1 of vertex 2 has 2 rows, of 4 words each: it \
                 would end at word 20, and the row words end at word 16.",
            ],
        ),
        (
            [(15, 1_001)],
            "refused 5 4 0",
            [
                "the entry of vertex 2.",
                "Word 15 of plan.wit, the coefficient of g0@entry in row 1 of disjunct 1 of vertex 2, \
                 is 1001; it must be within ±1,000.",
            ],
        ),
        (
            [(14, 1_000_000)],
            "refused 5 4 0",
            [
                "the entry of vertex 2.",
                "Word 14 of plan.wit, the low word of the constant of row 1 of disjunct 1 of vertex 2, \
                 is 1000000; it must be 0 to 999,999.",
            ],
        ),
        (
            [(13, 4_000)],
            "refused 5 4 0",
            [
                "the entry of vertex 2.",
                "Words 13 and 14 of plan.wit, the constant of row 1 of disjunct 1 of vertex 2, are 4000 \
                 and 999460, which is 4000999460; it must be within ±4,000,000,000.",
            ],
        ),
        (
            [(4, 2)],
            "refused 5 4 0",
            [
                "the entry of vertex 2.",
                "The row words end at word 16 of plan.wit, before disjunct 2 of vertex 2.",
            ],
        ),
    ] {
        let certificate = changed(CERTIFICATE_A, &changes);
        assert_explained(&words(PROGRAM_A), &certificate, refused, &phrases);
    }
}

/// Refusal 15.
#[test]
fn constant_rows() {
    assert_explained(
        &words(PROGRAM_A),
        &changed(CERTIFICATE_A, &[(16, 0)]),
        "refused 15 4 0",
        &[
            "the entry of vertex 2.",
            "Words 13 to 16 of plan.wit, row 1 of disjunct 1 of vertex 2, are -1 999460 0 0:",
        ],
    );
    assert_explained(
        &words(PROGRAM_S),
        &words("1 3 3 | 0 1 0 | 0 0 0 | 1 0 5 | 1 1 1"),
        "refused 15 4 0",
        &[
            "the entry of vertex 2.",
            "Words 10 to 11 of plan.wit, row 1 of disjunct 1 of vertex 2, are 0 5:",
        ],
    );
}

/// Asserts the first line of the explanation, and all of its last part below the heading.
fn assert_why(program: &str, witness: &[i32], expected: &str, why: &str) {
    let (_, text) = explained(&words(program), witness);
    assert_eq!(text.lines().next(), Some(expected), "{text}");
    let (_, said) = text.split_once("WHY IT IS REFUSED\n").expect("a refusal");
    assert_eq!(said, why);
}

/// Certificate A in sparse form: row words from 11 on, witness words from 20 on.
const SPARSE_A: &str =
    "4 9 8 | 1 1 1 1 | 0 1 7 8 | 0 | 1 -1 999460 1 1 1 | 0 | 0 | 1 1 1 1 0 1 1 1";

/// The same where the row of vertex 2 has both columns, and nothing can be shown from it.
const BOTH_COLUMNS: &str =
    "4 11 8 | 1 1 1 1 | 0 1 9 10 | 0 | 1 -1 999460 2 0 1 3 1 | 0 | 0 | 1 1 1 1 0 1 1 1";

/// Certificate S in sparse form. Its second and third entries are empty.
const SPARSE_S: &str = "4 1 2 | 1 0 0 | 0 1 1 | 0 | 1 1";

/// What is said of an accepted certificate is the same in both forms, but for the heading.
#[test]
fn sparse_certificates() {
    let (answer, text) = explained(&words(PROGRAM_A), &words(SPARSE_A));
    assert_eq!(answer, Answer::Safe(5));
    let edges = "\nTHE CERTIFICATE, WITH SPARSE ROWS\nPath edges: what is to hold whenever a run is at \
                 the vertex. x@entry is x when the procedure was entered. Of several disjuncts (1), (2), \
                 .. one is to hold.\n     1  true\n     2  g0 - 540 ≤ 0\n     3  true\n\nSummary edges: \
                 what is to hold at the exit of a call. x@exit is x there.\n  main  true\n\nWHY IT IS SAFE\n";
    assert!(text.contains(edges), "{text}");
    let random = &mut Random::new(63);
    for _ in 0..500 {
        let dense = sparse::accepted(random);
        let sparse = Parts::of(&dense).pair(&dense.program, Form::Sparse);
        let [dense, sparse] = [dense, sparse].map(|pair| explained(&pair.program, &pair.witness).1);
        let heading = "\nTHE CERTIFICATE, WITH SPARSE ROWS\n";
        assert_eq!(dense.replace("\nTHE CERTIFICATE\n", heading), sparse);
    }
}

/// Refusal 4 of a sparse certificate.
#[test]
fn sizes_of_sparse_certificates() {
    for (witness, why) in [
        (
            vec![4, 5],
            "plan.wit has 2 words; the first three of a certificate are 4, R and W.",
        ),
        (
            changed(SPARSE_A, &[(1, -1)]),
            "Word 1 of plan.wit, R, the number of row words, is -1; it must be at least 0.",
        ),
        (
            changed(SPARSE_A, &[(2, -1)]),
            "Word 2 of plan.wit, W, the number of witness words, is -1; it must be at least 0.",
        ),
        (
            changed(SPARSE_A, &[(1, 7)]),
            "plan.wit has 28 words; it must have 3 + 2 × 4 + 7 + 8 = 26: the mark and the sizes, a count \
             and a place for each vertex and each summary, R row words and W witness words.",
        ),
    ] {
        let why = format!(
            "Number 4, at 0: plan.wit, its mark, its sizes or the total of its words.\n{why}\n"
        );
        assert_why(PROGRAM_A, &witness, "refused 4 0 0", &why);
    }
    let (_, text) = explained(&words(PROGRAM_A), &[4, 5]);
    let unread = "\nTHE CERTIFICATE, WITH SPARSE ROWS\nIt can't be read from the words of plan.wit; see below.\n";
    assert!(text.contains(unread), "{text}");
}

/// Asserts what is said of an entry that is refused with this number, with its count word at the place.
fn assert_entry(program: &str, certificate: &[i32], number: u64, place: usize, faults: &[&str]) {
    let test = match number {
        5 => "an entry of the certificate",
        15 => "a constant row in an entry of the certificate",
        _ => {
            "a column, a coefficient or a place of a sparse certificate, or a row word that is left"
        }
    };
    let refused = format!("refused {number} {place} 0");
    let why = format!(
        "Number {number}, at {place}: {test}.\nIt is the entry of {}\n",
        faults.join("\n")
    );
    assert_why(program, certificate, &refused, &why);
}

/// Refusal 5 of a sparse certificate.
#[test]
fn sparse_entries() {
    for (change, place, faults) in [
        (
            (4, 9),
            4,
            &[
                "vertex 2.",
                "Word 4 of plan.wit, how many disjuncts vertex 2 has, is 9; it must be 0 to 8.",
            ][..],
        ),
        (
            (12, 33),
            4,
            &[
                "vertex 2.",
                "Word 12 of plan.wit, how many rows disjunct 1 of vertex 2 has, is 33; it must be 0 to \
                 32.",
            ],
        ),
        (
            (13, 4_000),
            4,
            &[
                "vertex 2.",
                "Words 13 and 14 of plan.wit, the constant of row 1 of disjunct 1 of vertex 2, are 4000 \
                 and 999460, which is 4000999460; it must be within ±4,000,000,000.",
            ],
        ),
        (
            (14, 1_000_000),
            4,
            &[
                "vertex 2.",
                "Word 14 of plan.wit, the low word of the constant of row 1 of disjunct 1 of vertex 2, is \
                 1000000; it must be 0 to 999,999.",
            ],
        ),
        (
            (15, 3),
            4,
            &[
                "vertex 2.",
                "Word 15 of plan.wit, how many coefficients row 1 of disjunct 1 of vertex 2 has, is 3; it \
                 must be 0 to 2.",
            ],
        ),
        (
            (15, -1),
            4,
            &[
                "vertex 2.",
                "Word 15 of plan.wit, how many coefficients row 1 of disjunct 1 of vertex 2 has, is -1; \
                 it must be 0 to 2.",
            ],
        ),
        (
            (16, 2),
            4,
            &[
                "vertex 2.",
                "Word 16 of plan.wit, a column of row 1 of disjunct 1 of vertex 2, is 2; it must be 0 to \
                 1, for g0@entry to g0.",
            ],
        ),
        (
            (16, -1),
            4,
            &[
                "vertex 2.",
                "Word 16 of plan.wit, a column of row 1 of disjunct 1 of vertex 2, is -1; it must be 0 to \
                 1, for g0@entry to g0.",
            ],
        ),
        (
            (17, 1_001),
            4,
            &[
                "vertex 2.",
                "Word 17 of plan.wit, the coefficient of g0 in row 1 of disjunct 1 of vertex 2, is 1001; \
                 it must be within ±1,000.",
            ],
        ),
        (
            (10, 9),
            6,
            &[
                "the summary of main.",
                "Word 10 of plan.wit, the place in the row words of the disjuncts of the summary of main, \
                 is 9; it must be 8, the next free one.",
            ],
        ),
        (
            (8, -1),
            4,
            &[
                "vertex 2.",
                "Word 8 of plan.wit, the place in the row words of the disjuncts of vertex 2, is -1; it \
                 must be 1, the next free one.",
            ],
        ),
    ] {
        assert_entry(PROGRAM_A, &changed(SPARSE_A, &[change]), 5, place, faults);
    }
    // All words of the row are named that are out of range, and no other.
    assert_entry(
        PROGRAM_A,
        &changed(BOTH_COLUMNS, &[(16, 1), (17, 2), (18, 0), (19, -1_001)]),
        5,
        4,
        &[
            "vertex 2.",
            "Word 17 of plan.wit, a column of row 1 of disjunct 1 of vertex 2, is 2; it must be 0 to 1, \
             for g0@entry to g0.",
            "Word 19 of plan.wit, a coefficient of row 1 of disjunct 1 of vertex 2, is -1001; it must be \
             within ±1,000.",
        ],
    );
    // The one column of p2's summary is its parameter, and main's has none.
    let program = "2 2 0 13 | 5 1 6 6 | 0 5 7 10 | 0 3 2 0 5 0 2 1 0 0 2 1 1";
    let certificate = "4 7 0 | 0 0 0 0 0 1 | 0 0 0 0 0 0 | 1 0 0 1 1 1 0 |";
    assert_entry(
        program,
        &words(certificate),
        5,
        8,
        &[
            "the summary of p2.",
            "Word 19 of plan.wit, a column of row 1 of disjunct 1 of the summary of p2, is 1; it must be \
             0, for l0@entry.",
        ],
    );
    let certificate = "4 7 0 | 0 0 0 0 1 0 | 0 0 0 0 0 7 | 1 0 0 1 0 1 0 |";
    assert_entry(
        program,
        &words(certificate),
        5,
        7,
        &[
            "the summary of main.",
            "Word 18 of plan.wit, how many coefficients row 1 of disjunct 1 of the summary of main has, is \
             1; it must be 0.",
        ],
    );
}

/// Refusal 5 where the row words of a sparse certificate end too early.
#[test]
fn sparse_entries_past_the_row_words() {
    assert_entry(
        PROGRAM_A,
        &changed(SPARSE_A, &[(6, 2)]),
        5,
        6,
        &[
            "the summary of main.",
            "The row words end at word 19 of plan.wit, before disjunct 2 of the summary of main.",
        ],
    );
    assert_entry(
        PROGRAM_A,
        &changed(SPARSE_A, &[(12, 2)]),
        5,
        4,
        &[
            "vertex 2.",
            "The row words end at word 19 of plan.wit, before the count of row 2 of disjunct 1 of vertex \
             2.",
        ],
    );
    assert_entry(
        PROGRAM_A,
        &words("4 6 8 | 1 1 0 0 | 0 1 6 6 | 0 | 1 -1 999460 1 1 | 1 1 1 1 0 1 1 1"),
        5,
        4,
        &[
            "vertex 2.",
            "Word 15 of plan.wit says that row 1 of disjunct 1 of vertex 2 has 1 column and 1 coefficient: \
             it would end at word 17, and the row words end at word 16.",
        ],
    );
    // The place of vertex 3 is wrong too, and so what is read isn't its own.
    assert_entry(
        PROGRAM_A,
        &changed(SPARSE_A, &[(9, 6)]),
        5,
        5,
        &[
            "vertex 3.",
            "The row words end at word 19 of plan.wit, before the count of row 1 of disjunct 1 of vertex \
             3.",
            "Word 9 of plan.wit, the place in the row words of the disjuncts of vertex 3, is 6; it must be \
             7, the next free one.",
        ],
    );
    // At the next free place there are no words.
    assert_entry(
        PROGRAM_S,
        &changed(SPARSE_S, &[(4, 1)]),
        5,
        4,
        &[
            "vertex 2.",
            "The row words end at word 9 of plan.wit, before disjunct 1 of vertex 2.",
        ],
    );
    assert_entry(
        PROGRAM_S,
        &words("4 0 2 | 1 0 0 | 0 0 0 | | 1 1"),
        5,
        3,
        &[
            "vertex 1.",
            "There are no row words, and so no disjunct 1 of vertex 1.",
        ],
    );
}

/// Refusal 25 at an entry.
#[test]
fn sparse_order() {
    for (changes, faults) in [
        (
            &[(16, 1), (17, 0)][..],
            &[
                "Word 17 of plan.wit, the column of g0@entry in row 1 of disjunct 1 of vertex 2, is 0; it \
                 must be above 1, the one before it: columns rise.",
            ][..],
        ),
        (
            &[(16, 1)],
            &[
                "Word 17 of plan.wit, the column of g0 in row 1 of disjunct 1 of vertex 2, is 1; it must \
                 be above 1, the one before it: no column comes twice.",
            ],
        ),
        (
            &[(18, 0)],
            &[
                "Word 18 of plan.wit, the coefficient of g0@entry in row 1 of disjunct 1 of vertex 2, is \
                 0; it must be another number, or left out with its column.",
            ],
        ),
        (
            &[(16, 1), (17, 0), (19, 0)],
            &[
                "Word 17 of plan.wit, the column of g0@entry in row 1 of disjunct 1 of vertex 2, is 0; it \
                 must be above 1, the one before it: columns rise.",
                "Word 19 of plan.wit, the coefficient of g0@entry in row 1 of disjunct 1 of vertex 2, is \
                 0; it must be another number, or left out with its column.",
            ],
        ),
    ] {
        let faults = [&["vertex 2."], faults].concat();
        assert_entry(PROGRAM_A, &changed(BOTH_COLUMNS, changes), 25, 4, &faults);
    }
    // Row 2 of disjunct 2, with a column of row 1 above it.
    let certificate =
        "4 17 8 | 1 2 1 1 | 0 1 15 16 | 0 | 0 2 0 0 1 1 1 0 0 2 1 1 1 5 | 0 | 0 | 1 1 1 1 0 1 1 1";
    assert_entry(
        PROGRAM_A,
        &words(certificate),
        25,
        4,
        &[
            "vertex 2.",
            "Word 23 of plan.wit, the column of g0 in row 2 of disjunct 2 of vertex 2, is 1; it must be \
             above 1, the one before it: no column comes twice.",
        ],
    );
}

/// Refusal 25 by a place.
#[test]
fn sparse_places() {
    for (program, certificate, change, place, faults) in [
        (
            PROGRAM_A,
            SPARSE_A,
            (9, 8),
            5,
            [
                "vertex 3.",
                "Word 9 of plan.wit, the place in the row words of the disjuncts of vertex 3, is 8; it must \
                 be 7, the next free one.",
            ],
        ),
        (
            PROGRAM_A,
            SPARSE_A,
            (7, 1),
            3,
            [
                "vertex 1.",
                "Word 7 of plan.wit, the place in the row words of the disjuncts of vertex 1, is 1; it must \
                 be 0, the next free one.",
            ],
        ),
        (
            PROGRAM_S,
            SPARSE_S,
            (7, 0),
            4,
            [
                "vertex 2.",
                "Word 7 of plan.wit, the place of vertex 2, which has no disjuncts, is 0; it must be 1, the \
                 next free one, as for any other entry.",
            ],
        ),
        (
            PROGRAM_S,
            SPARSE_S,
            (8, -1),
            5,
            [
                "the summary of main.",
                "Word 8 of plan.wit, the place of the summary of main, which has no disjuncts, is -1; it \
                 must be 1, the next free one, as for any other entry.",
            ],
        ),
    ] {
        assert_entry(program, &changed(certificate, &[change]), 25, place, &faults);
    }
}

/// Refusal 25 at R.
#[test]
fn row_words_that_are_left() {
    for (program, certificate, fault) in [
        (
            PROGRAM_A,
            changed(SPARSE_A, &[(6, 0)]),
            "The entries take 8 row words, and R, word 1, says that there are 9: word 19 of plan.wit, which \
             is 0, is the first that no entry takes, 1 too many.",
        ),
        (
            PROGRAM_S,
            words("4 3 2 | 1 0 0 | 0 1 1 | 0 7 8 | 1 1"),
            "The entries take 1 row word, and R, word 1, says that there are 3: word 10 of plan.wit, which \
             is 7, is the first that no entry takes, 2 too many.",
        ),
        (
            PROGRAM_S,
            words("4 1 0 | 0 0 0 | 0 0 0 | -3 |"),
            "The entries take 0 row words, and R, word 1, says that there are 1: word 9 of plan.wit, which \
             is -3, is the first that no entry takes, 1 too many.",
        ),
    ] {
        let why = format!(
            "Number 25, at 1: a column, a coefficient or a place of a sparse certificate, or a row word \
             that is left.\n{fault} A sparse certificate has none.\n"
        );
        assert_why(program, &certificate, "refused 25 1 0", &why);
    }
}

/// Refusal 15 of a sparse certificate.
#[test]
fn sparse_constant_rows() {
    assert_entry(
        PROGRAM_A,
        &words("4 7 8 | 1 1 1 1 | 0 1 5 6 | 0 | 1 -1 999460 0 | 0 | 0 | 1 1 1 1 0 1 1 1"),
        15,
        4,
        &[
            "vertex 2.",
            "Words 13 to 15 of plan.wit, row 1 of disjunct 1 of vertex 2, are -1 999460 0: a constant, and \
             no coefficients; there must be one at least.",
        ],
    );
    assert_entry(
        PROGRAM_S,
        &words("4 4 2 | 1 0 0 | 0 4 4 | 1 0 5 0 | 1 1"),
        15,
        3,
        &[
            "vertex 1.",
            "Words 10 to 12 of plan.wit, row 1 of disjunct 1 of vertex 1, are 0 5 0: a constant alone, for \
             there are no variables; such a row must not be there.",
        ],
    );
}

/// Refusals 6, 7 and 8 of a sparse certificate.
#[test]
fn sparse_witnesses() {
    let entailment = "It is entailment 4 of 5: from vertex 2 (assert g0 - 600 < 0), its disjunct 1, where \
                      the assertion fails: g0 - 600 ≥ 0.\nIt leads to vertex 0, a failed assertion; it must \
                      be impossible.\nThe premises:\n";
    let hint = "If these words look like those of another entailment, an earlier witness may be a word too \
                long or too short.\n";
    let why = format!(
        "Number 6, at 24: a witness word is missing or beyond its range.\n{entailment}     1  g0 - 540 ≤ 0, \
         row 1 of disjunct 1 of vertex 2\n     2  -g0 + 600 ≤ 0, because g0 - 600 ≥ 0 here\nThe first word \
         of the witness, 0, is for premises that contradict each other, so that 2 words must follow \
         it.\nWord 26 of plan.wit, the multiplier of premise 2, is -1; it must be 0 to 1,000.\n{hint}"
    );
    let witness = changed(SPARSE_A, &[(26, -1)]);
    assert_why(PROGRAM_A, &witness, "refused 6 24 0", &why);
    let why = format!(
        "Number 7, at 24: a weighted sum doesn't fit.\n{entailment}     1  g0 - 600 ≤ 0, row 1 of disjunct 1 \
         of vertex 2\n     2  -g0 + 600 ≤ 0, because g0 - 600 ≥ 0 here\nThe witness is words 24 to 26 of \
         plan.wit: 0 1 1\nIts first word, 0, says that the premises contradict each other.\nThe multipliers: \
         1 × premise 1 + 1 × premise 2\nThe sum reached: 0\nThe sum needed: a constant of at least 1, and no \
         variables\nThe constant is 0 and must be at least 1.\n{hint}"
    );
    let witness = changed(SPARSE_A, &[(14, 999_400)]);
    assert_why(PROGRAM_A, &witness, "refused 7 24 0", &why);
    let mut witness = changed(SPARSE_A, &[(2, 10)]);
    witness.extend([7, 8]);
    let why = "Number 8, at 28: words are left after the last entailment.\nThe certificate has 5 entailments \
               to show, and the last of their witnesses ends before word 28 of plan.wit, which is 7. W, word \
               2, says that there are 10 witness words: 2 words too many.\nThe certificate may be one for \
               another version of the plan, or an earlier witness may be a word too short.\n";
    assert_why(PROGRAM_A, &witness, "refused 8 28 0", why);
}

/// Each answer to sparse certificates, good and damaged, has an explanation.
#[test]
fn every_answer_to_sparse_certificates_is_explained() {
    let mut refused = Refused::default();
    for pair in sparse::pairs(64).take(30_000) {
        if pair.witness.first() != Some(&Form::Sparse.mark()) {
            continue;
        }
        let (answer, text) = explained(&pair.program, &pair.witness);
        assert!(!text.contains(UNEXPLAINED), "{pair:?}\n{text}");
        if let Answer::Refused { number, .. } = answer {
            refused.add(number, 1);
        }
    }
    println!("explained, of sparse certificates: refused {refused}");
    assert!(refused.all([1, 2, 3, 4, 5, 6, 7, 8, 15, 25], 20));
}

/// Refusal 6.
#[test]
fn witness_words() {
    let (program, program_c) = (words(PROGRAM_A), words(PROGRAM_C));
    assert_explained(
        &program,
        &changed(CERTIFICATE_A, &[(23, 1_001)]),
        "refused 6 21 0",
        &[
            "entailment 4 of 5: from vertex 2 (assert g0 - 600 < 0), its disjunct 1, where the \
             assertion fails: g0 - 600 ≥ 0.",
            "Word 23 of plan.wit, the multiplier of premise 2, is 1001; it must be 0 to 1,000.",
        ],
    );
    assert_explained(
        &program,
        &changed(CERTIFICATE_A, &[(19, 0)]),
        "refused 6 18 0",
        &["Word 19 of plan.wit, the divisor for row 1, is 0; it must be 1 to 1,000."],
    );
    assert_explained(
        &program,
        &changed(CERTIFICATE_A, &[(21, 1)]),
        "refused 6 21 0",
        &["Word 21 of plan.wit, the first of the witness, is 1; it must be 0, for vertex 0 has no"],
    );
    assert_explained(
        &program_c,
        &changed(CERTIFICATE_C, &[(75, -1)]),
        "refused 6 70 0",
        &[
            "entailment 3 of 10: from vertex 1 (call p2(5)), its disjunct 1, where the call returns \
             by disjunct 1 of p2's summary.",
            "that 6 words must follow it.",
            "Word 75 of plan.wit, the multiplier of premise 1 for row 2, is -1; it must be 0 to 1,000.",
        ],
    );
    let mut short = changed(CERTIFICATE_A, &[(2, 7)]);
    short.pop();
    assert_explained(
        &program,
        &short,
        "refused 6 24 0",
        &[
            "entailment 5 of 5: from vertex 3 (exit)",
            "plan.wit ends before word 24, where the witness would begin.",
        ],
    );
    short[2] = 5;
    short.truncate(22);
    assert_explained(
        &program,
        &short,
        "refused 6 21 0",
        &[
            "so that 2 words must follow it.",
            "plan.wit ends before word 22, the multiplier of premise 1.",
        ],
    );
}

/// Refusal 7, at each kind of step.
#[test]
fn weighted_sums() {
    // A contradiction without premises, in place of a disjunct, a divisor and one more divisor.
    let mut no_premises = changed(CERTIFICATE_C, &[(2, 40), (67, 0)]);
    no_premises.drain(68..70);
    let changed = |place, word| changed(CERTIFICATE_C, &[(place, word)]);
    for (certificate, refused, phrases) in [
        (
            no_premises,
            "refused 7 67 0",
            [
                "entailment 2 of 10: from vertex 1 (call p2(5)), its disjunct 1, where the call begins.",
                "leads to vertex 3, which has 1 disjunct.",
                "There are no premises.",
                "The sum needed: a constant of at least 1, and no variables",
                "The constant is 0 and must be at least 1.",
            ],
        ),
        (
            changed(72, 2),
            "refused 7 70 0",
            [
                "entailment 3 of 10: from vertex 1 (call p2(5)), its disjunct 1, where the call \
                 returns by disjunct 1 of p2's summary.",
                "     1  g0@return - 5 ≤ 0, row 1 of p2's summary, put in for this call",
                "Row 1 of it doesn't follow as the witness says:\n        g0 - 5 ≤ 0\nOver the \
                 premises' columns this is:\n        g0@return - 5 ≤ 0\nThe divisor: 1\nThe \
                 multipliers: 2 × premise 1\n",
                "The sum reached: 2*g0@return - 10\nThe sum needed: g0@return, and a constant of at \
                 least -5\n",
                "The coefficient of g0@return is 2 and must be 1.\nThe constant is -10 and must be at \
                 least -5.",
            ],
        ),
        (
            changed(81, 0),
            "refused 7 78 0",
            [
                "entailment 5 of 10: from vertex 2 (assert g0 - 5 = 0), its disjunct 1, where the \
                 assertion fails: g0 - 5 < 0.",
                "leads to vertex 0, a failed assertion; it must be impossible.",
                "     2  -g0 + 5 ≤ 0, row 2 of disjunct 1 of vertex 2\n     3  g0 - 4 ≤ 0, because \
                 g0 - 5 < 0 here\n",
                "The multipliers: 1 × premise 2\nThe sum reached: -g0 + 5\n",
                "The coefficient of g0 is -1 and must be 0.",
            ],
        ),
        (
            changed(85, 2),
            "refused 7 82 0",
            [
                "entailment 6 of 10: from vertex 2",
                "where the assertion fails: g0 - 5 > 0.",
                "     3  -g0 + 6 ≤ 0, because g0 - 5 > 0 here",
                "1 × premise 1 + 2 × premise 3\nThe sum reached: -g0 + 7\n",
                "The coefficient of g0 is -1 and must be 0.",
            ],
        ),
        (
            changed(92, 0),
            "refused 7 86 0",
            [
                "entailment 7 of 10: from vertex 3 (g0 = l0), its disjunct 1, the step.",
                "leads to vertex 4, which has 1 disjunct.",
                "     1  -l0@entry + l0 ≤ 0, row 1 of disjunct 1 of vertex 3",
                "Row 2 of it doesn't follow as the witness says:\n        l0@entry - g0 ≤ 0\nOver the \
                 premises' columns this is:\n        l0@entry - l0 ≤ 0\n",
                "The coefficient of l0@entry is 0 and must be 1.\nThe coefficient of l0 is 0 and must \
                 be -1.\n",
            ],
        ),
        (
            changed(103, 0),
            "refused 7 101 0",
            [
                "entailment 10 of 10: from vertex 6 (exit), its disjunct 1, where the procedure ends.",
                "leads to the summary of p2, which has 1 disjunct.",
                "Row 1 of it doesn't follow as the witness says:\n        -l0@entry + g0@exit ≤ 0\n\
                 Over the premises' columns this is:\n        -l0@entry + g0 ≤ 0\n",
                "The multipliers: all 0\nThe sum reached: 0\n",
                "The coefficient of l0@entry is 0 and must be -1.",
            ],
        ),
    ] {
        assert_explained(&words(PROGRAM_C), &certificate, refused, &phrases);
    }
}

/// Refusal 7 at a `?`, and for a row that only rounding could give.
#[test]
fn weighted_sums_of_other_statements() {
    // One global; a ? whose sides both lead to the exit, where the certificate claims g0 ≤ 0.
    let program = words("1 1 1 10 | 3 6 | 0 7 | 0 2 2 0 0 0 0 1 0 0");
    let certificate = words("1 6 7 | 1 1 1 | 0 1 0 | 0 1 0 0 0 1 | 1 1 1 1 1 1 1");
    assert_explained(
        &program,
        &certificate,
        "refused 7 16 0",
        &["from vertex 1 (if ?), its disjunct 1, where ? is taken as true."],
    );
    // A branch on 2 g0 - 3 ≤ 0, after which the certificate claims g0 ≤ 0, where 1 is possible.
    let program = words("1 1 1 10 | 3 6 | 0 7 | 0 2 2 3 -1 999997 2 1 0 0");
    let certificate = words("1 6 7 | 1 1 1 | 0 1 0 | 0 1 0 0 0 1 | 1 1 2 1 0 0 1");
    assert_explained(
        &program,
        &certificate,
        "refused 7 16 0",
        &[
            "from vertex 1 (if 2*g0 - 3 ≤ 0), its disjunct 1, where the condition holds: 2*g0 - 3 ≤ 0.",
            "The divisor: 2\nThe multipliers: 1 × premise 1\nThe sum reached: 2*g0 - 3\nThe sum \
             needed: 2*g0, and a constant of at least -1\nThe constant is -3 and must be at least -1.",
        ],
    );
}

/// Refusal 7 at the start and where a call begins, for what other locals hold there.
#[test]
fn weighted_sums_of_other_locals() {
    assert_explained(
        &words("1 1 0 5 | 1 6 | 0 2 | 0 1 1 1 0"),
        &words("1 5 5 | 1 0 0 | 0 0 0 | 1 0 0 1 0 | 1 1 1 1 1"),
        "refused 7 14 0",
        &[
            "entailment 1 of 2: from a run's start, where globals and all of main's locals may be \
             anything.\n",
            "There are no premises.",
            "Over the premises' columns this is:\n        l0 ≤ 0\n",
            "The coefficient of l0 is 0 and must be 1.",
        ],
    );
    // Main has a local of its own, and calls p2(l0), whose other local is l1.
    assert_explained(
        &words("2 2 0 14 | 5 1 6 6 | 0 6 8 11 | 0 3 2 0 0 1 0 2 1 1 1 2 2 1"),
        &words("1 8 6 | 1 1 0 0 0 0 | 0 1 0 0 0 0 | 0 1 0 0 0 0 0 1 | 1 1 1 1 1 1"),
        "refused 7 24 0",
        &[
            "entailment 2 of 3: from vertex 1 (call p2(l0)), its disjunct 1, where the call begins.\n",
            "x is x at the call here, and x@callee is x of p2 where the call begins; l1@callee may be \
             anything.\n",
            "        l1 ≤ 0\nOver the premises' columns this is:\n        l1@callee ≤ 0\n",
            "The coefficient of l1@callee is 0 and must be 1.",
        ],
    );
}

/// One skip that is its own successor, and a global. Vertex 1 has the disjuncts g0 ≤ 0 and g0 ≥ 1,
/// and the start shows it with these words from word 19 on.
fn tree(words: &str) -> [Vec<i32>; 2] {
    let count = words.split_whitespace().count() + 6;
    let certificate =
        format!("1 10 {count} | 2 0 0 | 0 0 0 | 1 0 0 0 1 1 0 1 0 -1 | {words} | 1 1 1 2 1 1");
    ["1 1 1 5 | 1 6 | 0 2 | 0 1 1 0 0", &certificate].map(common::words)
}

/// Refusal 6 in a tree.
#[test]
fn words_of_trees() {
    let nine = "-1 0 0 1 ".repeat(9);
    for (words, phrases) in [
        (
            "-2 0 0 1 1 1 1 2 1 1",
            &["Word 19 of plan.wit, the first of the witness, is -2; it must be 0, or 1 to 2 for a \
               disjunct of vertex 1, or -1 for a split.\n"][..],
        ),
        (
            "-1 -4001 999999 1 1 1 1 2 1 1",
            &["Words 20 and 21 of plan.wit, the constant of the row of the split at word 19, are -4001 \
               and 999999, which is -4000000001; it must be within ±4,000,000,000.\n"],
        ),
        (
            "-1 4000 1 1 1 1 1 2 1 1",
            &["are 4000 and 1, which is 4000000001; it must be within ±4,000,000,000.\n"],
        ),
        (
            "-1 0 -1 1 1 1 1 2 1 1",
            &["Word 21 of plan.wit, the low word of the constant of the row of the split at word 19, is \
               -1; it must be 0 to 999,999.\n"],
        ),
        (
            "-1 0 0 1001 1 1 1 2 1 1",
            &["Word 22 of plan.wit, the coefficient of g0 in the row of the split at word 19, is 1001; \
               it must be within ±1,000.\n"],
        ),
        (
            "-1 0 0 1 1 1 1 3 1 1",
            &["Word 26 of plan.wit, the first of the witness on the second side of the split at word \
               19, is 3; it must be 0, or 1 to 2 for a disjunct of vertex 1, or -1 for a split.\n"],
        ),
        (
            "-1 0 0 1 1 1 1 -1 1700 5 1 2 1 1 -1 2 1 1 1",
            &[
                "Word 30 begins a leaf on the first side of the split at word 26.\nThe splits above \
                 the leaf add premises:\n     1  -g0 + 1 ≤ 0, the second side of the split at word \
                 19\n     2  g0 + 1700000005 ≤ 0, the first side of the split at word 26\nIts first word, 2, is \
                 for disjunct 2 of vertex 1, so that 3 words must follow it.\n",
                "Word 33 of plan.wit, the multiplier of premise 2 for row 1, is -1; it must be 0 to \
                 1,000.\n",
            ],
        ),
        (
            &nine,
            &["Word 51 of plan.wit, the first of the witness on the first side of the split at word \
               47, is -1, a split below 8 others, which is one too many; it must be 0, or 1 to 2 for a \
               disjunct of vertex 1.\n"],
        ),
    ] {
        let [program, certificate] = tree(words);
        assert_explained(&program, &certificate, "refused 6 19 0", phrases);
    }
    // The words end in a row, and before a witness.
    let [program, certificate] = tree("");
    for (words, phrase) in [
        (&[-1][..], "plan.wit ends before word 20, the high word of the constant of the row of the split"),
        (&[-1, 0], "plan.wit ends before word 21, the low word of the constant of the row of the split"),
        (&[-1, 0, 0], "plan.wit ends before word 22, the coefficient of g0 in the row of the split"),
        (
            &[-1, 0, 0, 1, 1, 1, 1],
            "plan.wit ends before word 26, where the witness on the second side of the split at word \
             19 would begin.\n",
        ),
    ] {
        let mut short = [&certificate[..19], words].concat();
        short[2] = words.len() as i32;
        assert_explained(&program, &short, "refused 6 19 0", &[phrase]);
    }
}

/// Refusal 7 in a tree, and what is said of trees that fit.
#[test]
fn sums_of_trees() {
    let [program, certificate] = tree("-1 0 0 1 -1 -1 999997 1 1 1 1 0 1 1 1 0 2 1 2");
    assert_explained(
        &program,
        &certificate,
        "refused 7 19 0",
        &[
            "The witness is words 19 to 37 of plan.wit, 2 splits and 3 leaves. The sums of leaf 3 don't \
             fit; it is words 35 to 37: 2 1 2\nThe splits above the leaf add premises:\n     1  -g0 + 1 \
             ≤ 0, the second side of the split at word 19\nIts first word, 2, says that disjunct 2 of \
             vertex 1 follows.",
            "The multipliers: 2 × premise 1\nThe sum reached: -2*g0 + 2\n",
            "The coefficient of g0 is -2 and must be -1.\n",
        ],
    );
    let [program, certificate] = tree("-1 0 0 1 2 1 1 1 1 1");
    let phrases = [
        "The sums of leaf 1 don't fit;",
        "The same goes for leaf 2.\n",
    ];
    assert_explained(&program, &certificate, "refused 7 19 0", &phrases);
    for (words, phrase) in [
        (
            "-1 0 0 1 1 1 1 2 1 1",
            "One of them is shown by cases, with 1 split.\n",
        ),
        (
            "-1 0 0 1 -1 -1 999997 1 1 1 1 0 1 1 1 0 2 1 1",
            "One of them is shown by cases, with 2 splits.\n",
        ),
    ] {
        let [program, certificate] = tree(words);
        assert_explained(&program, &certificate, "safe 3", &[phrase]);
    }
}

/// Refusal 8.
#[test]
fn words_that_are_left() {
    let mut certificate = changed(CERTIFICATE_A, &[(2, 10)]);
    certificate.extend([7, 8]);
    assert_explained(
        &words(PROGRAM_A),
        &certificate,
        "refused 8 25 0",
        &[
            "The certificate has 5 entailments to show",
            "before word 25 of plan.wit, which is 7.",
            "there are 10 witness words: 2 words too many.",
        ],
    );
}

/// Refusal 9.
#[test]
fn start_values_and_entry_values() {
    let program = words("1 1 1 5 | 1 6 | 0 2 | 0 2 1 1 1");
    assert_explained(
        &program,
        &words("3 1 0 5 1000000001 1 0"),
        "refused 9 4 0",
        &["Word 4 of plan.wit, the start value of l0, is 1000000001; it must be within ±1,000,000,000."],
    );
    assert_explained(
        &words(PROGRAM_D),
        &changed(TRACE_D, &[(11, -1_000_000_001)]),
        "refused 9 11 0",
        &["Word 11 of plan.wit, entry value 3 of 4, is -1000000001; it must be within ±1,000,000,000."],
    );
}

/// Two calls of p2, which has the other locals l0 and l1 and asserts l0 - l1 < 0; the second fails.
const PROGRAM_D: &str =
    "3 2 0 19 | 5 5 4 6 6 | 0 3 6 13 16 | 12 2 2 13 4 2 17 5 1 0 0 1 -1 1 0 0 3 2 0";
const TRACE_D: &str = "3 5 4 1 3 5 2 3 0 1 3 2 1";

#[test]
fn entry_values() {
    assert_explained(
        &words(PROGRAM_D),
        &words(TRACE_D),
        "trace 5 2 1",
        &[
            "     1  from 1 to 3: line 12, call p2(), l0 and l1 from words 9 to 10; now l0 = 1, l1 = 3\n",
            "     3  from 5 to 2: exit of p2; now no variables\n",
            "     4  from 2 to 3: line 13, call p2(), l0 and l1 from words 11 to 12; now l0 = 2, l1 = 1\n",
            "After 5 steps the assertion at vertex 3, line 17, has failed, with l0 = 2, l1 = 1.\n",
        ],
    );
    let (_, text) = explained(&words(PROGRAM_D), &words(TRACE_D));
    let signature = "p2(), procedure 2, begins at vertex 3; l0 and l1 hold any value at entry\n";
    assert!(text.contains(signature), "{text}");
    // A parameter and one other local.
    let program =
        words("2 2 1 20 | 5 4 6 6 | 0 6 14 17 | 0 3 2 0 5 1 0 4 1 -1 999400 1 0 0 1 0 0 2 2 1");
    let (_, text) = explained(&program, &words("3 2 1 700 1 2 0 4"));
    for line in [
        "p2(l0), procedure 2, begins at vertex 2; l0 is a parameter, l1 holds any value at entry\n",
        "     1  from 1 to 2: call p2(g0 + 5), l1 from word 7; now g0 = 700, l0 = 705, l1 = 4\n",
    ] {
        assert!(text.contains(line), "{line}\n{text}");
    }
}

/// Refusal 14 at a vertex.
#[test]
fn missing_entry_values() {
    for (trace, refused, left) in [
        ("3 5 2 1 3 5 2 3 0 1 3", "refused 14 7 0", "none is left"),
        (
            "3 5 3 1 3 5 2 3 0 1 3 2",
            "refused 14 7 0",
            "only 1 is left",
        ),
    ] {
        let fault = format!(
            "The trace lists vertex 3. The call takes 2 entry values, for l0 and l1 of p2, and {left} \
             of those behind the vertices.\n"
        );
        assert_explained(
            &words(PROGRAM_D),
            &words(trace),
            refused,
            &[
                "Number 14, at 7: an entry value of the trace is missing or left over.\n",
                "l0 and l1 from words 9 to 10; now l0 = 1, l1 = 3\n",
                "Step 4 of 5 is refused; its vertex is word 7 of plan.wit.\nBefore it: no variables; open \
                 calls: main.\nThe run stands at vertex 2 (line 13, call p2()) and goes on to vertex 3.\n",
                &fault,
            ],
        );
    }
    let (_, text) = explained(&words(PROGRAM_D), &words("3 5 2 1 3 5 2 3 0 1 3"));
    assert!(!text.contains("After a step"), "{text}");
}

/// Refusal 14 at an entry value.
#[test]
fn entry_values_that_are_left() {
    assert_explained(
        &words(PROGRAM_D),
        &words("3 5 6 1 3 5 2 3 0 1 3 2 1 8 9"),
        "refused 14 13 0",
        &[
            "     5  from 3 to 0: line 17, assert l0 - l1 < 0: 1 < 0 fails; now l0 = 2, l1 = 1\n",
            "The run gets to the end of the trace. Its calls take 4 entry values, and E, word 2, says \
             that there are 6: word 13 of plan.wit, which is 8, is the first that no call takes, 2 too \
             many.\n",
        ],
    );
    assert_explained(
        &words(PROGRAM_B),
        &words("3 2 1 0 1 2 0 5"),
        "refused 14 7 0",
        &[
            "Its calls take no entry values, and E, word 2, says that there are 1: word 7 of plan.wit, \
             which is 5, is the first that no call takes, 1 too many.\n",
        ],
    );
}

/// Refusal 10.
#[test]
fn steps() {
    assert_explained(
        &changed(PROGRAM_B, &[(14, 599), (16, 12)]),
        &words(TRACE_B),
        "refused 10 6 12",
        &[
            "or the last isn't 0.\nIt is the step from line 12 of the plan's text.\n",
            "     1  from 1 to 2: g0 = 599; now g0 = 599\n",
            "Step 2 of 2 is refused; its vertex is word 6 of plan.wit.\nBefore it: g0 = 599; open \
             calls: main.\n",
            "stands at vertex 2 (line 12, assert g0 - 600 < 0: -1 < 0 holds) and goes on to vertex 3.\nThe \
             trace lists vertex 0. No step leads there.\nAfter a step to vertex 3: g0 = 599.\n",
        ],
    );
    for (trace, refused, phrase) in [
        (
            "3 1 0 0 2 0",
            "refused 10 4 0",
            "The trace begins with vertex 2, word 4 of plan.wit; a run begins at vertex 1.",
        ),
        (
            "3 1 0 0 1 2",
            "refused 10 5 0",
            "The trace lists vertex 2. It is the last, and the last must be 0",
        ),
        (
            "3 3 0 0 1 2 0 0",
            "refused 10 7 0",
            "The run stands at vertex 0, a failed assertion, and ends there.",
        ),
    ] {
        assert_explained(&words(PROGRAM_B), &words(trace), refused, &[phrase]);
    }
    assert_explained(
        &changed(PROGRAM_B, &[(14, 599), (16, 12)]),
        &words("3 3 0 0 1 2 3 0"),
        "refused 10 7 0",
        &["The run stands at vertex 3, main's exit, and ends there."],
    );
    assert_explained(
        &words(PROGRAM_C),
        &words("3 4 0 0 1 3 4 6 5"),
        "refused 10 8 0",
        &[
            "     1  from 1 to 3: call p2(5); now g0 = 0, l0 = 5\n",
            "Before it: g0 = 5, l0 = 0; open calls: main and p2.\n",
            "stands at vertex 6 (exit of p2) and goes on to vertex 2.\nThe trace lists vertex 5.",
            "After a step to vertex 2: g0 = 5.\n",
        ],
    );
}

/// Refusal 11.
#[test]
fn values_beyond_their_limits() {
    assert_explained(
        &words("2 1 0 15 | 2 4 6 | 0 6 12 | 4 2 0 0 1 1000 5 3 1 0 0 1 1 1 1"),
        &words("3 2 0 1000000000 1 2 0"),
        "refused 11 5 4",
        &[
            "It is the step from line 4 of the plan's text.\n",
            "Step 1 of 2 is refused; its vertex is word 5 of plan.wit.\nBefore it: l0 = 1000000000;",
            "stands at vertex 1 (line 4, l0 = 1000*l0 + 1)",
            "There l0 = 1000000000001, beyond ±1,000,000,000,000.",
            "After a step to vertex 2: l0 = 1000000000001.\n",
        ],
    );
}

/// Main calls f(`actual`); f(a) asserts a ≠ 0 and calls f(a − 1); and the trace to the assertion
/// that fails.
fn countdown(actual: i32) -> Pair {
    let program = format!(
        "3 2 0 23 | 5 4 5 6 6 | 0 5 11 17 20 | 2 4 2 0 {actual} 6 3 6 0 0 1 7 5 2 -1 999999 1 1 0 0 2 1 1"
    );
    let vertices = [vec![1], [2, 3].repeat(actual as usize), vec![2, 0]].concat();
    Pair {
        program: words(&program),
        witness: [vec![3, vertices.len() as i32 - 1, 0], vertices].concat(),
    }
}

/// Refusal 12.
#[test]
fn calls_too_deep() {
    let pair = countdown(63);
    assert_explained(
        &pair.program,
        &pair.witness,
        "refused 12 130 7",
        &[
            "It is the step from line 7 of the plan's text.\n",
            "Step 127 of 128 is refused; its vertex is word 130 of plan.wit.\nBefore it: l0 = 1; open \
             calls: main and p2 (63 times).\n",
            "stands at vertex 3 (line 7, call p2(l0 - 1)) and goes on to vertex 2.",
            "There 65 calls are open, and at most 64 may be.\nAfter a step to vertex 2: l0 = 0.\n",
        ],
    );
}

#[test]
fn long_runs_are_short() {
    let pair = countdown(62);
    let (_, text) = explained(&pair.program, &pair.witness);
    let run = &text[text.find("THE RUN").unwrap()..];
    assert_eq!(run.lines().count(), 2 + 12 + 1 + 12 + 1, "{run}");
    for line in [
        "    12  from 2 to 3: line 6, assert l0 ≠ 0: 57 ≠ 0 holds; now l0 = 57\n",
        "        .. steps 13 to 114 are left out ..\n   115  from 3 to 2: line 7, call p2(l0 - 1); now l0 = 5\n",
        "After 126 steps the assertion at vertex 2, line 6, has failed, with l0 = 0.\n",
    ] {
        assert!(run.contains(line), "{line}\n{run}");
    }
}

/// Where one word alone is far beyond any range, the explanation names it.
#[test]
fn each_wrong_word_is_named() {
    let mut named = 0;
    let pair_c = Pair {
        program: words(PROGRAM_C),
        witness: words(CERTIFICATE_C),
    };
    let pair_d = Pair {
        program: words(PROGRAM_D),
        witness: words(TRACE_D),
    };
    let [program, witness] = tree("-1 0 0 1 -1 -1 999997 1 1 1 1 0 1 1 1 0 2 1 1");
    let pair_tree = Pair { program, witness };
    let accepted = plans().into_iter().filter(|(name, _)| *name != "refused");
    let sparse_c = Parts::of(&pair_c).pair(&pair_c.program, Form::Sparse);
    let written = [pair_c, pair_d, pair_tree, sparse_c];
    for pair in accepted.map(|(_, pair)| pair).chain(written) {
        for word in [i32::MIN, i32::MAX] {
            for place in 0..pair.program.len() {
                let mut program = pair.program.clone();
                program[place] = word;
                named += assert_named(&program, &pair.witness, PROGRAM, place, word);
            }
            for place in 0..pair.witness.len() {
                let mut witness = pair.witness.clone();
                witness[place] = word;
                named += assert_named(&pair.program, &witness, WITNESS, place, word);
            }
        }
    }
    println!("{named} wrong words were named");
    assert!(named >= 2_000);
}

/// Asserts that the explanation names the word, if the answer is a refusal; how many were named.
fn assert_named(program: &[i32], witness: &[i32], file: &str, place: usize, word: i32) -> u64 {
    let (answer, text) = explained(program, witness);
    let named = match answer {
        // A certificate's R and W have no limit of their own, and make the total wrong.
        Answer::Refused { number: 4, .. } if Form::of(witness[0]).is_some() && word > 0 => {
            format!(" + {word}")
        }
        Answer::Refused { number: 10, .. } => format!("word {place} of {file}"),
        Answer::Refused { .. } => {
            // Its high word alone doesn't make a constant wrong.
            let constant = format!(
                "Words {place} and {} of {file}, the constant of ",
                place + 1
            );
            match text.contains(&constant) {
                true => constant,
                false => format!("Word {place} of {file}, "),
            }
        }
        _ => return 0,
    };
    assert!(text.contains(&named), "{answer}, {place}: {word}\n{text}");
    assert!(text.contains(&word.to_string()), "{text}");
    1
}

/// Each answer to generated inputs has an explanation, and no input makes it panic.
#[test]
fn every_answer_is_explained() {
    let mut counts = Counts::default();
    for input in inputs(61).take(45_500) {
        let (answer, text) = explained(&input.program, &input.witness);
        assert!(!text.contains(UNEXPLAINED), "{input:?}\n{text}");
        let first = text.lines().next().unwrap();
        assert!(first.starts_with(&answer.to_string()), "{first}");
        assert!(text.contains("the second checker's is the same."));
        counts.add(&input.program, &input.witness, answer);
    }
    println!("explained: {counts}");
    assert!(counts.safe >= 100 && counts.trace >= 100);
    let numbers = NUMBERS.into_iter().filter(|number| *number != 13);
    assert!(counts.refused.all(numbers, 20));
}

/// The entailments of generated certificates are named in their order: each is refused in turn.
#[test]
fn each_entailment_is_named() {
    let random = &mut Random::new(62);
    let mut refused = 0;
    for _ in 0..100 {
        let pair = certificates::accepted(random);
        let layout = witness_layout(&pair.program, &pair.witness).expect("accepted");
        for (at, entailment) in layout.iter().enumerate() {
            let mut witness = pair.witness.clone();
            witness[entailment.words().start] = -2;
            let (_, text) = explained(&pair.program, &witness);
            let number = format!("It is entailment {} of {}: ", at + 1, layout.len());
            assert!(text.contains(&number), "{pair:?}\n{text}");
            refused += 1;
        }
    }
    println!("{refused} entailments were named");
    assert!(refused >= 1_000);
}

#[test]
fn disagreement_is_said() {
    let plan = Plan::new(words(PROGRAM_B), words(TRACE_B));
    let mut proved = outcome(&Proved, &plan.input());
    let said = "THE CHECKERS DISAGREE";
    assert!(!explain(&plan, &proved).contains(said));
    proved.1[0] = 661;
    let text = explain(&plan, &proved);
    assert!(
        text.starts_with("trace 2 661\n") && text.contains(said),
        "{text}"
    );
    assert!(
        text.contains("the second checker's is: trace 2 660\n"),
        "{text}"
    );
    proved.0 = Answer::Safe(5);
    let text = explain(&plan, &proved);
    assert_eq!(line(&proved), "safe 5");
    assert!(
        text.starts_with("safe 5\n") && text.contains(said),
        "{text}"
    );
}

#[test]
fn files_without_words() {
    let (program, certificate) = (bytes(&words(PROGRAM_A)), bytes(&words(CERTIFICATE_A)));
    let folder = Folder::new().unwrap();
    let assert_said = |refused: &str, said: &str| {
        let output = run(&folder.file(""));
        let text = String::from_utf8(output.stdout).unwrap();
        assert!(output.status.success(), "{text}");
        assert!(text.starts_with(refused) && text.contains(said), "{text}");
    };
    assert_said(
        "refused 1 0 0\n",
        "There is no file plan.lin in the folder.\n",
    );
    fs::write(folder.file(PROGRAM), &program[1..]).unwrap();
    assert_said("refused 1 0 0\n", "The file plan.lin has 99 bytes,");
    fs::write(folder.file(PROGRAM), &program).unwrap();
    assert_said(
        "refused 4 0 0\n",
        "There is no file plan.wit in the folder.\n",
    );
    fs::write(folder.file(WITNESS), vec![0; LONGEST + 4]).unwrap();
    assert_said(
        "refused 4 0 0\n",
        "The file plan.wit has more than 65,536 bytes.\n",
    );
    fs::remove_file(folder.file(WITNESS)).unwrap();
    fs::create_dir(folder.file(WITNESS)).unwrap();
    assert_said("refused 4 0 0\n", "The file plan.wit can't be read: ");
    fs::remove_dir(folder.file(WITNESS)).unwrap();
    fs::write(folder.file(WITNESS), &certificate).unwrap();
    assert_said("safe 5\n", "WHY IT IS SAFE");
}

#[test]
fn wrong_calls() {
    let plan = in_repository("plans/plan-a");
    let calls: [&[&Path]; 4] = [
        &[],
        &[Path::new("")],
        &[&plan, &plan],
        &[&plan.join("none")],
    ];
    for arguments in calls {
        let output = program().args(arguments).output().unwrap();
        assert_eq!(output.status.code(), Some(2), "{output:?}");
        assert!(output.stdout.is_empty() && !output.stderr.is_empty());
    }
    let full = File::options().write(true).open("/dev/full").unwrap();
    let output = program().arg(&plan).stdout(full).output().unwrap();
    assert_eq!(output.status.code(), Some(1), "{output:?}");
    assert!(!output.stderr.is_empty());
}
