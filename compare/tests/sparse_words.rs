//! Sparse certificates (document 02, CR 9) by hand: which words they may be, which test refuses
//! others, and what the converters write.

mod common;

use common::{words, CERTIFICATE_A, CERTIFICATE_C, CERTIFICATE_S, PROGRAM_A, PROGRAM_C, PROGRAM_S};
use compare::checker::{diagnosis, Answer};
use compare::compare::Converter;
use compare::proved::converters;

/// Certificate A in sparse form: row words from 11 on, witness words from 20 on.
const SPARSE_A: &str =
    "4 9 8 | 1 1 1 1 | 0 1 7 8 | 0 | 1 -1 999460 1 1 1 | 0 | 0 | 1 1 1 1 0 1 1 1";

/// Certificate A in dense form as it comes back from there.
const DENSE_A: &str = "1 8 8 | 1 1 1 1 | 0 1 6 7 | 0 | 1 -1 999460 0 1 | 0 | 0 | 1 1 1 1 0 1 1 1";

/// The same where the row of vertex 2 has both columns, and nothing can be shown from it.
const BOTH: &str =
    "4 11 8 | 1 1 1 1 | 0 1 9 10 | 0 | 1 -1 999460 2 0 1 3 1 | 0 | 0 | 1 1 1 1 0 1 1 1";

/// Certificate S in sparse form. Its second and third entries are empty.
const SPARSE_S: &str = "4 1 2 | 1 0 0 | 0 1 1 | 0 | 1 1";

/// A cell of a result buffer that nobody may write.
const MARK: i32 = 0x5a5a_5a5a;

/// The words with some changed.
fn with(given: &str, changes: &[(usize, i32)]) -> Vec<i32> {
    let mut given = words(given);
    for &(place, word) in changes {
        given[place] = word;
    }
    given
}

fn assert_checked(program: &str, certificate: &[i32], expected: &str) {
    for converter in converters() {
        let mut values = [7; 3];
        let answer = converter.check(&words(program), certificate, &mut values);
        assert_eq!(answer.to_string(), expected, "{certificate:?}");
        assert_eq!(values, [7; 3]);
    }
}

/// Certificate A in sparse form with these changes.
fn assert_a(changes: &[(usize, i32)], expected: &str) {
    assert_checked(PROGRAM_A, &with(SPARSE_A, changes), expected);
}

type Convert = fn(&dyn Converter, &[i32], &[i32], &mut [i32]) -> String;

const TO_SPARSE: Convert = |converter, program, certificate, result| {
    let writing = converter.to_sparse(program, certificate, result);
    writing.to_string()
};

const TO_DENSE: Convert = |converter, program, certificate, result| {
    let writing = converter.to_dense(program, certificate, result);
    writing.to_string()
};

/// Asserts that the words are written whatever room is left behind them, and nothing if it is short.
fn assert_written(convert: Convert, program: &str, certificate: &str, expected: &str) {
    let [program, certificate, expected] = [program, certificate, expected].map(words);
    let length = expected.len();
    for converter in converters() {
        for room in [length, length + 1, length + 9] {
            let mut result = vec![MARK; room];
            let answer = convert(converter, &program, &certificate, &mut result);
            assert_eq!(answer, format!("written {length}"));
            assert_eq!(result[..length], expected);
            assert!(result[length..].iter().all(|word| *word == MARK));
        }
    }
    for room in [0, 1, length - 1] {
        assert_unwritten(convert, &program, &certificate, room, "refused 26 0 0");
    }
}

/// Asserts a refusal that leaves so long a result buffer as it was.
fn assert_unwritten(
    convert: Convert,
    program: &[i32],
    certificate: &[i32],
    room: usize,
    expected: &str,
) {
    for converter in converters() {
        let mut result = vec![MARK; room];
        let answer = convert(converter, program, certificate, &mut result);
        assert_eq!(answer, expected, "{certificate:?}");
        assert!(result.iter().all(|word| *word == MARK));
    }
}

#[test]
fn plan_a() {
    assert_checked(PROGRAM_A, &words(SPARSE_A), "safe 5");
    assert_checked(PROGRAM_A, &words(DENSE_A), "safe 5");
    assert_written(TO_SPARSE, PROGRAM_A, CERTIFICATE_A, SPARSE_A);
    assert_written(TO_SPARSE, PROGRAM_A, DENSE_A, SPARSE_A);
    assert_written(TO_DENSE, PROGRAM_A, SPARSE_A, DENSE_A);
    assert_written(TO_SPARSE, PROGRAM_S, CERTIFICATE_S, SPARSE_S);
    assert_written(
        TO_DENSE,
        PROGRAM_S,
        SPARSE_S,
        "1 1 2 | 1 0 0 | 0 1 1 | 0 | 1 1",
    );
}

/// Summaries, and rows of two columns.
#[test]
fn program_c() {
    let program = words(PROGRAM_C);
    let dense = words(CERTIFICATE_C);
    for converter in converters() {
        let mut sparse = vec![MARK; 200];
        let _ = converter.to_sparse(&program, &dense, &mut sparse);
        let length = sparse.iter().position(|word| *word == MARK);
        sparse.truncate(length.expect("the buffer is long"));
        assert_checked(PROGRAM_C, &sparse, "safe 10");
    }
}

/// Document 01's changes of plan A: what is refused is as far from the end as in dense form.
#[test]
fn judged_alike() {
    assert_a(&[(14, 999_401)], "safe 5");
    assert_a(&[(14, 999_400)], "refused 7 24 0");
    assert_a(&[(14, 999_461)], "refused 7 21 0");
    assert_a(&[(26, 0)], "refused 7 24 0");
    assert_a(&[(26, -1)], "refused 6 24 0");
    assert_a(&[(20, 2)], "refused 6 20 0");
    let mut longer = words(SPARSE_A);
    longer.push(0);
    assert_checked(PROGRAM_A, &longer, "refused 4 0 0");
    longer[2] = 9;
    assert_checked(PROGRAM_A, &longer, "refused 8 28 0");
    // x at entry × 3 + x now − 540.
    assert_checked(PROGRAM_A, &words(BOTH), "refused 7 23 0");
    assert_checked(
        PROGRAM_A,
        &words("1 6 8 | 1 1 1 1 | 0 1 0 0 | 0 1 -1 999460 3 1 | 1 1 1 1 0 1 1 1"),
        "refused 7 18 0",
    );
}

#[test]
fn marks_and_sizes() {
    for mark in [0, 2, 5, -1, -4, i32::MIN, i32::MAX] {
        assert_a(&[(0, mark)], "refused 4 0 0");
    }
    for (place, size) in [(1, 8), (1, 10), (1, -1), (2, 7), (2, -1), (2, i32::MAX)] {
        assert_a(&[(place, size)], "refused 4 0 0");
    }
    // As dense words the row of vertex 2 speaks of column 0 and of column 1, and a word is left.
    assert_a(&[(0, 1)], "refused 7 21 0");
    // As sparse words it has no coefficients.
    let certificate = with(CERTIFICATE_A, &[(0, 4)]);
    assert_checked(PROGRAM_A, &certificate, "refused 15 4 0");
}

#[test]
fn out_of_range() {
    let beyond = [
        // How many disjuncts there are, and rows.
        (4, &[-1, 9, i32::MIN, i32::MAX][..]),
        (12, &[-1, 33, 2, i32::MIN, i32::MAX]),
        // The place of a full entry.
        (8, &[-1, 9, 10, i32::MIN, i32::MAX]),
        // The constant.
        (13, &[4_000, -4_001, i32::MIN, i32::MAX]),
        (14, &[-1, 1_000_000, i32::MIN, i32::MAX]),
        // How many coefficients there are.
        (15, &[-1, 3, i32::MIN, i32::MAX]),
        // The column, of which there are two.
        (16, &[-1, 2, 3, i32::MIN, i32::MAX]),
        // The coefficient.
        (17, &[1_001, -1_001, i32::MIN, i32::MAX]),
    ];
    for (place, wrong) in beyond {
        for &word in wrong {
            assert_a(&[(place, word)], "refused 5 4 0");
        }
    }
    // The last entry's words are past the rows.
    assert_a(&[(19, 1)], "refused 5 6 0");
    assert_a(&[(6, 2)], "refused 5 6 0");
    // Of the last row one word is missing, and two.
    let cut = "4 6 8 | 1 1 0 0 | 0 1 6 6 | 0 | 1 -1 999460 1 1 | 1 1 1 1 0 1 1 1";
    assert_checked(PROGRAM_A, &words(cut), "refused 5 4 0");
    let cut = "4 5 8 | 1 1 0 0 | 0 1 5 5 | 0 | 1 -1 999460 1 | 1 1 1 1 0 1 1 1";
    assert_checked(PROGRAM_A, &words(cut), "refused 5 4 0");
}

#[test]
fn columns_and_coefficients() {
    for columns in [[1, 0], [0, 0], [1, 1]] {
        let changes = [(16, columns[0]), (17, columns[1])];
        assert_checked(PROGRAM_A, &with(BOTH, &changes), "refused 25 4 0");
    }
    for coefficients in [[0, 1], [3, 0], [0, 0]] {
        let changes = [(18, coefficients[0]), (19, coefficients[1])];
        assert_checked(PROGRAM_A, &with(BOTH, &changes), "refused 25 4 0");
    }
    assert_a(&[(17, 0)], "refused 25 4 0");
}

#[test]
fn places() {
    // At the word 0 of the first entry, and at that of the last.
    assert_a(&[(9, 0)], "refused 25 5 0");
    assert_a(&[(9, 8)], "refused 25 5 0");
    assert_a(&[(10, 0)], "refused 25 6 0");
    // At a word 1, behind which there are too few.
    assert_a(&[(9, 6)], "refused 5 5 0");
    // The first entry at the second's words: its row is whole there.
    assert_a(&[(7, 1)], "refused 25 3 0");
    // The third and the fourth exchanged.
    assert_a(&[(9, 8), (10, 7)], "refused 25 5 0");
    // A word between the second and the third.
    let gap = "4 10 8 | 1 1 1 1 | 0 1 8 9 | 0 | 1 -1 999460 1 1 1 | 0 | 0 | 0 | 1 1 1 1 0 1 1 1";
    assert_checked(PROGRAM_A, &words(gap), "refused 25 5 0");
    // A word before the first.
    let gap = "4 10 8 | 1 1 1 1 | 1 2 8 9 | 0 | 0 | 1 -1 999460 1 1 1 | 0 | 0 | 1 1 1 1 0 1 1 1";
    assert_checked(PROGRAM_A, &words(gap), "refused 25 3 0");
}

#[test]
fn places_of_empty_entries() {
    assert_checked(PROGRAM_S, &words(SPARSE_S), "safe 2");
    for place in [0, 2, -1, i32::MIN, i32::MAX] {
        let changes = [(7, place)];
        assert_checked(PROGRAM_S, &with(SPARSE_S, &changes), "refused 25 4 0");
        let changes = [(8, place)];
        assert_checked(PROGRAM_S, &with(SPARSE_S, &changes), "refused 25 5 0");
    }
    // Nothing stands before the first: no word is there at all.
    let empty = "4 0 1 | 0 0 0 | 0 0 0 | 0";
    assert_checked(PROGRAM_S, &words(empty), "refused 7 9 0");
    for place in [1, -1, 9] {
        let changes = [(6, place)];
        assert_checked(PROGRAM_S, &with(empty, &changes), "refused 25 3 0");
    }
    // The first empty, the last full.
    let last = "4 1 2 | 0 0 1 | 0 0 0 | 0 | 0 1";
    assert_checked(PROGRAM_S, &words(last), "refused 7 10 0");
    assert_checked(PROGRAM_S, &with(last, &[(6, 1)]), "refused 25 3 0");
}

#[test]
fn a_row_word_left() {
    for left in [0, 1, -1, i32::MIN, i32::MAX] {
        let text = format!("4 2 2 | 1 0 0 | 0 1 1 | 0 {left} | 1 1");
        assert_checked(PROGRAM_S, &words(&text), "refused 25 1 0");
    }
    let none = "4 1 0 | 0 0 0 | 0 0 0 | 0 |";
    assert_checked(PROGRAM_S, &words(none), "refused 25 1 0");
    // Before 6, and after 25 and 15 of an entry.
    let left = "4 2 2 | 1 0 0 | 0 1 1 | 0 0 | 9 1";
    assert_checked(PROGRAM_S, &words(left), "refused 25 1 0");
    assert_checked(PROGRAM_S, &with(left, &[(8, 2)]), "refused 25 5 0");
    let constant = "4 5 2 | 1 0 0 | 0 4 4 | 1 0 0 0 9 | 1 1";
    assert_checked(PROGRAM_S, &words(constant), "refused 15 3 0");
}

#[test]
fn constant_rows() {
    let constant = "4 7 8 | 1 1 1 1 | 0 1 5 6 | 0 | 1 -1 999460 0 | 0 | 0 | 1 1 1 1 0 1 1 1";
    assert_checked(PROGRAM_A, &words(constant), "refused 15 4 0");
    // Without columns a row has no coefficients.
    let row = "4 4 2 | 1 0 0 | 0 4 4 | 1 0 0 0 | 1 1";
    assert_checked(PROGRAM_S, &words(row), "refused 15 3 0");
    let one = "4 6 2 | 1 0 0 | 0 6 6 | 1 0 0 1 0 1 | 1 1";
    assert_checked(PROGRAM_S, &words(one), "refused 5 3 0");
}

/// 5, 25 and 15 of one entry, and of two.
#[test]
fn order() {
    // Vertex 2 has a constant row and then x now ≤ 540, whose coefficient is word 20.
    let two = "4 12 8 | 1 1 1 1 | 0 1 10 11 | 0 | 2 0 0 0 -1 999460 1 1 1 | 0 | 0 \
               | 1 1 1 1 0 1 1 1";
    for (changes, expected) in [
        (&[][..], "refused 15 4 0"),
        (&[(20, 0)], "refused 25 4 0"),
        (&[(8, 10)], "refused 25 4 0"),
        (&[(20, 1_001)], "refused 5 4 0"),
        (&[(8, 10), (4, 9)], "refused 5 4 0"),
        // A later entry's 5 and 25, and an earlier one's.
        (&[(5, 9)], "refused 15 4 0"),
        (&[(9, 11)], "refused 15 4 0"),
        (&[(3, 9)], "refused 5 3 0"),
        (&[(7, 10)], "refused 25 3 0"),
    ] {
        assert_checked(PROGRAM_A, &with(two, changes), expected);
    }
}

#[test]
fn converters_refuse() {
    let room = 100;
    let program = words(PROGRAM_A);
    let sparse = words(SPARSE_A);
    let dense = words(CERTIFICATE_A);
    // The other form, a trace, and no words.
    let other = "refused 4 0 0";
    assert_unwritten(TO_SPARSE, &program, &sparse, room, other);
    assert_unwritten(TO_DENSE, &program, &dense, room, other);
    for convert in [TO_SPARSE, TO_DENSE] {
        assert_unwritten(convert, &program, &words("3 2 0 0 1 2 0"), room, other);
        assert_unwritten(convert, &program, &[], room, other);
    }
    // 1 to 3 come before, with the line of the statement.
    for convert in [TO_SPARSE, TO_DENSE] {
        for certificate in [&sparse, &dense] {
            for (changes, expected) in [
                (&[(0, 0)][..], "refused 1 0 0"),
                (&[(6, 1)], "refused 2 6 0"),
                (&[(4, 7)], "refused 3 4 0"),
                (&[(10, 12), (4, 7)], "refused 3 4 12"),
            ] {
                let program = with(PROGRAM_A, changes);
                assert_unwritten(convert, &program, certificate, room, expected);
                assert_unwritten(convert, &program, certificate, 0, expected);
            }
        }
    }
    // 5, 25 and 15 come before 26.
    for room in [0, room] {
        for (changes, expected) in [
            (&[(17, 1_001)][..], "refused 5 4 0"),
            (&[(17, 0)], "refused 25 4 0"),
            (&[(10, 7)], "refused 25 6 0"),
        ] {
            let certificate = with(SPARSE_A, changes);
            assert_unwritten(TO_DENSE, &program, &certificate, room, expected);
        }
        let left = words("4 2 2 | 1 0 0 | 0 1 1 | 0 0 | 1 1");
        assert_unwritten(TO_DENSE, &words(PROGRAM_S), &left, room, "refused 25 1 0");
        for (changes, expected) in [
            (&[(16, 1_001)][..], "refused 5 4 0"),
            (&[(16, 0)], "refused 15 4 0"),
            (&[(8, 6)], "refused 5 4 0"),
        ] {
            let certificate = with(CERTIFICATE_A, changes);
            assert_unwritten(TO_SPARSE, &program, &certificate, room, expected);
        }
    }
}

/// What only a judge refuses is written: 6, 7 and 8.
#[test]
fn converters_do_not_judge() {
    let ends = [
        "1 1 1 1 0 1 9999 1",
        "1 1 1 1 0 1 0 1",
        "1 1 1 1 0 1 1 1 7",
        "",
    ];
    for end in ends {
        let count = words(end).len();
        let [dense, sparse] = [DENSE_A, SPARSE_A].map(|text| {
            let front = &text[..text.rfind('|').expect("groups are parted")];
            let front = front.replacen(" 8 |", &format!(" {count} |"), 1);
            format!("{front} {end}")
        });
        assert_written(TO_SPARSE, PROGRAM_A, &dense, &sparse);
        assert_written(TO_DENSE, PROGRAM_A, &sparse, &dense);
    }
}

/// Row words that no entry uses, shared ones and the places of empty entries aren't kept.
#[test]
fn unshared() {
    let shared = "1 4 2 | 1 0 0 | 3 -5 7 | 9 9 9 0 | 1 1";
    assert_written(TO_SPARSE, PROGRAM_S, shared, SPARSE_S);
    let shared = "1 1 2 | 1 1 1 | 0 0 0 | 0 | 1 1";
    assert_written(
        TO_SPARSE,
        PROGRAM_S,
        shared,
        "4 3 2 | 1 1 1 | 0 1 2 | 0 0 0 | 1 1",
    );
}

/// The words from the place on.
#[test]
fn diagnoses() {
    let (program, certificate) = (words(PROGRAM_A), with(SPARSE_A, &[(9, 0)]));
    let answer = Answer::refused(25, 5);
    assert_eq!(diagnosis(&program, &certificate, answer), &certificate[5..]);
    let answer = Answer::refused(25, 1);
    assert_eq!(diagnosis(&program, &certificate, answer), &certificate[1..]);
}
