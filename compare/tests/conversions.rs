//! The program `convert_plan`, on thousands of file pairs: its line and the new file are the second
//! converters', and without `written` there is no new file.

use compare::compare::sparse::Direction;
use compare::compare::{Refused, Second};
use compare::convert::Writing;
use compare::files::{bytes, in_repository, Folder, LONGEST};
use compare::generate::sparse::{self, Form};
use compare::generate::Pair;
use std::fs;
use std::process::Command;

/// How often each answer was given.
#[derive(Default, Debug)]
struct Counts {
    written: [u64; 2],
    refused: Refused,
}

/// The argument, and the name of the new file.
fn names(direction: Direction) -> (&'static str, &'static str) {
    match direction {
        Direction::ToSparse => ("sparse", "plan.sparse.wit"),
        Direction::ToDense => ("dense", "plan.dense.wit"),
    }
}

/// The line, and the bytes of the new file, by the second converter: a file may have so many words.
fn expected(direction: Direction, pair: &Pair) -> (Writing, Option<Vec<u8>>) {
    let mut result = vec![0; LONGEST / 4];
    let writing = direction.convert(&Second, pair, &mut result);
    let file = match writing {
        Writing::Written(count) => Some(bytes(&result[..count as usize])),
        Writing::Refused { .. } => None,
    };
    (writing, file)
}

fn assert_converted(folder: &Folder, counts: &mut Counts, pair: &Pair) {
    let (program, witness) = (bytes(&pair.program), bytes(&pair.witness));
    folder.write(&program, &witness).unwrap();
    for (at, direction) in Direction::ALL.into_iter().enumerate() {
        let (form, name) = names(direction);
        let converter = in_repository("target/bin/convert_plan");
        let output = folder.run(Command::new(converter).arg(form));
        let output = output.expect("`scripts/build convert_plan` has built the program");
        let (writing, file) = expected(direction, pair);
        assert!(output.status.success() && output.stderr.is_empty());
        let line = format!("{writing}\n");
        assert_eq!(output.stdout, line.as_bytes(), "{direction:?}: {pair:?}");
        assert_eq!(fs::read(folder.file(name)).ok(), file, "{pair:?}");
        match writing {
            Writing::Written(_) => {
                counts.written[at] += 1;
                fs::remove_file(folder.file(name)).unwrap();
            }
            Writing::Refused { number, .. } => counts.refused.add(number, 1),
        }
    }
}

fn fits(pair: &Pair) -> bool {
    4 * pair.program.len().max(pair.witness.len()) <= LONGEST
}

#[test]
fn generated_file_pairs() {
    let folder = Folder::new().unwrap();
    let mut counts = Counts::default();
    for pair in sparse::pairs(66).filter(fits).take(3_000) {
        assert_converted(&folder, &mut counts, &pair);
    }
    println!("convert_plan, generated pairs: {counts:?}");
    assert!(counts.written.iter().all(|written| *written >= 100));
    assert!(counts.refused.all([1, 2, 3, 4, 5, 15, 25], 20));
}

/// Results of the most bytes that a file may have, and of a word more.
#[test]
fn results_of_the_most_bytes() {
    let folder = Folder::new().unwrap();
    let mut counts = Counts::default();
    for from in [Form::Dense, Form::Sparse] {
        for length in [LONGEST / 4, LONGEST / 4 + 1] {
            let pair = sparse::with_result(from, length);
            assert!(fits(&pair), "{} words", pair.witness.len());
            assert_converted(&folder, &mut counts, &pair);
        }
    }
    println!("convert_plan, the most bytes: {counts:?}");
    assert_eq!(counts.written, [1, 1]);
    assert_eq!(counts.refused.times(26), 2);
}
