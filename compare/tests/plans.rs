//! The example plans: their files are those that `plans` writes, and the answers those that their
//! texts give.

use compare::compare::sparse::{conversion, Direction};
use compare::compare::{outcome, Converter, Second};
use compare::convert::Writing;
use compare::files::{
    bytes, in_repository, line, marked_buffer, program, read_words, LONGEST, PROGRAM, WITNESS,
};
use compare::generate::program_words::ProgramWords;
use compare::generate::{Input, Pair};
use compare::plans::{plans, words};
use compare::proved::{converters, Proved};
use std::fs;
use std::process::Command;

#[test]
fn files_are_those_that_are_written() {
    let folders = fs::read_dir(in_repository("plans")).unwrap();
    let mut names: Vec<_> = folders.map(|folder| folder.unwrap().file_name()).collect();
    names.sort();
    assert_eq!(names, plans().map(|(name, _)| name));
    for (name, pair) in plans() {
        let folder = in_repository("plans").join(name);
        for (file, words) in [(PROGRAM, pair.program), (WITNESS, pair.witness)] {
            assert_eq!(
                fs::read(folder.join(file)).unwrap(),
                bytes(&words),
                "{name}"
            );
        }
    }
}

#[test]
fn answers_are_those_that_the_texts_give() {
    for (name, _) in plans() {
        let folder = in_repository("plans").join(name);
        let text = fs::read_to_string(folder.join("README.md")).unwrap();
        let command = format!("    $ ./check-plan plans/{name}");
        let mut lines = text.lines().skip_while(|line| *line != command);
        let told = lines.nth(1).expect("the answer under the command").trim();
        let input = Input {
            program: read_words(&folder.join(PROGRAM)),
            witness: read_words(&folder.join(WITNESS)),
            buffer: marked_buffer(),
        };
        assert_eq!(line(&outcome(&Second, &input)), told, "{name}");
        assert_eq!(line(&outcome(&Proved, &input)), told, "{name}");
        let output = Command::new(program()).current_dir(&folder).output();
        assert_eq!(output.unwrap().stdout, format!("{told}\n").into_bytes());
    }
}

/// The lines of the text of a plan, which is the first part of its README.md that is set in.
fn text(name: &str) -> Vec<String> {
    let page = in_repository("plans").join(name).join("README.md");
    let page = fs::read_to_string(page).unwrap();
    let lines: Vec<&str> = page.lines().collect();
    let is_text = |line: &str| line.starts_with("    ");
    let first = lines.iter().position(|line| is_text(line)).unwrap();
    let lines = lines[first..].iter();
    let text = lines.take_while(|line| is_text(line) || line.is_empty());
    text.map(|line| line.trim().to_string()).collect()
}

/// The line of each statement is one of the plan's text with a statement of that kind.
#[test]
fn lines_are_those_of_the_texts() {
    let mut with_lines = 0;
    for (name, pair) in plans() {
        let given = ProgramWords(&pair.program);
        let vertices = 1..=given.statements();
        let lines: Vec<i32> = vertices.map(|vertex| given.line(vertex as i32)).collect();
        if ["plan-a", "plan-b", "refused"].contains(&name) {
            assert!(lines.iter().all(|line| *line == 0), "{name}");
            continue;
        }
        let text = text(name);
        for (at, line) in lines.into_iter().enumerate() {
            let said = &text[line as usize - 1];
            let kind = given.0[ProgramWords::kind(at + 1)];
            let right = match kind {
                2 => said.contains(" = ") && !said.starts_with("assert"),
                3 => said.starts_with("if (") || said.starts_with("while ("),
                4 => said.starts_with("assert "),
                5 => said.ends_with(");") && !said.contains('='),
                _ => false,
            };
            assert!(right, "{name}, line {line}, kind {kind}: {said}");
            with_lines += 1;
        }
    }
    assert_eq!(with_lines, 6 + 4 + 8 + 14 + 10 + 6 + 7 + 4);
}

/// What the text of `sparse-rows` tells of the two forms: a row, and how many words they have.
#[test]
fn both_forms_of_sparse_rows() {
    let name = "sparse-rows";
    let (_, plan) = plans().into_iter().find(|plan| plan.0 == name).unwrap();
    let page = in_repository("plans").join(name).join("README.md");
    let page = fs::read_to_string(page).unwrap();
    for converter in converters() {
        let dense = converted(converter, Direction::ToDense, &plan);
        let sparse = converted(converter, Direction::ToSparse, &dense);
        assert_eq!(sparse.witness, plan.witness);
        for (form, pair) in [("dense", dense), ("sparse", sparse)] {
            let row = page.split_once(&format!("| {form} | `")).unwrap().1;
            let row = words(row.split_once('`').unwrap().0);
            assert!(pair.witness.windows(row.len()).any(|part| part == row));
            let (rows, all) = (pair.witness[1], pair.witness.len());
            let told = format!("| {form} | {rows} | {all} |\n");
            assert!(page.replace(',', "").contains(&told), "{told}");
            let answer = converter.check(&pair.program, &pair.witness, &mut []);
            assert!(page.contains(&format!("    {answer}\n")), "{answer}");
        }
    }
}

/// The certificate in the other form.
fn converted(converter: &dyn Converter, direction: Direction, pair: &Pair) -> Pair {
    let (writing, mut words) = conversion(converter, direction, pair, LONGEST / 4);
    let Writing::Written(count) = writing else {
        panic!("{writing}");
    };
    words.truncate(count as usize);
    Pair {
        program: pair.program.clone(),
        witness: words,
    }
}
