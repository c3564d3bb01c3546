//! The words of examples, which `docs/examples.txt` has for its readers and for the tests.

use crate::compare::sparse::Direction;
use std::fmt;

/// The file; its head says how it is written.
const TEXT: &str = include_str!("../../docs/examples.txt");

/// A program and a witness input with their answer, as the file program prints it.
pub struct Example {
    pub name: &'static str,
    pub program: Vec<i32>,
    pub witness: Vec<i32>,
    /// The result buffer, where it matters.
    pub buffer: Option<Vec<i64>>,
    /// What is to be written; without it the example is one of the check.
    pub asked: Option<Asked>,
    pub answer: String,
}

/// What is to be written of a certificate, into a result buffer of how many words, and the words that
/// are written; none after a refusal.
pub struct Asked {
    pub task: Task,
    pub length: usize,
    pub result: Vec<i32>,
}

/// A certificate is converted, or trimmed.
#[derive(Clone, Copy)]
pub enum Task {
    Convert(Direction),
    Trim,
}

impl fmt::Display for Asked {
    fn fmt(&self, out: &mut fmt::Formatter) -> fmt::Result {
        let task = match self.task {
            Task::Convert(Direction::ToSparse) => "to sparse",
            Task::Convert(Direction::ToDense) => "to dense",
            Task::Trim => "trim",
        };
        write!(out, "{task} in {} words", self.length)
    }
}

/// The words of an item, by its first line.
pub const fn named(name: &str) -> &'static str {
    let mut start = 0;
    while start < TEXT.len() {
        let end = line_end(start);
        if is_line(name, start, end) {
            let mut behind = end + 1;
            while behind < TEXT.len() && TEXT.as_bytes()[behind] == b' ' {
                behind = line_end(behind) + 1;
            }
            return TEXT.split_at(behind).0.split_at(end + 1).1;
        }
        start = end + 1;
    }
    panic!("no item of this name");
}

/// Where the line that begins at `start` ends.
const fn line_end(start: usize) -> usize {
    let mut end = start;
    while TEXT.as_bytes()[end] != b'\n' {
        end += 1;
    }
    end
}

const fn is_line(line: &str, start: usize, end: usize) -> bool {
    if line.len() != end - start {
        return false;
    }
    let mut at = 0;
    while at < line.len() {
        if line.as_bytes()[at] != TEXT.as_bytes()[start + at] {
            return false;
        }
        at += 1;
    }
    true
}

/// The words of a text; `|` and `,` are none.
pub fn words(text: &str) -> Vec<i32> {
    numbers(text)
}

fn numbers<Number: std::str::FromStr<Err: std::fmt::Debug>>(text: &str) -> Vec<Number> {
    text.split_whitespace()
        .filter(|word| !["|", ","].contains(word))
        .map(|word| word.parse().expect("a number"))
        .collect()
}

/// All examples of the file, in its order.
pub fn examples() -> Vec<Example> {
    let lines = TEXT.lines().filter(|line| line.contains('.'));
    let names = lines.filter(|line| line.starts_with(|sign| "0D".contains(sign)));
    names.map(example).collect()
}

fn example(name: &'static str) -> Example {
    let fields = fields(named(name));
    let given = |what: &str| {
        let field = fields.iter().find(|(key, _)| *key == what);
        field.map(|(_, field)| field.as_str())
    };
    let mut witnesses = ["certificate", "trace", "witness"].into_iter();
    let witness = witnesses.find_map(|key| Some(words_of(key, given(key)?)));
    let conversion = given("to").map(|asked| {
        let (form, length) = asked.split_once(' ').expect("a form and a length");
        let direction = match form {
            "sparse" => Direction::ToSparse,
            "dense" => Direction::ToDense,
            _ => panic!("{name}: no form {form}"),
        };
        (Task::Convert(direction), length)
    });
    let trimming = given("trim").map(|length| (Task::Trim, length));
    let asked = conversion.or(trimming).map(|(task, length)| Asked {
        task,
        length: length.parse().expect("a length"),
        result: given("result").map_or_else(Vec::new, |field| words_of("certificate", field)),
    });
    Example {
        name,
        program: words_of("program", given("program").expect("a program")),
        witness: witness.expect("a witness input"),
        buffer: given("buffer").map(numbers),
        asked,
        answer: given("answer").expect("an answer").to_string(),
    }
}

/// The keys of an example and what stands behind each of them.
fn fields(item: &'static str) -> Vec<(&'static str, String)> {
    let mut fields: Vec<(&str, String)> = Vec::new();
    for line in item.lines().map(str::trim) {
        if line.starts_with(|sign: char| sign.is_ascii_lowercase()) {
            let (key, field) = line.split_once(' ').unwrap_or((line, ""));
            fields.push((key, field.to_string()));
        } else {
            let (_, field) = fields.last_mut().expect("a line above");
            *field += " ";
            *field += line;
        }
    }
    fields
}

/// The words of a field: those that stand there, or those of the item that is named.
fn words_of(key: &str, field: &str) -> Vec<i32> {
    if field.starts_with(|sign: char| sign.is_ascii_alphabetic()) {
        words(named(&format!("{key} {field}")))
    } else {
        words(field)
    }
}
