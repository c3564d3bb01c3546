//! The examples of DECISIONS.md: those of `docs/examples.txt`, which the page names, and those that
//! are too long for it.

mod common;

use common::{
    assert_answer, assert_example, examples, expected, named, refused, words, Asked, Example,
    CERTIFICATE_A, PROGRAM_A, PROGRAM_B, PROGRAM_S, TRACE_B,
};
use compare::checker::{diagnosis, judge, replay, replay_by_grammar, Answer};
use compare::compare::sparse::{conversion, written, Direction};
use compare::files::in_repository;
use compare::generate::Pair;
use compare::proved::{self, converters};
use std::fs;

/// The examples of the file that the page has, by rising decision.
fn of_decisions() -> Vec<Example> {
    let examples = examples().into_iter();
    examples
        .filter(|example| example.name.starts_with('D'))
        .collect()
}

#[test]
fn answers_of_the_file() {
    let examples = of_decisions();
    examples.iter().for_each(assert_example);
    assert_eq!(examples.len(), 362);
}

/// What the page says of an example: "(name): answer `..`", with the result buffer before and after
/// where it matters; of a conversion "(name), to sparse in 28 words: answer `..`", and the result; of
/// trimming "(name), trim in 20 words: answer `..`", and the result.
struct Stated<'a> {
    name: &'a str,
    buffer: Option<&'a str>,
    asked: Option<&'a str>,
    answer: &'a str,
    after: Option<&'a str>,
    result: Option<&'a str>,
}

/// What begins with a name in brackets; none if it doesn't.
fn stated(text: &str) -> Option<Stated<'_>> {
    let (name, behind) = text.strip_prefix('(')?.split_once(')')?;
    if !is_name(name) {
        return None;
    }
    let (buffer, behind) = match behind.strip_prefix(", empty buffer") {
        Some(behind) => (Some(""), behind),
        None => quoted(behind, ", buffer "),
    };
    let (asked, behind) = match behind.strip_prefix(", ") {
        Some(asked) if ["to ", "trim "].iter().any(|task| asked.starts_with(task)) => {
            let end = asked.find(':').expect(name);
            (Some(&asked[..end]), &asked[end..])
        }
        _ => (None, behind),
    };
    let (Some(answer), behind) = quoted(behind, ": answer ") else {
        panic!("no answer behind {name}");
    };
    let (after, _) = quoted(behind, ", buffer afterwards ");
    let (result, _) = quoted(behind, ", result ");
    Some(Stated {
        name,
        buffer,
        asked,
        answer,
        after,
        result,
    })
}

/// What stands between backticks behind these words, if they come first, and the rest.
fn quoted<'a>(text: &'a str, words: &str) -> (Option<&'a str>, &'a str) {
    let behind = text
        .strip_prefix(words)
        .and_then(|text| text.strip_prefix('`'));
    match behind.and_then(|text| text.split_once('`')) {
        Some((quoted, rest)) => (Some(quoted), rest),
        None => (None, text),
    }
}

/// "Dm.n".
fn is_name(text: &str) -> bool {
    let is_number = |part: &str| !part.is_empty() && part.bytes().all(|sign| sign.is_ascii_digit());
    let numbers = text.strip_prefix('D').and_then(|text| text.split_once('.'));
    numbers.is_some_and(|(decision, number)| is_number(decision) && is_number(number))
}

fn cells(text: &str) -> Vec<i64> {
    text.split_whitespace()
        .map(|cell| cell.parse().expect("a cell"))
        .collect()
}

/// The page has each example of the file once, in its own decision, with its answer.
#[test]
fn the_page_and_the_file() {
    let page = fs::read_to_string(in_repository("docs/DECISIONS.md")).unwrap();
    let examples = of_decisions();
    let mut told: Vec<&str> = Vec::new();
    let mut decision = "";
    for line in page.lines() {
        let heading = line.strip_prefix("### ").or(line.strip_prefix("| "));
        if let Some(heading) = heading.filter(|heading| heading.starts_with('D')) {
            decision = heading.split(['.', ' ']).next().expect("a number");
        }
        for (at, _) in line.match_indices('(') {
            let Some(stated) = stated(&line[at..]) else {
                continue;
            };
            let (of, _) = stated.name.split_once('.').expect("a name");
            assert_eq!(of, decision, "{}", stated.name);
            let example = examples.iter().find(|example| example.name == stated.name);
            let example = example.unwrap_or_else(|| panic!("{} is in the file", stated.name));
            assert_eq!(stated.answer, example.answer, "{}", stated.name);
            assert_eq!(stated.buffer.map(cells), example.buffer, "{}", stated.name);
            if let Some(after) = stated.after {
                assert_eq!(cells(after), expected(example).1, "{}", stated.name);
            }
            let asked = example.asked.as_ref();
            let task = asked.map(Asked::to_string);
            assert_eq!(stated.asked, task.as_deref(), "{}", stated.name);
            if let Some(result) = stated.result {
                let written = asked.map(|asked| asked.result.clone());
                assert_eq!(Some(words(result)), written, "{}", stated.name);
            }
            told.push(stated.name);
        }
    }
    let names: Vec<&str> = examples.iter().map(|example| example.name).collect();
    let words = page.split(|sign: char| !sign.is_ascii_alphanumeric() && sign != '.');
    for word in words.map(|word| word.trim_end_matches('.')) {
        assert!(!is_name(word) || names.contains(&word), "{word}");
    }
    for name in names {
        let times = told.iter().filter(|told| **told == name).count();
        assert_eq!(times, 1, "{name}");
    }
}

/// D1: 1,024 skips in 32 procedures, so that only the certificate's total is wrong.
#[test]
fn a_total_beyond_32_bits() {
    let firsts = (0..32).map(|procedure| 1 + 32 * procedure);
    let mut program = vec![1_024, 32, 0, 2 * 1_024 + 96];
    program.extend([1].repeat(1_024));
    program.extend([6].repeat(32));
    program.extend((0..1_024).map(|statement| 2 * statement));
    program.extend((0..32).map(|procedure| 2 * 1_024 + 3 * procedure));
    program.extend((1..=1_024).flat_map(|statement| [0, statement]));
    program.extend(firsts.flat_map(|first| [first, 0, 0]));
    let mut certificate = vec![1, i32::MAX, i32::MAX];
    certificate.resize(2_177, 0);
    assert_answer("D1", &program, &certificate, "refused 4 0 0");
}

/// D5: with program S and W witness words `1 1 0 0 ..`.
#[test]
fn a_million_words() {
    let mut certificate = words("1 1 999990 | 1 0 0 | 0 0 0 | 0 | 1 1");
    certificate.resize(1_000_000, 0);
    assert_answer("D5 in", &words(PROGRAM_S), &certificate, "refused 8 12 0");
    certificate[2] += 1;
    certificate.push(0);
    assert_answer("D5 out", &words(PROGRAM_S), &certificate, "refused 4 0 0");
}

/// D152: with program S, three entries that share a word, and so many witness words.
#[test]
fn a_million_words_written() {
    for (count, expected) in [(999_988, "written 1000000"), (999_989, "refused 26 0 0")] {
        let mut pair = Pair {
            program: words(PROGRAM_S),
            witness: words(&format!("1 1 {count} | 1 1 1 | 0 0 0 | 0")),
        };
        pair.witness.resize(10 + count, 7);
        let mut result = words(&format!("4 3 {count} | 1 1 1 | 0 1 2 | 0 0 0"));
        result.resize(12 + count, 7);
        if expected != "written 1000000" {
            result.clear();
        }
        for converter in converters() {
            for room in [1_000_000, 1_000_002] {
                let (answer, after) = conversion(converter, Direction::ToSparse, &pair, room);
                assert_eq!(answer.to_string(), expected, "D152");
                assert!(after == written(&result, room), "D152");
            }
        }
    }
}

/// D157: with program A, certificate A and so many witness words, as many words as a file may have and
/// one more. The program over files writes the first alone.
#[test]
fn most_words_of_a_file_written() {
    for (count, expected) in [(16_364, "written 16384"), (16_365, "written 16385")] {
        let mut pair = Pair {
            program: words(PROGRAM_A),
            witness: words(CERTIFICATE_A),
        };
        pair.witness[2] = count;
        pair.witness.resize(17 + count as usize, 0);
        for converter in converters() {
            let (answer, _) = conversion(converter, Direction::ToSparse, &pair, 20_000);
            assert_eq!(answer.to_string(), expected, "D157");
        }
    }
}

/// D127: a certificate whose vertex 1 has a disjunct without rows, with these
/// witness words, from 10 on.
fn anything(witnesses: &str) -> String {
    let count = witnesses.split_whitespace().count();
    format!("1 1 {count} | 1 0 0 | 0 0 0 | 0 | {witnesses}")
}

/// D127: so many splits on the way to the first leaf, on that to the last, and on each way.
#[test]
fn eight_splits_on_a_way() {
    let tree = |splits: u32, full: bool| -> String {
        let mut tree = String::from("1");
        for _ in 0..splits {
            let side = if full { tree.clone() } else { "1".into() };
            tree = format!("-1 0 0 {side} {tree}");
        }
        tree
    };
    for (splits, expected) in [(8, "safe 2"), (9, "refused 6 10 0")] {
        let first = format!("{} {}", "-1 0 0 ".repeat(splits), "1 ".repeat(splits + 1));
        let on_ways = [first, tree(splits as u32, false), tree(splits as u32, true)];
        for start in on_ways {
            let certificate = words(&anything(&format!("{start} 1")));
            assert_answer("D127", &words(PROGRAM_S), &certificate, expected);
        }
    }
    assert_eq!(tree(8, true).split_whitespace().count(), 255 * 3 + 256);
}

/// D116 and D121: trace B with so many entry values behind it.
#[test]
fn many_entry_values() {
    for (count, expected) in [
        (16_377, "refused 14 7 0"),
        (16_378, "refused 14 7 0"),
        (32_768, "refused 14 7 0"),
        (32_769, "refused 4 0 0"),
    ] {
        let mut trace = words(TRACE_B);
        trace[2] = count;
        trace.resize(7 + count as usize, 0);
        assert_answer("D116, D121", &words(PROGRAM_B), &trace, expected);
    }
}

/// D119: f calls itself and has an other local; the vertices are 1, then 2 sixty-four times, then 0.
#[test]
fn the_65th_call_and_missing_entry_values() {
    let program = words(named("program D119-deep"));
    for (count, expected) in [(63, "refused 12 67 0"), (62, "refused 14 66 0")] {
        let vertices = [vec![1], vec![2; 64], vec![0]].concat();
        let trace = [vec![3, 65, count], vertices, vec![0; count as usize]].concat();
        assert_answer("D119", &program, &trace, expected);
    }
}

/// D49, D89 and D135: f(a) asserts a ≠ 0 and calls f(a − 1); the vertices are 1, then 2 3 again and
/// again, then the ending.
#[test]
fn the_65th_call() {
    for (program, turns, ending, expected) in [
        ("program D49", 63, &[2][..], "refused 10 130 0"),
        ("program D49", 63, &[2, 0], "refused 12 130 0"),
        ("program D49-62", 62, &[2, 0], "trace 126 0"),
        ("program D135", 63, &[2], "refused 10 130 7"),
        ("program D135", 63, &[2, 0], "refused 12 130 7"),
    ] {
        let vertices = [vec![1], [2, 3].repeat(turns), ending.to_vec()].concat();
        let trace = [vec![3, vertices.len() as i32 - 1, 0], vertices].concat();
        assert_answer("D49, D89, D135", &words(named(program)), &trace, expected);
    }
}

/// D50: f(b) calls f(b + 1), and the value limit is passed at the 64th or at the 65th call.
#[test]
fn the_value_limit_and_the_65th_call() {
    for (program, expected) in [
        ("program D50", "refused 12 68 0"),
        ("program D50-61", "refused 11 67 0"),
    ] {
        let vertices = [vec![1], vec![2; 64], vec![0]].concat();
        let trace = [vec![3, 65, 0, 1_000_000_000], vertices].concat();
        assert_answer("D50", &words(named(program)), &trace, expected);
    }
}

#[test]
fn diagnoses() {
    let (program, certificate) = (words(PROGRAM_A), words(CERTIFICATE_A));
    let end = certificate.as_ptr_range().end;

    // D72: the words themselves, no copy.
    let mut other = certificate.clone();
    other[14] = 999_400;
    let answer = judge(&program, &other);
    assert_eq!(answer, refused(7, 21));
    let part = diagnosis(&program, &other, answer);
    assert_eq!(part, [0, 1, 1, 1]);
    assert_eq!(part.as_ptr(), other[21..].as_ptr());

    // D76 and D79.
    for number in [0, 16, 26, u64::MAX] {
        let part = diagnosis(&program, &certificate, refused(number, 0));
        assert_eq!((part.len(), part.as_ptr()), (0, end));
    }
    for place in [100, u64::MAX] {
        let part = diagnosis(&program, &certificate, refused(5, place));
        assert_eq!((part.len(), part.as_ptr()), (0, end));
    }
    let part = diagnosis(&program, &certificate, refused(3, 4));
    assert_eq!(part, &program[4..]);
    let part = diagnosis(&program, &certificate, refused(15, 4));
    assert_eq!(part.as_ptr_range(), certificate[4..].as_ptr_range());
    for number in [14, 25] {
        let part = diagnosis(&program, &certificate, refused(number, 0));
        assert_eq!(part.as_ptr_range(), certificate.as_ptr_range());
    }
    for answer in [Answer::Safe(5), Answer::Trace(2), refused(13, 1)] {
        let part = diagnosis(&program, &certificate, answer);
        assert_eq!((part.len(), part.as_ptr()), (0, end));
    }

    // D77 and D78.
    assert!(diagnosis(&[], &[], refused(1, 0)).is_empty());
    let longer = [certificate, vec![0]].concat();
    let answer = judge(&program, &longer);
    assert_eq!(answer, refused(4, 0));
    assert_eq!(diagnosis(&program, &longer, answer), longer);
    let (program, trace) = (words(PROGRAM_B), words(TRACE_B));
    let answer = replay(&program, &trace, &mut []);
    assert_eq!(answer, refused(13, 1));
    assert!(diagnosis(&program, &trace, answer).is_empty());

    // D79, D149.
    let program = words(PROGRAM_A);
    let mut sparse = words(named("certificate A-sparse"));
    sparse[9] = 8;
    let answer = judge(&program, &sparse);
    assert_eq!(answer, refused(25, 5));
    let part = diagnosis(&program, &sparse, answer);
    assert_eq!(part.as_ptr_range(), sparse[5..].as_ptr_range());
    assert_eq!(part[..6], [1, 1, 0, 1, 8, 8]);

    // D79, D120.
    let program = words(PROGRAM_B);
    let trace = words("3 2 1 0 1 2 0 5");
    let answer = replay(&program, &trace, &mut []);
    assert_eq!(answer, refused(14, 7));
    let part = diagnosis(&program, &trace, answer);
    assert_eq!(part.as_ptr_range(), trace[7..].as_ptr_range());
}

/// D80, of the replay vertex by vertex and of those by the grammar.
#[test]
fn the_other_kind_of_witness_input() {
    assert_eq!(judge(&words(PROGRAM_B), &words(TRACE_B)), refused(4, 0));
    let wrong = words(named("program D20"));
    assert_eq!(judge(&wrong, &words(TRACE_B)), refused(3, 4));
    for replay in [replay, replay_by_grammar, proved::replay_by_grammar] {
        let mut buffer = [7, 8];
        let answer = replay(&words(PROGRAM_A), &words(CERTIFICATE_A), &mut buffer);
        assert_eq!(answer, refused(4, 0));
        let answer = replay(&wrong, &words(CERTIFICATE_A), &mut buffer);
        assert_eq!(answer, refused(3, 4));
        assert_eq!(buffer, [7, 8]);
    }
}
