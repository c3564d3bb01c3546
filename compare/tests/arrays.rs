//! Traces of programs with arrays (document 02, CR 12): words written by hand, programs without arrays beside
//! the plain check, each element by itself, and traces made by runs, accepted and damaged for each number.

mod common;

use common::{refused, words, MARK};
use compare::checker::arrays::diagnosis;
use compare::checker::{self, Answer};
use compare::generate::aimed::Spot;
use compare::generate::arrays::{
    self, aimed, expanded, made, made_small, made_to, where_refused, with_header, Case, Ending,
    Expanded,
};
use compare::generate::{certificate_inputs, trace_inputs, Input};
use compare::proved::{self, ARRAY_CHECKERS};
use compare::random::Random;
use std::collections::BTreeMap;
use std::thread;

/// The answer of all checkers, which are alike, and the result buffer after it.
fn outcome(program: &[i32], witness: &[i32], buffer: &[i64]) -> (Answer, Vec<i64>) {
    let mut outcomes = ARRAY_CHECKERS.iter().map(|check| {
        let mut buffer = buffer.to_vec();
        let answer = check(program, witness, &mut buffer);
        (answer, buffer)
    });
    let first = outcomes.next().expect("the second checker");
    for other in outcomes {
        assert_eq!(other, first, "{program:?} {witness:?} {buffer:?}");
    }
    first
}

/// Asserts an answer that is written as the file program prints it.
fn assert_answer(program: &str, witness: &str, expected: &str) {
    assert_words(&words(program), &words(witness), expected);
}

fn assert_words(program: &[i32], witness: &[i32], expected: &str) {
    let (answer, buffer) = outcome(program, witness, &[MARK; 20]);
    let values = buffer.iter().take_while(|cell| **cell != MARK);
    let values: Vec<i64> = values.copied().collect();
    let told = values
        .iter()
        .fold(answer.to_string(), |told, value| format!("{told} {value}"));
    assert_eq!(told, expected, "{program:?} {witness:?}");
    assert!(buffer[values.len()..].iter().all(|cell| *cell == MARK));
}

// ---- words by hand

/// Global x, array a of 3: x = a[1]; assert x - 5 < 0. The read is in line 7, the assertion in line 9.
const READ: &str = "2 1 1 16 1 3 | 8 4 6 | 0 7 13 | 7 2 0 0 0 1 0 , 9 3 1 -1 999995 1 , 1 0 0";
const READ_TRACE: &str = "3 2 0 | 0 | 4 7 9 | 1 2 0";

/// Globals x and y, array a of 4: a[x] = 2 x + 1; y = a[x]; assert y = 0.
const WRITE: &str = "3 1 2 29 1 4 | 9 8 4 6 | 0 11 19 26 | \
     5 2 0 0 0 1 0 0 1 2 0 , 6 3 1 0 0 0 1 0 , 7 4 5 0 0 0 1 , 1 0 0";

/// Global x, array a of 2: a[1] = 1000 x; assert x = 0.
const FAR: &str = "2 1 1 18 1 2 | 9 4 6 | 0 9 15 | 5 2 0 0 1 0 0 0 1000 , 6 3 5 0 0 1 , 1 0 0";

/// Array a of 1, main with an other local x: main calls f; x = a[0]; assert x = 0. f: a[0] = 9.
const CALL: &str = "4 2 0 29 1 1 | 5 8 4 9 6 6 | 0 3 10 16 23 26 | \
     1 2 2 , 2 3 0 0 0 0 0 , 3 5 5 0 0 1 , 4 6 0 0 0 0 9 , 1 1 0 , 4 0 0";

/// The words with others in some places.
fn with(given: &str, changes: &[(usize, i32)]) -> Vec<i32> {
    let mut words = words(given);
    for &(place, word) in changes {
        words[place] = word;
    }
    words
}

#[test]
fn reads() {
    assert_answer(READ, READ_TRACE, "trace 2 7");
    assert_answer(READ, "3 2 0 | 0 | 4 4 9 | 1 2 0", "refused 10 9 9");
    // The index's two words stand at 16 and 17.
    let trace = words(READ_TRACE);
    for (high, low, answer) in [
        (0, 0, "refused 10 9 9"),
        (0, 2, "trace 2 9"),
        (0, 3, "refused 28 8 0"),
        (-1, 999_999, "refused 28 8 0"),
        (4_000, 0, "refused 28 8 0"),
        (-4_000, 0, "refused 28 8 0"),
        // x starts at 0, and the index is worked out before it changes.
        (0, 1, "trace 2 7"),
    ] {
        assert_words(&with(READ, &[(16, high), (17, low)]), &trace, answer);
    }
    // x = a[x + 1], with x from -1 to 2 and no further.
    let program = with(READ, &[(18, 1)]);
    for (x, answer) in [
        (-2, "refused 28 8 0"),
        (-1, "refused 10 9 9"),
        (0, "trace 2 7"),
        (1, "trace 2 9"),
        (2, "refused 28 8 0"),
    ] {
        assert_words(&program, &with(READ_TRACE, &[(3, x)]), answer);
    }
}

#[test]
fn writes() {
    assert_answer(WRITE, "3 3 0 | 3 0 | 0 0 0 0 | 1 2 3 0", "trace 3 3 7");
    assert_answer(WRITE, "3 3 0 | 0 8 | 5 5 5 5 | 1 2 3 0", "trace 3 0 1");
    assert_answer(WRITE, "3 3 0 | 4 0 | 0 0 0 0 | 1 2 3 0", "refused 28 10 0");
    assert_answer(WRITE, "3 3 0 | -1 0 | 0 0 0 0 | 1 2 3 0", "refused 28 10 0");
    // The limit of values is that of elements, and an index beyond its array comes first.
    let trace = words("3 2 0 | 1000000000 | 0 0 | 1 2 0");
    assert_words(&words(FAR), &trace, "trace 2 1000000000");
    assert_words(&with(FAR, &[(19, 1)]), &trace, "refused 11 7 5");
    assert_words(&with(FAR, &[(16, 2), (19, 1)]), &trace, "refused 28 7 0");
    // A vertex that isn't the successor comes before the index, and so does a last one that isn't 0.
    let program = with(FAR, &[(16, 2), (19, 1)]);
    let trace = words("3 2 0 | 1000000000 | 0 0 | 1 3 0");
    assert_words(&program, &trace, "refused 10 7 5");
    let trace = words("3 1 0 | 1000000000 | 0 0 | 1 2");
    assert_words(&program, &trace, "refused 10 7 5");
}

#[test]
fn arrays_are_global() {
    assert_answer(CALL, "3 5 0 | 0 | 0 | 1 4 6 2 3 0", "trace 5 9");
    // Back to another vertex than the return point.
    assert_answer(CALL, "3 5 0 | 0 | 0 | 1 4 6 3 2 0", "refused 10 8 0");
    // f has an other local, which takes an entry value: 14 at the callee's first vertex.
    let other = "4 2 0 31 1 1 | 5 8 4 9 6 6 | 0 3 10 16 25 28 | \
         1 2 2 , 2 3 0 0 0 0 0 , 3 5 5 0 0 1 , 4 6 0 0 0 0 0 9 0 , 1 1 0 , 4 1 0";
    assert_answer(other, "3 5 1 | 0 | 0 | 1 4 6 2 3 0 | 5", "trace 5 9");
    assert_answer(other, "3 5 0 | 0 | 0 | 1 4 6 2 3 0", "refused 14 6 0");
    assert_answer(
        other,
        "3 5 2 | 0 | 0 | 1 4 6 2 3 0 | 5 5",
        "refused 14 12 0",
    );
    // The read of a callee's local, where the caller's keeps its value: f(): y = a[0]; assert y = 0.
    let local = "2 2 0 19 1 1 | 5 8 6 6 | 0 3 10 13 | \
         1 1 2 , 2 4 0 0 0 0 0 , 1 0 0 , 2 1 0 , 0 0 0";
    assert_answer(local, "3 2 1 | | 6 | 1 2 4 | 8", "refused 10 6 2");
}

#[test]
fn headers() {
    let trace = words(READ_TRACE);
    let changed = |changes: &[(usize, i32)], answer| {
        assert_words(&with(READ, changes), &trace, answer);
    };
    for count in [-1, 5, 64, i32::MIN, i32::MAX] {
        changed(&[(4, count)], "refused 27 4 0");
        // Before the total, and after n, p, G and Q.
        assert_words(&[2, 1, 1, 16, count], &trace, "refused 27 4 0");
        assert_words(&[2, 1, 1, 16, count, 0], &trace, "refused 27 4 0");
        assert_words(&[2, 1, 9, 16, count], &trace, "refused 1 0 0");
        changed(&[(3, 12_001), (4, count)], "refused 1 0 0");
    }
    for length in 0..words(READ).len() {
        assert_words(&words(READ)[..length], &trace, "refused 1 0 0");
    }
    for size in [0, -1, 65, i32::MIN, i32::MAX] {
        changed(&[(5, size)], "refused 27 5 0");
        // Before the exits and the statements, and after the total.
        changed(&[(5, size), (8, 1), (6, 7)], "refused 27 5 0");
        let more = [with(READ, &[(5, size)]), vec![0]].concat();
        assert_words(&more, &trace, "refused 1 0 0");
    }
    // No arrays: the words are one less than the total, and with one less again there is no array to read.
    changed(&[(4, 0)], "refused 1 0 0");
    let none = "2 1 1 16 0 | 8 4 6 | 0 7 13 | 7 2 0 0 0 1 0 , 9 3 1 -1 999995 1 , 1 0 0";
    assert_answer(none, "3 2 0 | 0 | 1 2 0", "refused 3 5 7");
    changed(&[(8, 1)], "refused 2 8 0");
    changed(&[(8, 1), (6, 7)], "refused 2 8 0");
    changed(&[(6, 7)], "refused 3 6 7");
    changed(&[(6, 10)], "refused 3 6 7");
    // Line, successor, column and array of the read, which stands from 12 on.
    changed(&[(12, 1_000_001)], "refused 3 6 0");
    changed(&[(13, 0)], "refused 3 6 7");
    changed(&[(14, 1)], "refused 3 6 7");
    changed(&[(15, 1)], "refused 3 6 7");
    changed(&[(15, -1)], "refused 3 6 7");
    changed(&[(17, 1_000_000)], "refused 3 6 7");
    changed(&[(18, 1_001)], "refused 3 6 7");
    // The sizes of a second and a fourth array.
    let four = "1 1 0 7 4 2 64 1 65 | 1 6 | 0 2 | 0 1 , 1 0 0 , 0 0";
    assert_answer(four, "3 1 0", "refused 27 8 0");
    let second = four.replace("2 64 1 65", "2 0 1 65");
    assert_answer(&second, "3 1 0", "refused 27 6 0");
    let right = four.replace("65", "64");
    assert_answer(&right, "3 1 0", "refused 4 0 0");
}

#[test]
fn trace_words() {
    let program = words(READ);
    let told = |trace: &str, answer| assert_words(&program, &words(trace), answer);
    // Every other mark, also of a certificate that the plain check would judge.
    for mark in [-1, 0, 1, 2, 4, 5] {
        told(
            &READ_TRACE.replacen('3', &mark.to_string(), 1),
            "refused 4 0 0",
        );
    }
    told("", "refused 4 0 0");
    told("3 2 0 | 0 | 1 2 0", "refused 4 0 0");
    told("3 2 0 | 0 | 4 7 9 1 | 1 2 0", "refused 4 0 0");
    told("3 0 0 | 0 | 4 7 9 | 1", "refused 4 0 0");
    // Main's start values, then the elements, then the entry values.
    told("3 2 0 | 1000000001 | 4 7 9 | 1 2 0", "refused 9 3 0");
    told(
        "3 2 0 | 0 | -1000000001 1000000001 9 | 1 2 0",
        "refused 9 4 0",
    );
    told("3 2 0 | 0 | 4 7 1000000001 | 2 2 0", "refused 9 6 0");
    told(
        "3 2 1 | 0 | 4 7 1000000001 | 2 2 0 | 1000000001",
        "refused 9 6 0",
    );
    told("3 2 1 | 0 | 4 7 9 | 2 2 0 | 1000000001", "refused 9 10 0");
    told("3 2 0 | 0 | 4 1000000000 9 | 1 2 0", "trace 2 1000000000");
    told("3 2 0 | 0 | 4 7 9 | 2 2 0", "refused 10 7 0");
    told("3 2 1 | 0 | 4 7 9 | 1 2 0 | 5", "refused 14 10 0");
    // The result buffer gets x alone, and 13 has its k.
    let trace = words(READ_TRACE);
    let after = outcome(&program, &trace, &[]);
    assert_eq!(after, (refused(13, 1), vec![]));
    let after = outcome(&program, &trace, &[MARK]);
    assert_eq!(after, (Answer::Trace(2), vec![7]));
    let after = outcome(&program, &trace, &[MARK; 4]);
    assert_eq!(after, (Answer::Trace(2), vec![7, MARK, MARK, MARK]));
    let left = words("3 2 1 | 0 | 4 7 9 | 1 2 0 | 5");
    assert_eq!(outcome(&program, &left, &[]), (refused(14, 10), vec![]));
}

#[test]
fn diagnoses() {
    let (program, trace) = (words(READ), words(READ_TRACE));
    let of = |number, place| diagnosis(&program, &trace, refused(number, place));
    assert_eq!(of(27, 4), &program[4..]);
    assert_eq!(of(27, 1_000), &[]);
    assert_eq!(of(28, 8), &trace[8..]);
    assert_eq!(of(28, u64::MAX), &[]);
    assert_eq!(of(3, 6), &program[6..]);
    assert_eq!(of(13, 1), &[]);
}

// ---- each element

/// One global x, so many arrays: x = array[constant]; assert x ≠ x + 0, which fails.
fn reader(sizes: &[usize], array: usize, index: i32) -> Vec<i32> {
    let row = [0, 2, 0, array as i32, 0, index, 0];
    let row = match index {
        ..0 => [0, 2, 0, array as i32, -1, 1_000_000 + index, 0],
        _ => row,
    };
    let plain = [
        &[2, 1, 1, 16, 8, 4, 6, 0, 7, 13][..],
        &row,
        &[0, 3, 6, 0, 0, 0, 1, 0, 0],
    ]
    .concat();
    let header = [sizes.len()].into_iter().chain(sizes.iter().copied());
    let header: Vec<i32> = header.map(|word| word as i32).collect();
    with_header(&plain, &header)
}

/// Each element of each array is the start value in its place, array by array, and none is there before the
/// first and behind the last.
#[test]
fn each_element() {
    let random = &mut Random::new(1201);
    let mut seen = 0;
    for round in 0..200 {
        let count = 1 + round % 4;
        let sizes: Vec<usize> = (0..count)
            .map(|_| *random.pick(&[1, 2, 3, 7, 63, 64]))
            .collect();
        let total: usize = sizes.iter().sum();
        let elements = (0..total as i32).map(|at| 1_000 + at);
        let trace: Vec<i32> = [3, 2, 0, 5]
            .into_iter()
            .chain(elements)
            .chain([1, 2, 0])
            .collect();
        let mut first = 1_000;
        for (array, &size) in sizes.iter().enumerate() {
            for index in 0..size as i64 {
                let program = reader(&sizes, array, index as i32);
                let after = outcome(&program, &trace, &[MARK]);
                assert_eq!(after, (Answer::Trace(2), vec![first + index]));
                seen += 1;
            }
            for index in [-1, -2, size as i32, size as i32 + 1] {
                let program = reader(&sizes, array, index);
                let after = outcome(&program, &trace, &[MARK]);
                assert_eq!(after, (refused(28, 4 + total as u64 + 1), vec![MARK]));
            }
            first += size as i64;
        }
    }
    assert!(seen >= 5_000);
}

/// The most steps, the most arrays and the largest sizes: x = a3[63], again and again, behind a `?` that at
/// last leads to an assertion that fails.
#[test]
fn largest() {
    let plain =
        "3 1 1 23 | 3 8 4 6 | 0 7 14 20 | 0 2 3 0 0 0 0 , 0 1 0 3 0 63 0 , 0 4 6 0 0 0 , 1 0 0";
    let program = with_header(&words(plain), &[4, 64, 64, 64, 64]);
    for (rounds, answer, x) in [
        (2_047, Answer::Trace(4_096), 256),
        (2_048, refused(4, 0), MARK),
    ] {
        let starts: Vec<i32> = (0..=256).collect();
        let vertices = [[1, 2].repeat(rounds), vec![1, 3, 0]].concat();
        let header = vec![3, vertices.len() as i32 - 1, 0];
        let trace = [header, starts, vertices].concat();
        let after = outcome(&program, &trace, &[MARK; 2]);
        assert_eq!(after, (answer, vec![x, MARK]));
    }
}

// ---- programs without arrays

/// The plain check's answer, of traces alone, with so many words more in the program's header and so many
/// start values more behind main's, of which there are `columns`.
fn shifted(plain: Answer, header: u64, columns: u64, elements: u64) -> Answer {
    let Answer::Refused {
        number,
        place,
        line,
    } = plain
    else {
        return plain;
    };
    let place = match number {
        2 | 3 => place + header,
        9..=12 | 14 if place >= 3 + columns => place + elements,
        _ => place,
    };
    Answer::Refused {
        number,
        place,
        line,
    }
}

fn plain_outcome(input: &Input) -> (Answer, Vec<i64>) {
    let mut buffer = input.buffer.clone();
    let answer = checker::replay(&input.program, &input.witness, &mut buffer);
    (answer, buffer)
}

/// Every input with a 0 behind Q is answered as the plain replay answers it.
#[test]
fn no_arrays() {
    let mut counts: BTreeMap<u64, u64> = BTreeMap::new();
    let inputs = trace_inputs(1202).take(30_000);
    for input in inputs.chain(certificate_inputs(1203).take(3_000)) {
        if input.program.len() < 4 {
            continue;
        }
        let (plain, buffer) = plain_outcome(&input);
        if input.witness.first() == Some(&3) {
            let mut buffer = input.buffer.clone();
            let check = checker::check(&input.program, &input.witness, &mut buffer);
            assert_eq!(check, plain);
        }
        let program = with_header(&input.program, &[0]);
        let told = outcome(&program, &input.witness, &input.buffer);
        assert_eq!(told, (shifted(plain, 1, 0, 0), buffer), "{input:?}");
        *counts.entry(number(plain)).or_default() += 1;
    }
    println!("without arrays: {counts:?}");
    for number in [0, 1, 2, 3, 4, 9, 10, 11, 12, 13, 14] {
        assert!(counts.get(&number) >= Some(&100), "{number}: {counts:?}");
    }
}

/// Arrays that no statement uses change places alone.
#[test]
fn unused_arrays() {
    let random = &mut Random::new(1204);
    let mut counts: BTreeMap<u64, u64> = BTreeMap::new();
    for input in trace_inputs(1205).take(20_000) {
        let (plain, buffer) = plain_outcome(&input);
        // Main's start values are where the program says, which has to be right for that.
        if matches!(number(plain), 1..=4) {
            continue;
        }
        let [statements, procedures, globals] = [0, 1, 2].map(|at| input.program[at] as usize);
        let vertices = statements + procedures;
        let exit = input.program[4 + vertices + statements] as usize;
        let locals = input.program[4 + 2 * vertices + exit + 1] as usize;
        let columns = globals + locals;
        let sizes: Vec<i32> = (0..1 + random.below(4))
            .map(|_| random.between(1, 64))
            .collect();
        let elements: i32 = sizes.iter().sum();
        let header = [vec![sizes.len() as i32], sizes].concat();
        let (front, rest) = input.witness.split_at(3 + columns);
        let starts = (0..elements).map(|_| random.between(-1_000_000_000, 1_000_000_000));
        let witness = [front, &starts.collect::<Vec<_>>(), rest].concat();
        let program = with_header(&input.program, &header);
        let told = outcome(&program, &witness, &input.buffer);
        let answer = shifted(plain, header.len() as u64, columns as u64, elements as u64);
        assert_eq!(told, (answer, buffer), "{input:?}");
        *counts.entry(number(plain)).or_default() += 1;
    }
    println!("unused arrays: {counts:?}");
    for number in [0, 9, 10, 11, 12, 13, 14] {
        assert!(counts.get(&number) >= Some(&100), "{number}: {counts:?}");
    }
}

/// The refusal's number, and 0 for a trace.
fn number(answer: Answer) -> u64 {
    match answer {
        Answer::Refused { number, .. } => number,
        _ => 0,
    }
}

// ---- traces made by runs

/// How often each answer was given, by its number, 0 for an accepted trace; and each sort of damage, by the
/// number and the spot.
#[derive(Debug, Default)]
struct Seen {
    numbers: BTreeMap<u64, u64>,
    cases: BTreeMap<(&'static str, u64, Spot), u64>,
    /// Accepted traces without damage, and those with accesses, with calls and with 64 open ones.
    made: u64,
    with_accesses: u64,
    with_calls: u64,
    deepest: u64,
    /// By the number of arrays.
    arrays: BTreeMap<usize, u64>,
}

impl Seen {
    fn add(&mut self, case: &Case) {
        let Case { input, answer, .. } = case;
        let mut expected = input.buffer.clone();
        expected[..case.values.len()].copy_from_slice(&case.values);
        let told = outcome(&input.program, &input.witness, &input.buffer);
        assert_eq!(told, (*answer, expected), "{case:?}");
        let number = number(*answer);
        *self.numbers.entry(number).or_default() += 1;
        let key = (case.name, number, case.spot);
        *self.cases.entry(key).or_default() += 1;
    }

    fn add_made(&mut self, random: &mut Random) {
        let made = made(random);
        for case in aimed(random, &made) {
            self.add(&case);
        }
        if let Answer::Trace(_) = made.answer() {
            let visits = &made.visits;
            self.made += 1;
            self.with_accesses += u64::from(visits.iter().any(|visit| visit.index.is_some()));
            let deepest = visits.iter().map(|visit| visit.open_calls).max();
            self.with_calls += u64::from(deepest > Some(1));
            self.deepest += u64::from(deepest == Some(64));
            *self.arrays.entry(made.program.sizes.len()).or_default() += 1;
        }
    }

    fn merge(mut self, other: Seen) -> Seen {
        sum(&mut self.numbers, other.numbers);
        sum(&mut self.cases, other.cases);
        sum(&mut self.arrays, other.arrays);
        self.made += other.made;
        self.with_accesses += other.with_accesses;
        self.with_calls += other.with_calls;
        self.deepest += other.deepest;
        self
    }
}

fn sum<K: Ord>(counts: &mut BTreeMap<K, u64>, more: BTreeMap<K, u64>) {
    for (key, count) in more {
        *counts.entry(key).or_default() += count;
    }
}

/// How many traces are made by each of the two threads, and how many that are to open a 65th call.
const MADE: usize = if cfg!(debug_assertions) { 700 } else { 14_500 };
const DEEP: usize = if cfg!(debug_assertions) { 200 } else { 3_000 };

#[test]
fn made_and_damaged() {
    let threads = [1206, 1207].map(|seed| {
        thread::spawn(move || {
            let random = &mut Random::new(seed);
            let mut seen = Seen::default();
            for _ in 0..MADE {
                seen.add_made(random);
            }
            for _ in 0..DEEP {
                let deep = made_to(random, Ending::Refused(12));
                for case in where_refused(random, &deep) {
                    seen.add(&case);
                }
            }
            seen
        })
    });
    let seen = threads
        .into_iter()
        .map(|thread| thread.join().expect("no assertion failed"))
        .fold(Seen::default(), Seen::merge);
    println!("{seen:#?}");
    let share = |count: u64| {
        if cfg!(debug_assertions) {
            count / 20
        } else {
            count
        }
    };
    assert!(seen.made >= share(20_000));
    assert!(seen.with_accesses >= share(10_000));
    assert!(seen.with_calls >= share(5_000));
    assert!(seen.deepest >= share(20));
    for number in [1, 27, 2, 3, 4, 9, 10, 28, 12, 14, 11, 13] {
        let count = seen.numbers.get(&number);
        assert!(count >= Some(&share(10_000)), "{number}: {count:?}");
    }
    for arrays in 0..=4 {
        assert!(seen.arrays.get(&arrays) >= Some(&share(1_000)));
    }
    for (name, number) in AT_ALL_SPOTS {
        for spot in Spot::ALL {
            let count = seen.cases.get(&(name, number, spot));
            assert!(count >= Some(&share(100)), "{name}, {spot:?}: {count:?}");
        }
    }
}

/// What is damaged at first, middle and last places, and the number that answers, also where two are wrong.
const AT_ALL_SPOTS: [(&str, u64); 24] = [
    ("words missing", 1),
    ("array size", 27),
    ("array size and exit", 27),
    ("array size and statement", 27),
    ("exit", 2),
    ("exit, statement and mark", 2),
    ("statement", 3),
    ("statement, later one and mark", 3),
    ("read", 3),
    ("write", 3),
    ("start value of main", 9),
    ("start value of an element", 9),
    ("entry value", 9),
    ("vertex", 10),
    ("last vertex", 10),
    ("index and vertex", 10),
    ("index and last vertex", 10),
    ("index of a read", 28),
    ("index of a write", 28),
    ("index and value", 28),
    ("value of a write", 11),
    ("missing", 14),
    ("missing and last vertex", 10),
    ("buffer", 13),
];

/// The same runs with elements that are globals, by document 001's abstraction: the plain checks, the proved
/// one too, answer alike, and leave the elements that the run leaves.
#[test]
fn without_arrays_by_globals() {
    let random = &mut Random::new(1210);
    let mut counts: BTreeMap<u64, u64> = BTreeMap::new();
    for _ in 0..if cfg!(debug_assertions) { 1_500 } else { 6_000 } {
        let made = made_small(random);
        let pair = made.pair(random);
        let (answer, buffer) = outcome(&pair.program, &pair.witness, &[MARK; 20]);
        assert_eq!(answer, made.answer());
        assert!(buffer.starts_with(made.values()));
        let Some(Expanded {
            pair,
            answer: expected,
            values,
        }) = expanded(&made)
        else {
            continue;
        };
        for check in [checker::check, proved::check] {
            let mut buffer = [MARK; 20];
            let told = check(&pair.program, &pair.witness, &mut buffer);
            assert_eq!(told, expected, "{made:?} {pair:?}");
            assert!(buffer.starts_with(&values), "{made:?} {pair:?}");
        }
        let has_accesses = made.visits.iter().any(|visit| visit.index.is_some());
        *counts.entry(number(answer)).or_default() += u64::from(has_accesses);
    }
    println!("by globals, with accesses: {counts:?}");
    assert!(counts.get(&0) >= Some(&500));
    for number in [11, 12, 28] {
        assert!(counts.get(&number) >= Some(&10), "{number}: {counts:?}");
    }
}

/// Random damage, and words of chance: each check ends, and a refusal leaves the result buffer as it was.
#[test]
fn any_words() {
    let mut counts: BTreeMap<u64, u64> = BTreeMap::new();
    let random = &mut Random::new(1208);
    for input in arrays::inputs(1209).take(if cfg!(debug_assertions) {
        20_000
    } else {
        150_000
    }) {
        let (answer, buffer) = outcome(&input.program, &input.witness, &input.buffer);
        if number(answer) != 0 {
            assert_eq!(buffer, input.buffer);
        }
        *counts.entry(number(answer)).or_default() += 1;
    }
    for _ in 0..20_000 {
        let [program, witness] = [0, 1].map(|_| -> Vec<i32> {
            (0..random.below(30))
                .map(|_| match random.chance(10) {
                    true => random.word() as i32,
                    false => random.between(-1, 6),
                })
                .collect()
        });
        outcome(&program, &witness, &[MARK; 3]);
    }
    println!("any words: {counts:?}");
}
