//! The replay by the grammar (document 02, CR 10): on every trace, good and damaged, both of them answer what
//! both checks answer, and leave the same result buffer. And how accepted traces are derived from V.

mod common;

use common::{refused, words, MARK};
use compare::checker::grammar::{reading, Caller, Label, Level, Part, Path, Reading};
use compare::checker::{self, Answer};
use compare::compare::{outcome, Second, SecondByGrammar};
use compare::examples::examples;
use compare::files::marked_buffer;
use compare::generate::aimed::{self, Spot};
use compare::generate::calls::{called, of_steps, too_deep, Case, Inside, Shape};
use compare::generate::traces::{self, Trace};
use compare::generate::{
    certificate_inputs, large, sparse_inputs, split_inputs, trace_inputs, Input, Pair,
};
use compare::proved::{self, Proved, ProvedByGrammar};
use compare::random::Random;
use std::collections::BTreeMap;
use std::process::{Command, Stdio};
use std::thread;

/// What was compared.
#[derive(Debug, Default)]
struct Seen {
    traces: u64,
    accepted: u64,
    refused: BTreeMap<u64, u64>,
    /// Of aimed damage: by its name, what is innermost there, and where among such places.
    cases: BTreeMap<(&'static str, Inside, Spot), u64>,
    /// Refusals by their numbers, likewise.
    places: BTreeMap<(u64, Inside, Spot), u64>,
    derived: Derived,
}

/// Accepted traces whose derivation was tested.
#[derive(Debug, Default)]
struct Derived {
    traces: u64,
    /// By the kinds of their calls.
    without_calls: u64,
    matched: u64,
    unmatched: u64,
    both: u64,
    /// With 64 open calls at the most: by matched calls alone, by unmatched ones alone, and by both.
    deepest_matched: u64,
    deepest_unmatched: u64,
    deepest_both: u64,
    /// Those that are short enough to be tested by the productions themselves.
    by_productions: u64,
}

impl Seen {
    /// All four answer alike, with this result buffer.
    fn add(&mut self, input: &Input) -> Answer {
        let second = outcome(&Second, input);
        assert_eq!(outcome(&Proved, input), second, "{input:?}");
        assert_eq!(outcome(&SecondByGrammar, input), second, "{input:?}");
        assert_eq!(outcome(&ProvedByGrammar, input), second, "{input:?}");
        self.traces += 1;
        match second.0 {
            Answer::Refused { number, .. } => *self.refused.entry(number).or_default() += 1,
            _ => self.accepted += 1,
        }
        second.0
    }

    /// The same of an input that may have no trace.
    fn add_any(&mut self, input: &Input) {
        match input.witness.first() {
            Some(3) => {
                let answer = self.add(input);
                if let Answer::Trace(_) = answer {
                    self.derived.add(&input.program, &input.witness);
                }
            }
            _ => assert_no_trace(input),
        }
    }

    fn add_pair(&mut self, pair: &Pair, buffer: usize) -> Answer {
        self.add(&Input {
            program: pair.program.clone(),
            witness: pair.witness.clone(),
            buffer: pattern(buffer),
        })
    }

    fn add_case(&mut self, case: &Case) {
        let answer = self.add_pair(&case.pair, 20);
        assert_eq!(answer, case.answer, "{}: {:?}", case.name, case.pair);
        let key = (case.name, case.inside, case.spot);
        *self.cases.entry(key).or_default() += 1;
        match answer {
            Answer::Refused { number, .. } => {
                let key = (number, case.inside, case.spot);
                *self.places.entry(key).or_default() += 1;
            }
            _ => self.derived.add(&case.pair.program, &case.pair.witness),
        }
    }

    fn merge(mut self, other: Seen) -> Seen {
        self.traces += other.traces;
        self.accepted += other.accepted;
        sum(&mut self.refused, other.refused);
        sum(&mut self.cases, other.cases);
        sum(&mut self.places, other.places);
        self.derived.merge(&other.derived);
        self
    }
}

fn sum<K: Ord>(counts: &mut BTreeMap<K, u64>, more: BTreeMap<K, u64>) {
    for (key, count) in more {
        *counts.entry(key).or_default() += count;
    }
}

/// Numbers that are all different and that no value is.
fn pattern(length: usize) -> Vec<i64> {
    (0..length as i64).map(|at| MARK + at).collect()
}

/// Both replays by the grammar refuse what is no trace with 4 at 0, after the tests of the program, where
/// both checks judge it.
fn assert_no_trace(input: &Input) {
    let second = outcome(&Second, input);
    assert_eq!(outcome(&Proved, input), second, "{input:?}");
    let answer = match second.0 {
        Answer::Refused { number: 1..=3, .. } => second.0,
        _ => refused(4, 0),
    };
    let expected = (answer, input.buffer.clone());
    assert_eq!(outcome(&SecondByGrammar, input), expected, "{input:?}");
    assert_eq!(outcome(&ProvedByGrammar, input), expected, "{input:?}");
}

// ---- how accepted traces are derived

impl Derived {
    /// The labels of the steps are a string from V, as the derivation says, a stack of calls, and for short
    /// ones the productions.
    fn add(&mut self, program: &[i32], witness: &[i32]) {
        let Reading { path, labels, .. } = reading(program, witness).expect("it is accepted");
        assert_eq!(labels.len(), witness[1] as usize);
        assert!(path.labels() == labels, "{witness:?}");
        let unmatched = unmatched(&labels).expect("each return has its call");
        assert_eq!(derived_unmatched(&path), unmatched);
        let calls = labels
            .iter()
            .filter(|label| matches!(label, Label::Call(_)));
        let matched = calls.count() - unmatched;
        assert_eq!(derived_matched(&path), matched);
        if labels.len() <= SHORT {
            assert!(Table::of(&labels).is_from_v(), "{labels:?}");
            self.by_productions += 1;
        }
        self.traces += 1;
        match (matched, unmatched) {
            (0, 0) => self.without_calls += 1,
            (_, 0) => self.matched += 1,
            (0, _) => self.unmatched += 1,
            _ => self.both += 1,
        }
        match (deepest(&path), unmatched) {
            (63, 0) => self.deepest_matched += 1,
            (63, 63) => self.deepest_unmatched += 1,
            (63, _) => self.deepest_both += 1,
            (calls, _) => assert!(calls < 63),
        }
    }

    fn merge(&mut self, other: &Derived) {
        self.traces += other.traces;
        self.without_calls += other.without_calls;
        self.matched += other.matched;
        self.unmatched += other.unmatched;
        self.both += other.both;
        self.deepest_matched += other.deepest_matched;
        self.deepest_unmatched += other.deepest_unmatched;
        self.deepest_both += other.deepest_both;
        self.by_productions += other.by_productions;
    }
}

/// How many calls stay open, if each return has the return point and the locals of the innermost one.
fn unmatched(labels: &[Label]) -> Option<usize> {
    let mut open: Vec<&Caller> = Vec::new();
    for label in labels {
        match label {
            Label::Step => {}
            Label::Call(caller) => open.push(caller),
            Label::Return(caller) if open.last() == Some(&caller) => {
                open.pop();
            }
            Label::Return(_) => return None,
        }
    }
    Some(open.len())
}

fn derived_unmatched(path: &Path) -> usize {
    match path {
        Path::Empty => 0,
        Path::Level(_, path) => derived_unmatched(path),
        Path::Call(_, path) => 1 + derived_unmatched(path),
    }
}

fn derived_matched(path: &Path) -> usize {
    match path {
        Path::Empty => 0,
        Path::Level(level, path) => matched_inside(level) + derived_matched(path),
        Path::Call(_, path) => derived_matched(path),
    }
}

/// The most calls that are open at once beside main's.
fn deepest(path: &Path) -> usize {
    match path {
        Path::Empty => 0,
        Path::Level(level, path) => deepest_inside(level).max(deepest(path)),
        Path::Call(_, path) => 1 + deepest(path),
    }
}

fn deepest_inside(level: &Level) -> usize {
    let parts = level.0.iter().map(|part| match part {
        Part::Step => 0,
        Part::Call(_, inside) => 1 + deepest_inside(inside),
    });
    parts.max().unwrap_or(0)
}

fn matched_inside(level: &Level) -> usize {
    let parts = level.0.iter().map(|part| match part {
        Part::Step => 0,
        Part::Call(_, inside) => 1 + matched_inside(inside),
    });
    parts.sum()
}

/// Strings of so many labels are tested by the productions.
const SHORT: usize = 30;

/// Which parts of a string are from M, by their first label and their length.
struct Table<'a> {
    labels: &'a [Label],
    level: Vec<Vec<bool>>,
}

impl Table<'_> {
    fn of(labels: &[Label]) -> Table<'_> {
        let count = labels.len();
        let mut level = vec![vec![true]; count + 1];
        for length in 1..=count {
            for first in 0..=count - length {
                let part = &labels[first..first + length];
                // M → σ, M → ⟨call, i, δ⟩ M ⟨ret, i, δ⟩, and M → M M of two that aren't empty.
                let is_level = match part {
                    [Label::Step] => true,
                    [Label::Call(caller), .., Label::Return(same)]
                        if caller == same && level[first + 1][length - 2] =>
                    {
                        true
                    }
                    _ => (1..length).any(|at| level[first][at] && level[first + at][length - at]),
                };
                level[first].push(is_level);
            }
        }
        Table { labels, level }
    }

    /// V → ε, V → M V and V → ⟨call, i, δ⟩ V, from the end of the string on.
    fn is_from_v(&self) -> bool {
        let count = self.labels.len();
        let mut valid = vec![false; count + 1];
        valid[count] = true;
        for first in (0..count).rev() {
            let by_level = |at: usize| self.level[first][at - first] && valid[at];
            let is_call = matches!(self.labels[first], Label::Call(_));
            valid[first] = (first + 1..=count).any(by_level) || is_call && valid[first + 1];
        }
        valid[0]
    }
}

/// The two recognisers on strings of chance, from which most aren't derived.
#[test]
fn recognisers() {
    let random = &mut Random::new(1020);
    let [mut from_v, mut others] = [0; 2];
    for _ in 0..20_000 {
        let labels: Vec<Label> = (0..random.below(9))
            .map(|_| {
                let caller = Caller {
                    back: 1 + random.below(2),
                    locals: vec![random.between(0, 1).into()],
                };
                match random.below(5) {
                    0 => Label::Step,
                    1 | 2 => Label::Call(caller),
                    _ => Label::Return(caller),
                }
            })
            .collect();
        let is_from_v = Table::of(&labels).is_from_v();
        assert_eq!(is_from_v, unmatched(&labels).is_some(), "{labels:?}");
        match is_from_v {
            true => from_v += 1,
            false => others += 1,
        }
    }
    println!("strings of chance: {from_v} from V, {others} others");
    assert!(from_v >= 2_000 && others >= 2_000);
}

// ---- all traces

/// The streams of traces with random damage, and traces damaged for each number.
fn existing(seen: &mut Seen) {
    for input in trace_inputs(1001).take(60_000) {
        seen.add_any(&input);
    }
    let random = &mut Random::new(1002);
    let makers: [fn(&mut Random) -> Trace; 7] = [
        traces::trace,
        traces::deep,
        traces::growing,
        traces::climbing,
        traces::again,
        traces::calling,
        traces::switching,
    ];
    for _ in 0..450 {
        for make in makers {
            let trace = make(random);
            add_aimed(seen, random, &trace);
        }
    }
    for _ in 0..5_000 {
        let clash = aimed::clashing(random);
        let answer = seen.add_pair(&clash.pair, 16);
        assert_eq!(answer, clash.answer());
    }
    let mut inputs = large::traces(random);
    inputs.extend(large::traces_with_entry_values(random));
    for large in inputs {
        assert_eq!(seen.add(&large.input), large.answer, "{}", large.name);
    }
}

/// A trace with any buffer, and damaged.
fn add_aimed(seen: &mut Seen, random: &mut Random, trace: &Trace) {
    let mut aimed = aimed::trace(random, trace);
    aimed.extend(aimed::program(random, &trace.pair));
    for aimed in aimed {
        if aimed.input.witness.first() != Some(&3) {
            assert_no_trace(&aimed.input);
            continue;
        }
        assert_eq!(seen.add(&aimed.input), aimed.answer, "{:?}", aimed.input);
    }
    if let Answer::Trace(_) = trace.answer {
        seen.derived.add(&trace.pair.program, &trace.pair.witness);
    }
}

/// Numbers of open calls, of which 64 are allowed.
const OPEN: [usize; 9] = [2, 3, 5, 12, 63, 64, 64, 65, 66];

/// Traces with their calls in all ways, and damaged there.
fn new(seen: &mut Seen) {
    let random = &mut Random::new(1003);
    for turn in 0..500 {
        for shape in Shape::ALL {
            let open = OPEN[turn % OPEN.len()];
            let called = called(random, shape, open);
            let trace = &called.trace;
            let is_short = matches!(shape, Shape::NoCalls | Shape::Matched | Shape::Mixed);
            match trace.answer {
                Answer::Trace(_) => assert!(is_short || open <= 64),
                Answer::Refused { number, .. } => assert!(number == 12 && open > 64),
                answer => panic!("{answer}"),
            }
            add_buffers(seen, trace);
            add_sizes(seen, random, trace);
            add_aimed(seen, random, trace);
            for case in called.cases(random) {
                seen.add_case(&case);
            }
        }
    }
    for inside in [Inside::Matched, Inside::Unmatched] {
        for spot in Spot::ALL {
            for _ in 0..150 {
                let case = too_deep(random, inside, spot);
                seen.add_case(&case);
                assert_eq!(third(&case), spot);
            }
        }
    }
}

/// In which third of the vertices it is refused.
fn third(case: &Case) -> Spot {
    let Answer::Refused { place, .. } = case.answer else {
        panic!("{}", case.answer);
    };
    let witness = &case.pair.witness;
    let vertices = witness[1] as usize + 1;
    let first = witness.len() - witness[2] as usize - vertices;
    match 3 * (place as usize - first) / vertices {
        0 => Spot::First,
        1 => Spot::Middle,
        _ => Spot::Last,
    }
}

/// A size that is one more or one less, and a word more or less.
fn add_sizes(seen: &mut Seen, random: &mut Random, trace: &Trace) {
    for wrong in 0..4 {
        let mut pair = trace.pair.clone();
        let words = &mut pair.witness;
        match wrong {
            0 => words[1] += *random.pick(&[1, -1]),
            1 => words[2] += *random.pick(&[1, -1]),
            2 => words.push(0),
            _ => words.truncate(1 + random.below(words.len() - 1)),
        }
        assert_eq!(seen.add_pair(&pair, 16), refused(4, 0));
    }
}

/// An accepted trace with a buffer that is just long enough, one number shorter, and longer.
fn add_buffers(seen: &mut Seen, trace: &Trace) {
    let Answer::Trace(_) = trace.answer else {
        return;
    };
    let columns = trace.values.len();
    for length in [columns, columns + 1, columns + 9] {
        let Pair { program, witness } = &trace.pair;
        let mut buffer = pattern(length);
        let answer = proved::replay_by_grammar(program, witness, &mut buffer);
        assert_eq!(answer, trace.answer);
        let expected = [&trace.values[..], &pattern(length)[columns..]].concat();
        assert_eq!(buffer, expected);
        assert_eq!(seen.add_pair(&trace.pair, length), trace.answer);
    }
    for length in 0..columns {
        let answer = seen.add_pair(&trace.pair, length);
        assert_eq!(answer, refused(13, columns as u64));
    }
}

/// The numbers that a trace can get.
const NUMBERS: [u64; 10] = [1, 2, 3, 4, 9, 10, 11, 12, 13, 14];

#[test]
fn all_traces() {
    let parts: [fn(&mut Seen); 2] = [existing, new];
    let seen = thread::scope(|scope| {
        let threads = parts.map(|part| {
            scope.spawn(move || {
                let mut seen = Seen::default();
                part(&mut seen);
                seen
            })
        });
        let seen = threads.map(|thread| thread.join().expect("all agree"));
        seen.into_iter().fold(Seen::default(), Seen::merge)
    });
    println!(
        "by the grammar: {} traces, {} accepted, refused {:?}",
        seen.traces, seen.accepted, seen.refused
    );
    println!("derivations: {:?}", seen.derived);
    println!("places: {:?}\ncases: {:?}", seen.places, seen.cases);
    assert!(seen.traces >= 200_000 && seen.accepted >= 10_000);
    assert_eq!(seen.refused.len(), NUMBERS.len());
    assert!(seen.refused.values().all(|times| *times >= 10_000));
    for number in [10, 11, 12, 14] {
        for inside in [Inside::Matched, Inside::Unmatched] {
            for spot in Spot::ALL {
                let times = seen.places[&(number, inside, spot)];
                assert!(times >= 100, "{number} {inside:?} {spot:?}");
            }
        }
    }
    assert_cases(&seen.cases);
    let derived = seen.derived;
    let kinds = [
        derived.without_calls,
        derived.matched,
        derived.unmatched,
        derived.both,
    ];
    assert!(kinds.iter().all(|times| *times >= 1_000));
    let deepest = [
        derived.deepest_matched,
        derived.deepest_unmatched,
        derived.deepest_both,
    ];
    assert!(deepest.iter().all(|times| *times >= 20));
    assert!(derived.traces >= 10_000 && derived.by_productions >= 5_000);
}

/// The cases of aimed damage.
const CASES: [&str; 15] = [
    "10 at a number that is no vertex",
    "10 at another vertex",
    "10 at a return to another vertex",
    "10 at a return by another call",
    "10 at a return further out",
    "10 behind vertex 0",
    "10 behind main's exit",
    "10 at one exit more than calls",
    "11 at an assignment",
    "11 at a call",
    "12 at the 65th call",
    "12 before 10",
    "12 before 11",
    "14 at a call",
    "a failed assertion",
];

fn assert_cases(cases: &BTreeMap<(&'static str, Inside, Spot), u64>) {
    let mut times: BTreeMap<&str, u64> = BTreeMap::new();
    for ((name, _, _), count) in cases {
        *times.entry(name).or_default() += count;
    }
    assert_eq!(times.len(), CASES.len());
    assert!(CASES.iter().all(|name| times[name] >= 100), "{times:?}");
}

// ---- written by hand

/// Main calls f and again f; f chooses between its exit and an assertion that fails. Vertices: 1 and 2
/// are the calls, 3 and 4 are f's, 5 and 6 the exits.
const TWO_CALLS: &str = "4 2 0 23 | 5 5 3 4 6 6 | 0 3 6 12 17 20
    | 0 2 2 , 7 5 2 , 0 4 6 0 0 0 , 9 6 6 0 0 , 1 0 0 , 3 0 0";

/// A string of labels as it is derived: a dot for a step, brackets round a level stretch that is called, and
/// one bracket for an unmatched call.
fn text(path: &Path) -> String {
    match path {
        Path::Empty => String::new(),
        Path::Level(level, path) => level_text(level) + &text(path),
        Path::Call(_, path) => format!("({}", text(path)),
    }
}

fn level_text(level: &Level) -> String {
    let parts = level.0.iter().map(|part| match part {
        Part::Step => ".".into(),
        Part::Call(_, inside) => format!("({})", level_text(inside)),
    });
    parts.collect()
}

#[test]
fn by_hand() {
    for (vertices, answer, derived) in [
        ("1 3 4 0", "trace 3", "(.."),
        ("1 3 6 2 3 4 0", "trace 6", "(.)(.."),
        // The return point of the second call, and f itself.
        ("1 3 6 5 3 4 0", "refused 10 6 0", ""),
        ("1 3 6 3 4 0", "refused 10 6 0", ""),
        ("1 3 6 2 3 6 2 3 4 0", "refused 10 9 0", ""),
        // Main's exit, and one exit more.
        ("1 3 6 2 3 6 5 0", "refused 10 10 0", ""),
        ("1 3 6 2 3 6 5 5 0", "refused 10 10 0", ""),
        ("1 3 6 2 3 6 5", "refused 10 9 0", ""),
        // Behind vertex 0 the return points of the call, and 0.
        ("1 3 4 0 2 3 4 0", "refused 10 7 0", ""),
        ("1 3 6 2 3 4 0 5 0", "refused 10 10 0", ""),
        ("1 3 4 0 0", "refused 10 7 0", ""),
        // Numbers that are no vertices, with the line of the statement that is left.
        ("1 3 6 2 -1 4 0", "refused 10 7 7", ""),
        ("1 3 6 2 3 7 0", "refused 10 8 0", ""),
        ("1 3 6 2 3 4 6 5 0", "refused 10 9 9", ""),
        ("2 3 4 0", "refused 10 3 0", ""),
    ] {
        let listed = words(vertices);
        let witness = [vec![3, listed.len() as i32 - 1, 0], listed].concat();
        let program = words(TWO_CALLS);
        let input = Input {
            program: program.clone(),
            witness: witness.clone(),
            buffer: pattern(3),
        };
        let told = Seen::default().add(&input);
        assert_eq!(told.to_string(), answer, "{vertices}");
        let path = reading(&program, &witness).map(|reading| text(&reading.path));
        assert_eq!(path.unwrap_or_default(), derived, "{vertices}");
    }
}

#[test]
fn examples_of_the_documents() {
    let mut seen = Seen::default();
    for example in examples() {
        seen.add_any(&Input {
            program: example.program,
            witness: example.witness,
            buffer: example.buffer.unwrap_or_else(marked_buffer),
        });
    }
    println!(
        "examples: {} traces, {} accepted",
        seen.traces, seen.accepted
    );
    assert!(seen.traces >= 40 && seen.accepted >= 10);
}

/// Certificates of both forms, good and damaged, where both checks judge.
#[test]
fn certificates() {
    let inputs = certificate_inputs(1011).take(12_000);
    let inputs = inputs.chain(split_inputs(1012).take(2_000));
    let inputs = inputs.chain(sparse_inputs(1013).take(4_000));
    let (mut seen, mut safe) = (Seen::default(), 0);
    for input in inputs {
        seen.add_any(&input);
        let answer = checker::judge(&input.program, &input.witness);
        safe += u64::from(matches!(answer, Answer::Safe(_)));
    }
    println!("no traces: {safe} that are safe");
    assert!(safe >= 500);
}

/// The wrapper gives what the check gives, with the same words at the same place in memory and the same
/// values; and after what is no trace the whole of it.
#[test]
fn parts_and_values() {
    let mut counts: BTreeMap<u64, u64> = BTreeMap::new();
    for input in trace_inputs(1014).take(20_000) {
        let (program, witness) = (&input.program, &input.witness);
        let checked = leukarion::replay_by_grammar(program, witness);
        let answer = proved::answer(checked.answer);
        let expected = checker::diagnosis(program, witness, answer);
        let expected = expected.as_ptr_range();
        assert_eq!(checked.diagnosis.as_ptr_range(), expected, "{answer}");
        if witness.first() == Some(&3) {
            assert_eq!(checked, leukarion::check(program, witness));
        }
        let number = match answer {
            Answer::Refused { number, .. } => number,
            _ => 0,
        };
        *counts.entry(number).or_default() += 1;
    }
    println!("diagnoses, by numbers, 0 for accepted: {counts:?}");
    // The wrapper's own buffer is never too short.
    assert_eq!(counts.len(), NUMBERS.len());
}

// ---- stack

/// How many bytes of stack the header promises to be enough.
const STACK: usize = 128 * 1024;

/// Names the stack that `little_stack` runs with, in bytes.
const STACK_VARIABLE: &str = "REPLAY_BY_GRAMMAR_STACK";

/// Traces with the most open calls, matched and unmatched, and the largest ones.
fn deepest_traces() -> Vec<(Pair, Answer)> {
    let random = &mut Random::new(1015);
    let traces = Shape::ALL.map(|shape| of_steps(random, shape, traces::STEPS));
    let mut pairs = traces.map(|trace| (trace.pair, trace.answer)).to_vec();
    for inside in [Inside::Matched, Inside::Unmatched] {
        let case = too_deep(random, inside, Spot::Middle);
        pairs.push((case.pair, case.answer));
    }
    let mut inputs = large::traces(random);
    inputs.extend(large::traces_with_entry_values(random));
    for large::Large { input, answer, .. } in inputs {
        let (program, witness) = (input.program, input.witness);
        pairs.push((Pair { program, witness }, answer));
    }
    pairs
}

/// The header promises that so much stack is enough for the proved replay by the grammar.
#[test]
fn little_stack() {
    let stack = std::env::var(STACK_VARIABLE).map_or(STACK, |size| size.parse().expect("a number"));
    let pairs = deepest_traces();
    let replay = move || {
        for (pair, expected) in &pairs {
            let Pair { program, witness } = pair;
            let answer = proved::replay_by_grammar(program, witness, &mut [0; 16]);
            assert_eq!(answer, *expected);
        }
    };
    let thread = thread::Builder::new().stack_size(stack);
    thread.spawn(replay).unwrap().join().unwrap();
}

/// Prints how much it needs: the smallest stack of a thread, in steps of 4 KB, with which it ends.
#[test]
fn needed_stack() {
    let is_enough = |stack: usize| {
        let test = std::env::current_exe().expect("this test");
        let mut command = Command::new(test);
        command.args(["--exact", "little_stack"]);
        command.env(STACK_VARIABLE, stack.to_string());
        command.stdout(Stdio::null()).stderr(Stdio::null());
        command.status().expect("it runs").success()
    };
    let sizes: Vec<usize> = (4..=32).map(|pages| 4_096 * pages).collect();
    let least = sizes.partition_point(|stack| !is_enough(*stack));
    let least = sizes.get(least).expect("the promised stack is enough");
    println!("replay by the grammar: a thread with {least} bytes of stack is enough");
    assert!(*least <= STACK);
}
