//! Sparse certificates and the converters between the two forms (document 02, CR 9), on generated
//! inputs: accepted ones, there and back; damage aimed at each test; random damage; results of the
//! most words that there may be.

use compare::benchmark::shapes::for_both_forms;
use compare::checker::Answer;
use compare::compare::sparse::{
    compare, conversion, round_trip, run, unwritten, written, Counts, Direction,
};
use compare::compare::{Converter, Refused, Second, Subject};
use compare::convert::Writing;
use compare::examples::examples;
use compare::generate::aimed::{self, Aimed, Spot};
use compare::generate::sparse::{accepted, large, most_shared, Form, Parts};
use compare::generate::{certificates, damage, Pair};
use compare::proved::converters;
use compare::random::Random;
use std::collections::BTreeMap;

/// What is compared with the second implementation: the proved one, where the library has it.
fn subject() -> &'static dyn Converter {
    converters().pop().expect("the second is always there")
}

/// Both forms, there and back and there again, with result buffers of all lengths.
#[test]
fn accepted_certificates() {
    let random = &mut Random::new(901);
    let mut counts = Seen::default();
    let pairs = std::iter::repeat_with(|| {
        let dense = accepted(random);
        let parts = Parts::of(&dense);
        counts.add(&dense, &parts);
        assert_eq!(round_trip(subject(), &dense), Ok(()), "{dense:?}");
        let sparse = parts.pair(&dense.program, Form::Sparse);
        [dense, sparse]
    });
    let report = compare(subject(), pairs.take(10_500).flatten());
    println!("accepted: {}", report.counts);
    println!("{counts:?}");
    assert!(report.disagreement.is_none());
    assert!(report.counts.safe >= 10_000);
    for written in [report.counts.to_sparse, report.counts.to_dense] {
        assert!(written.written >= 20_000);
        assert!(written.refused.times(26) >= 10_000);
        assert!(written.refused.times(4) >= 10_000);
    }
    assert!(counts.all().iter().all(|count| *count >= 500), "{counts:?}");
}

/// What the accepted certificates have.
#[derive(Debug, Default)]
struct Seen {
    empty_entries: u64,
    several_disjuncts: u64,
    without_rows: u64,
    one_term: u64,
    full_rows: u64,
    wide_rows: u64,
    other_layout: u64,
    shorter: u64,
    longer: u64,
}

impl Seen {
    fn add(&mut self, dense: &Pair, parts: &Parts) {
        let any = |holds: bool| u64::from(holds);
        let entries = || parts.entries.iter();
        let rows = || entries().flat_map(|entry| entry.rows().map(|row| (entry.columns, row)));
        let [laid_out, sparse] = [Form::Dense, Form::Sparse].map(|form| parts.words(form));
        self.empty_entries += any(entries().any(|entry| entry.disjuncts.is_empty()));
        self.several_disjuncts += any(entries().any(|entry| entry.disjuncts.len() > 1));
        self.without_rows += any(entries().any(|entry| {
            let mut disjuncts = entry.disjuncts.iter();
            disjuncts.any(|disjunct| disjunct.rows.is_empty())
        }));
        self.one_term += any(rows().any(|(_, row)| row.terms.len() == 1));
        self.full_rows += any(rows().any(|(columns, row)| row.terms.len() == columns));
        self.wide_rows += any(rows().any(|(columns, _)| columns >= 16));
        self.other_layout += any(laid_out != dense.witness);
        self.shorter += any(sparse.len() < dense.witness.len());
        self.longer += any(sparse.len() > dense.witness.len());
    }

    fn all(&self) -> [u64; 9] {
        [
            self.empty_entries,
            self.several_disjuncts,
            self.without_rows,
            self.one_term,
            self.full_rows,
            self.wide_rows,
            self.other_layout,
            self.shorter,
            self.longer,
        ]
    }
}

/// Dense certificates with damage: what the check refuses with 1 to 5 and 15 the converter does too,
/// and what it refuses with 6 to 8 is refused so in both forms, as far from the end.
#[test]
fn aimed_at_dense_certificates() {
    let random = &mut Random::new(902);
    let mut counts = Counts::default();
    let mut alike = Refused::default();
    for _ in 0..2_000 {
        let dense = accepted(random);
        let parts = Parts::of(&dense);
        for aimed in aimed::certificate(random, &dense) {
            assert_aimed(aimed, &parts, Form::Dense, &mut counts);
        }
        for pair in (0..12).map(|_| damage::shifted(random, &dense)) {
            let answer = subject().check(&pair.program, &pair.witness, &mut []);
            if let Answer::Refused { number, .. } = answer {
                assert_eq!(round_trip(subject(), &pair), Ok(()), "{answer}: {pair:?}");
                alike.add(number, 1);
            }
        }
    }
    println!("aimed at dense certificates: {counts}; judged alike: {alike}");
    assert!(counts.to_sparse.refused.all([5, 15, 26], 10_000));
    assert!(counts.to_sparse.refused.all(1..=4, 2_000));
    assert!(counts.to_dense.refused.times(4) >= 10_000);
    assert!(alike.all(6..=8, 100));
}

fn pair_of(aimed: Aimed) -> Pair {
    Pair {
        program: aimed.input.program,
        witness: aimed.input.witness,
    }
}

#[test]
fn examples_of_the_documents() {
    let mut trips = 0;
    for example in examples() {
        let pair = Pair {
            program: example.program,
            witness: example.witness,
        };
        let dense = pair.witness.first() == Some(&Form::Dense.mark());
        if dense && example.answer.starts_with("safe") {
            assert_eq!(round_trip(subject(), &pair), Ok(()), "{}", example.name);
            let sparse = Parts::of(&pair).pair(&pair.program, Form::Sparse);
            let answer = subject().check(&sparse.program, &sparse.witness, &mut []);
            assert_eq!(answer.to_string(), example.answer, "{}", example.name);
            trips += 1;
        }
        let report = compare(subject(), [pair].into_iter());
        assert!(report.disagreement.is_none(), "{}", example.name);
    }
    println!("{trips} examples there and back");
    assert!(trips >= 50);
}

/// How often damage was aimed at each case, by its spot.
type Cases = BTreeMap<&'static str, BTreeMap<Spot, u64>>;

#[test]
fn aimed_at_each_test() {
    let random = &mut Random::new(903);
    let mut cases = Cases::new();
    let mut counts = Counts::default();
    for _ in 0..2_600 {
        let dense = accepted(random);
        let parts = Parts::of(&dense);
        for aimed in aimed::sparse(random, &dense.program, &parts) {
            if let Some(case) = aimed.case {
                let spots = cases.entry(case).or_default();
                *spots.entry(aimed.spot).or_default() += 1;
            }
            assert_aimed(aimed, &parts, Form::Sparse, &mut counts);
        }
    }
    println!("aimed: {counts}");
    println!("aimed by cases: {cases:#?}");
    assert!(counts.refused.all([5, 15, 25], 10_000));
    assert!(counts.refused.all(1..=8, 2_000));
    assert!(counts.to_dense.refused.all([5, 15, 25, 26], 10_000));
    assert!(counts.to_sparse.refused.times(4) >= 10_000);
    assert_eq!(cases.len(), CASES);
    let total = |case: &str| cases[case].values().sum::<u64>();
    for (case, spots) in &cases {
        assert!(total(case) >= 1_000, "{case}: {spots:?}");
        let spotted = !case.contains("before") && !case.contains("beside");
        if spotted && !case.contains("left") {
            assert!(spots.len() == 3 && spots.values().all(|count| *count >= 200));
        }
    }
}

/// How many cases there are, by what is wrong and what it stands beside.
const CASES: usize = 38;

/// The check refuses the damaged words of this form as they were aimed, and the converters as far as
/// they test.
fn assert_aimed(aimed: Aimed, parts: &Parts, form: Form, counts: &mut Counts) {
    let answer = aimed.answer;
    let pair = pair_of(aimed);
    let Answer::Refused {
        number,
        place,
        line,
    } = answer
    else {
        panic!("{answer}");
    };
    for checker in [&Second, subject()] {
        let mut values = [7; 2];
        let told = checker.check(&pair.program, &pair.witness, &mut values);
        assert_eq!((told, values), (answer, [7; 2]), "{pair:?}");
    }
    counts.add_checked(&pair.witness, answer);
    let refused = Writing::Refused {
        number,
        place,
        line,
    };
    for direction in Direction::ALL {
        let is_reader = direction == Direction::from(form);
        let expected = match number {
            1..=3 => refused,
            4 | 5 | 15 | 25 if is_reader => refused,
            _ if is_reader => {
                assert_alike(&pair, parts, direction, counts);
                continue;
            }
            _ => Writing::refused(4, 0),
        };
        for room in [0, 30] {
            for converter in [&Second, subject()] {
                let told = conversion(converter, direction, &pair, room);
                assert_eq!(told, (expected, unwritten(room)), "{pair:?}");
            }
            counts.add_converted(direction, expected);
        }
    }
}

/// Nothing but witness words differs from the parts: the converter doesn't look at them, and the
/// other form is refused as far from the end.
fn assert_alike(pair: &Pair, parts: &Parts, direction: Direction, counts: &mut Counts) {
    let words = &pair.witness;
    let mut parts = parts.clone();
    parts.witness_words = words[words.len() - words[2] as usize..].to_vec();
    let dense = parts.pair(&pair.program, Form::Dense);
    assert_eq!(round_trip(subject(), &dense), Ok(()), "{pair:?}");
    let expected = match direction {
        Direction::ToSparse => parts.words(Form::Sparse),
        Direction::ToDense => dense.witness,
    };
    let length = expected.len();
    for room in [length + 7, length, length - 1, length / 2, 0] {
        let expected = match room.checked_sub(length) {
            None => (Writing::refused(26, 0), unwritten(room)),
            Some(_) => (Writing::Written(length as u64), written(&expected, room)),
        };
        for converter in [&Second, subject()] {
            let told = conversion(converter, direction, pair, room);
            assert_eq!(told, expected, "{pair:?}");
        }
        counts.add_converted(direction, expected.0);
    }
}

#[test]
fn generated() {
    let mut safe = 0;
    for seed in [904, 905] {
        let report = run(subject(), seed, 120_000);
        println!("seed {seed}: {}", report.counts);
        assert!(report.disagreement.is_none());
        let Counts {
            refused, to_dense, ..
        } = report.counts;
        assert!(refused.all([1, 2, 3, 4, 5, 6, 7, 8, 15, 25], 500));
        assert!(refused.all([5, 25], 10_000));
        assert!(to_dense.refused.all([1, 2, 3, 4, 5, 15, 25, 26], 500));
        safe += report.counts.safe;
    }
    assert!(safe >= 1_000);
}

/// Results of 1,000,000 words are written, those of one more refused whatever room there is.
#[test]
fn most_words() {
    for large in large() {
        let direction = Direction::from(large.from);
        let length = large.result.len();
        let is_written = length <= 1_000_000;
        println!(
            "{}: {} words from {}",
            large.name,
            length,
            large.pair.witness.len()
        );
        for room in [length - 1, length, length + 1, 1_100_000] {
            let expected = match is_written && room >= length {
                true => (
                    Writing::Written(length as u64),
                    written(&large.result, room),
                ),
                false => (Writing::refused(26, 0), unwritten(room)),
            };
            for converter in [&Second, subject()] {
                let told = conversion(converter, direction, &large.pair, room);
                assert!(told == expected, "{}, room {room}: {}", large.name, told.0);
            }
        }
        if is_written && large.from == Form::Dense {
            let trip = round_trip(subject(), &large.pair);
            assert!(trip.is_ok(), "{}", large.name);
        }
        if large.pair.witness.len() == 1_000_000 {
            let mut longer = large.pair.clone();
            longer.witness.push(0);
            longer.witness[2] += 1;
            for converter in [&Second, subject()] {
                let told = conversion(converter, direction, &longer, 1_100_000);
                assert!(told == (Writing::refused(4, 0), unwritten(1_100_000)));
            }
        }
        let report = compare(subject(), [large.pair].into_iter());
        assert!(report.disagreement.is_none(), "{}", large.name);
    }
}

/// Shared words that would be far too many.
#[test]
fn most_shared_words() {
    let pair = most_shared();
    for converter in [&Second, subject()] {
        let told = conversion(converter, Direction::ToSparse, &pair, 1_100_000);
        assert!(told == (Writing::refused(26, 0), unwritten(1_100_000)));
    }
}

/// Certificates that are accepted, of many words.
#[test]
fn long_certificates() {
    let random = &mut Random::new(906);
    let mut longest = 0;
    for pair in certificates::long(random) {
        assert_eq!(round_trip(subject(), &pair), Ok(()));
        let sparse = Parts::of(&pair).pair(&pair.program, Form::Sparse);
        longest = longest.max(sparse.witness.len());
        let answer = subject().check(&sparse.program, &sparse.witness, &mut []);
        assert!(matches!(answer, Answer::Safe(_)), "{answer}");
        let report = compare(subject(), [pair, sparse].into_iter());
        assert!(report.disagreement.is_none());
    }
    println!("the longest sparse certificate has {longest} words");
    assert!(longest >= 100_000);
}

/// Those that are timed in both forms, families among them.
#[test]
fn certificates_of_the_benchmark() {
    let mut trips = 0;
    for shape in for_both_forms() {
        let parts = Parts::of(&shape.pair);
        let sparse = parts.pair(&shape.pair.program, Form::Sparse);
        let answer = subject().check(&sparse.program, &sparse.witness, &mut []);
        assert_eq!(answer, Answer::Safe(shape.count), "{}", shape.name);
        // In one kind the entries share so many words that unshared they are too many in dense form.
        if parts.words(Form::Dense).len() <= 1_000_000 {
            assert_eq!(round_trip(subject(), &shape.pair), Ok(()), "{}", shape.name);
            trips += 1;
        }
    }
    println!("{trips} there and back");
    assert!(trips >= 20);
}

/// The second implementation but for one answer.
struct Other(fn(&Pair, Direction, Writing, &mut [i32]) -> Writing);

impl Subject for Other {
    fn check(&self, program: &[i32], witness: &[i32], buffer: &mut [i64]) -> Answer {
        Second.check(program, witness, buffer)
    }
}

impl Converter for Other {
    fn to_sparse(&self, program: &[i32], certificate: &[i32], result: &mut [i32]) -> Writing {
        let writing = Second.to_sparse(program, certificate, result);
        let pair = pair(program, certificate);
        self.0(&pair, Direction::ToSparse, writing, result)
    }

    fn to_dense(&self, program: &[i32], certificate: &[i32], result: &mut [i32]) -> Writing {
        let writing = Second.to_dense(program, certificate, result);
        let pair = pair(program, certificate);
        self.0(&pair, Direction::ToDense, writing, result)
    }
}

fn pair(program: &[i32], certificate: &[i32]) -> Pair {
    Pair {
        program: program.to_vec(),
        witness: certificate.to_vec(),
    }
}

/// What differs in one converter, in one number or in one word is found.
#[test]
fn differences_are_found() {
    let others = [
        // Another number, another place.
        Other(|_, _, writing, _| match writing {
            Writing::Refused { number: 25, .. } => Writing::refused(5, 3),
            other => other,
        }),
        Other(|_, direction, writing, _| match (direction, writing) {
            (Direction::ToSparse, Writing::Refused { number: 26, .. }) => Writing::refused(26, 1),
            (_, other) => other,
        }),
        // A word behind the result, and a word though nothing is written.
        Other(|_, _, writing, result| {
            if let (Writing::Written(words), true) = (writing, !result.is_empty()) {
                let last = result.len() - 1;
                result[last] = if words as usize == last + 1 {
                    result[last]
                } else {
                    0
                };
            }
            writing
        }),
        Other(|_, _, writing, result| {
            if let (Writing::Refused { number: 26, .. }, [first, ..]) = (writing, result) {
                *first = 4;
            }
            writing
        }),
        // The words that it read.
        Other(|pair, direction, writing, result| {
            if let (Direction::ToDense, Writing::Written(_)) = (direction, writing) {
                result[0] = pair.witness[0];
            }
            writing
        }),
    ];
    for other in others {
        let report = run(&other, 907, 2_000);
        let disagreement = report.disagreement.expect("they differ");
        assert_ne!(disagreement.second, disagreement.subject);
    }
}
