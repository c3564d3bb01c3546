//! Every answer occurs hundreds of times, at first, middle and last places, and aimed damage gets
//! the answer it was aimed at.

use compare::checker::{check, Answer};
use compare::compare::{Counts, NUMBERS, WITH_LINES};
use compare::generate::aimed::{self, Aimed, Spot};
use compare::generate::sparse::{self, Parts};
use compare::generate::traces::{self, Trace};
use compare::generate::{certificate_inputs, sparse_inputs, split_inputs, trace_inputs};
use compare::generate::{certificates, extremes, large, splits, Pair};
use compare::random::Random;
use std::collections::BTreeMap;

#[derive(Default)]
struct Tally {
    counts: Counts,
    spots: BTreeMap<(u64, Spot), u64>,
    cases: BTreeMap<&'static str, BTreeMap<Spot, u64>>,
}

impl Tally {
    fn take(&mut self, aimed: Aimed) {
        let mut input = aimed.input;
        let expected = [&aimed.values, &input.buffer[aimed.values.len()..]].concat();
        let answer = check(&input.program, &input.witness, &mut input.buffer);
        assert_eq!(
            (answer, &input.buffer),
            (aimed.answer, &expected),
            "program {:?}\nwitness {:?}",
            input.program,
            input.witness
        );
        self.counts.add(&input.program, &input.witness, answer);
        if let Answer::Refused { number, .. } = answer {
            *self.spots.entry((number, aimed.spot)).or_default() += 1;
        }
        if let Some(case) = aimed.case {
            let spots = self.cases.entry(case).or_default();
            *spots.entry(aimed.spot).or_default() += 1;
        }
    }

    fn at(&self, number: u64, spot: Spot) -> u64 {
        self.spots.get(&(number, spot)).copied().unwrap_or(0)
    }
}

#[test]
fn aimed_inputs() {
    let random = &mut Random::new(2024);
    let mut tally = Tally::default();
    for _ in 0..1_050 {
        let pair = certificates::accepted(random);
        let mut buffer = [7; 3];
        let answer = check(&pair.program, &pair.witness, &mut buffer);
        assert!(matches!(answer, Answer::Safe(_)), "{answer}: {pair:?}");
        assert_eq!(buffer, [7; 3]);
        tally.counts.add(&pair.program, &pair.witness, answer);
        let aimed = aimed::certificate(random, &pair);
        for aimed in aimed.into_iter().chain(aimed::lines(random, &pair)) {
            tally.take(aimed);
        }
    }
    for _ in 0..100 {
        let (pair, expected) = extremes::wrapping(random);
        assert_eq!(check(&pair.program, &pair.witness, &mut []), expected);
        tally.counts.add(&pair.program, &pair.witness, expected);
        for (pair, expected) in aimed::one_column(random) {
            assert_eq!(check(&pair.program, &pair.witness, &mut []), expected);
            tally.counts.add(&pair.program, &pair.witness, expected);
        }
    }
    let makers: [fn(&mut Random) -> Trace; 7] = [
        traces::trace,
        traces::deep,
        traces::growing,
        traces::climbing,
        traces::again,
        traces::calling,
        traces::switching,
    ];
    for _ in 0..2_400 {
        for make in makers {
            let trace = make(random);
            for aimed in aimed::trace(random, &trace) {
                tally.take(aimed);
            }
        }
    }
    for _ in 0..1_000 {
        let sharing = certificates::sharing(random);
        let pair = splits::pair(&splits::accepted(random), sharing);
        let mut aimed = aimed::certificate(random, &pair);
        aimed.extend(aimed::trees(random, &pair));
        aimed.extend(aimed::constants(random, &pair));
        for aimed in aimed {
            tally.take(aimed);
        }
    }
    for _ in 0..200 {
        let dense = sparse::accepted(random);
        for mut aimed in aimed::sparse(random, &dense.program, &Parts::of(&dense)) {
            // tests/sparse.rs counts the cases of sparse certificates.
            aimed.case = None;
            tally.take(aimed);
        }
    }
    println!("aimed: {}", tally.counts);
    for number in NUMBERS.map(|number| number as u64) {
        let at = Spot::ALL.map(|spot| tally.at(number, spot));
        println!(
            "aimed at {number}: first {}, middle {}, last {}",
            at[0], at[1], at[2]
        );
        match number {
            // These have one place, or the same one for every cause.
            1 | 4 | 8 | 13 => assert!(at.iter().sum::<u64>() >= 100, "{number}"),
            _ => assert!(at.iter().all(|count| *count >= 100), "{number}"),
        }
    }
    assert!(tally.counts.safe >= 100 && tally.counts.trace >= 100);
    println!("aimed by cases: {:#?}", tally.cases);
    assert_eq!(tally.cases.len(), CASES);
    for spots in tally.cases.values() {
        assert!(spots.values().all(|count| *count >= 100));
    }
    for case in AT_EACH_SPOT {
        assert_eq!(tally.cases[case].len(), 3, "{case}");
    }
}

/// How many cases there are that are more than a number and a spot.
const CASES: usize = 76;

const AT_EACH_SPOT: [&str; 55] = [
    "3 a low word out of its range",
    "3 a constant one beyond a limit",
    "3 a high word beyond the limit",
    "3 another spelling of a constant",
    "3 a row cut off before a low word",
    "3 a ? with a high word",
    "3 a ? with a low word",
    "5 a low word out of its range",
    "5 a constant one beyond a limit",
    "5 a high word beyond the limit",
    "5 another spelling of a constant",
    "5 a row cut off before a low word",
    "6 a low word out of its range",
    "6 a constant one beyond a limit",
    "6 a high word beyond the limit",
    "6 another spelling of a constant",
    "6 missing before a low word",
    "14 missing, none left",
    "14 missing, some left",
    "9 at an entry value that a call takes",
    "9 at an entry value that no call takes",
    "10 before 14 left over",
    "6 no split",
    "6 a split row beyond a limit",
    "6 a ninth split",
    "an eighth split",
    "6 missing in a split row",
    "6 missing in a first witness",
    "6 missing in a second witness",
    "6 in the second witness, 7 in the first",
    "6 in the first witness, 7 in the second",
    "7 a leaf",
    "3 a line beyond its range",
    "3 a field behind a line",
    "3 a field behind line 0",
    "3 a field behind a line beyond its range",
    "3 an unknown kind",
    "3 an unknown kind, one word",
    "3 an unknown kind at a line beyond its range",
    "3 kind 6 at a statement",
    "3 kind 6 and an exit's row",
    "3 a row cut off behind its line",
    "3 a row cut off",
    "3 a row cut off behind line 0",
    "3 a row cut off behind a line beyond its range",
    "3 a row past the pool",
    "3 at the row of an exit",
    "3 at the row of another statement",
    "a line at a limit",
    "10 leaving a statement",
    "10 leaving a statement without a line",
    "10 leaving an exit",
    "10 of a last vertex, leaving a line",
    "11 leaving a statement",
    "12 leaving a statement",
];

#[test]
fn random_inputs() {
    let mut counts = Counts::default();
    for mut input in certificate_inputs(11)
        .take(105_000)
        .chain(trace_inputs(12).take(110_000))
        .chain(split_inputs(14).take(40_000))
        .chain(sparse_inputs(16).take(40_000))
    {
        let answer = check(&input.program, &input.witness, &mut input.buffer);
        counts.add(&input.program, &input.witness, answer);
    }
    println!("random: {counts}");
    assert!(counts.safe >= 100 && counts.trace >= 100);
    assert!(counts.refused.all(NUMBERS, 100));
    let splits = counts.splits;
    assert!(splits.safe >= 1_000 && splits.deepest >= 100);
    assert!(splits.beyond >= 1_000 && splits.misfit >= 1_000);
    assert!(counts.lines.refused.all(WITH_LINES, 1_000));
    let lines = counts.lines;
    for standing in counts.constants.all() {
        assert!(standing.accepted >= 1_000 && standing.refused >= 1_000);
        assert!(standing.beyond >= 500);
    }
    assert!(lines.unknown_kinds >= 1_000 && lines.cut_off >= 1_000);
    assert!(lines.beyond >= 1_000 && lines.none >= 1_000);
}

/// Two faults of one trace that are tested one after the other: their numbers, and whether it is the
/// same vertex.
type Neighbours = (u64, u64, bool);

#[test]
fn clashes() {
    let random = &mut Random::new(13);
    let mut seen: BTreeMap<Neighbours, u64> = BTreeMap::new();
    for _ in 0..20_000 {
        let clash = aimed::clashing(random);
        let Pair { program, witness } = &clash.pair;
        assert_eq!(check(program, witness, &mut []), clash.answer());
        if let [first, second, ..] = clash.faults[..] {
            let neighbours = (first.number, second.number, first.at == second.at);
            *seen.entry(neighbours).or_default() += 1;
        }
    }
    println!("the first two of several faults: {seen:?}");
    let numbers = [10, 12, 14, 11];
    for (at, first) in numbers.into_iter().enumerate() {
        for second in numbers.into_iter().filter(|second| *second != first) {
            assert!(seen[&(first, second, false)] >= 100, "{first}, {second}");
        }
        for second in &numbers[at + 1..] {
            assert!(seen[&(first, *second, true)] >= 100, "{first}, {second}");
        }
    }
    for neighbours in [(4, 9, true), (9, 9, true), (9, 10, false), (4, 10, false)] {
        assert!(seen[&neighbours] >= 50, "{neighbours:?}");
    }
}

#[test]
fn large_inputs() {
    for large in large::inputs(3) {
        let mut input = large.input;
        let answer = check(&input.program, &input.witness, &mut input.buffer);
        assert_eq!(answer, large.answer, "{}", large.name);
        println!(
            "{}: {} program words, {} witness input words, {answer}",
            large.name,
            input.program.len(),
            input.witness.len()
        );
    }
}
