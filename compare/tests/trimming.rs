//! Trimming (document 02, CR 11): accepted certificates of both forms with disjuncts that nothing
//! needs, what is left of them, and what is refused. Both trimmers answer alike on every input, and the
//! results are checked by both checkers.

mod common;

use common::{answer, trimmings, words, CERTIFICATE_A, CERTIFICATE_C, CERTIFICATE_S};
use common::{PROGRAM_A, PROGRAM_C, PROGRAM_S, TRACE_B};
use compare::checker::{judge, Answer};
use compare::compare::sparse::{unwritten, written};
use compare::compare::Refused;
use compare::convert::{to_dense, Writing};
use compare::examples::{examples, named};
use compare::families::FAMILIES;
use compare::generate::aimed::{self, Spot};
use compare::generate::large::fill;
use compare::generate::sparse::{self, Form, Parts};
use compare::generate::trimming::{
    in_order, late_returns, left_by_words, made, with_copies, Kind, Made, Reading, Ring, Used,
};
use compare::generate::{
    certificate_inputs, certificates, damage, split_inputs, trace_inputs, traces, Input, Pair,
};
use compare::proved;
use compare::random::Random;
use std::collections::BTreeMap;

/// The answer with a result buffer of so many words, and the whole buffer afterwards, by both trimmers.
fn trimming(pair: &Pair, length: usize) -> (Writing, Vec<i32>) {
    let mut results = trimmings(pair, length);
    let (writing, result) = results.pop().expect("one of them");
    for (other, other_result) in results {
        assert_eq!(other, writing, "{pair:?}");
        assert!(other_result == result, "other words: {pair:?}");
    }
    (writing, result)
}

/// Asserts that these words are written where the buffer is long enough, and what is behind them
/// stays; and that nothing is written where it is too short. How often it was.
fn assert_written(pair: &Pair, expected: &[i32]) -> u64 {
    let length = expected.len();
    let (writing, result) = trimming(pair, length + 7);
    assert_eq!(writing, Writing::Written(length as u64), "{pair:?}");
    assert!(result == written(expected, length + 7), "{pair:?}");
    assert_refused_in(pair, Writing::refused(26, 0), 0);
    1 + assert_just_written(pair, expected)
}

/// The same with a buffer that is just long enough, and with one that is a word shorter.
fn assert_just_written(pair: &Pair, expected: &[i32]) -> u64 {
    let length = expected.len();
    let (writing, result) = trimming(pair, length);
    assert_eq!(writing, Writing::Written(length as u64), "{pair:?}");
    assert!(result == expected, "{pair:?}");
    assert_refused_in(pair, Writing::refused(26, 0), length - 1);
    1
}

/// Asserts a refusal, after which a buffer of so many words is as it was.
fn assert_refused_in(pair: &Pair, refused: Writing, length: usize) {
    let (writing, result) = trimming(pair, length);
    assert_eq!(writing, refused, "{pair:?}");
    assert!(result == unwritten(length), "{pair:?}");
}

/// The refusal that the check answers.
fn refusal(answer: Answer) -> Option<Writing> {
    match answer {
        Answer::Refused {
            number,
            place,
            line,
        } => Some(Writing::Refused {
            number,
            place,
            line,
        }),
        _ => None,
    }
}

/// Asserts that trimming refuses as the check does, whatever the buffer.
fn assert_refused(pair: &Pair, answer: Answer, counts: &mut Refused) {
    let refused = refusal(answer).expect("the check refuses it");
    for length in [0, 40] {
        assert_refused_in(pair, refused, length);
    }
    if let Writing::Refused { number, .. } = refused {
        counts.add(number, 1);
    }
}

/// The same certificate in both forms.
fn both_forms(dense: &Pair) -> [Pair; 2] {
    let sparse = Parts::of(dense).pair(&dense.program, Form::Sparse);
    [dense.clone(), sparse]
}

fn safe(made: &Made) -> Answer {
    Answer::Safe(made.certificate.witnesses.len() as u64)
}

fn pair(program: &str, certificate: &str) -> Pair {
    Pair {
        program: words(program),
        witness: words(certificate),
    }
}

// ---- accepted certificates

/// What was trimmed of one kind.
#[derive(Clone, Debug, Default)]
struct Seen {
    made: u64,
    /// Of which something was dropped, and of which an entry became empty.
    cut: u64,
    emptied: u64,
    /// In which dropped disjuncts keep each other.
    circles: u64,
    /// With a tree whose leaves name several disjuncts.
    several_targets: u64,
    /// With a summary disjunct that only some calls use.
    partial_summaries: u64,
    /// Where it isn't enough to look at the entailments once.
    repeated: u64,
}

impl Seen {
    fn add(&mut self, made: &Made, used: &Used, left: &Made) {
        let any = |holds: bool| u64::from(holds);
        let mut entries = made.counts().into_iter().zip(left.counts());
        self.made += 1;
        self.cut += any(made.counts() != left.counts());
        self.emptied += any(entries.any(|(before, after)| before > 0 && after == 0));
        self.circles += any(made.has_circles(used));
        self.several_targets += any(made.has_several_targets());
        self.partial_summaries += any(made.has_partial_summaries(used));
        self.repeated += any(made.used(Reading::Once) != *used);
    }
}

/// Which of so many, counted from 0.
fn spot(at: usize, count: usize) -> Spot {
    match at {
        0 => Spot::First,
        _ if at + 1 == count => Spot::Last,
        _ => Spot::Middle,
    }
}

/// How often a disjunct was kept, or dropped, by the spots of its entry and of itself there.
#[derive(Debug, Default)]
struct Spots(BTreeMap<(bool, Spot, Spot), u64>);

impl Spots {
    fn add(&mut self, used: &Used) {
        for (entry, disjuncts) in used.iter().enumerate() {
            for (at, is_kept) in disjuncts.iter().enumerate() {
                let spots = [spot(entry, used.len()), spot(at, disjuncts.len())];
                *self.0.entry((*is_kept, spots[0], spots[1])).or_default() += 1;
            }
        }
    }
}

/// How many certificates of each kind are trimmed, and how many of them come from one.
const OF_KIND: u64 = 2_250;
const FROM_ONE: usize = 4;

#[test]
fn accepted_certificates() {
    let random = &mut Random::new(1101);
    let mut seen: BTreeMap<Kind, Seen> = BTreeMap::new();
    let mut wrong: BTreeMap<Reading, u64> = BTreeMap::new();
    let mut spots = Spots::default();
    let mut short = 0;
    for kind in Kind::ALL {
        let seen = seen.entry(kind).or_default();
        while seen.made < OF_KIND {
            for made in made(random, kind, FROM_ONE) {
                let used = made.used(Reading::Right);
                let left = made.cut_down(&used);
                short += assert_made(random, &made, &left);
                seen.add(&made, &used, &left);
                spots.add(&used);
                for reading in Reading::WRONG {
                    let differs = made.used(reading) != used;
                    *wrong.entry(reading).or_default() += u64::from(differs);
                }
            }
        }
    }
    for (kind, seen) in &seen {
        println!("{kind:?}: {seen:?}");
    }
    println!("other readings: {wrong:?}\n{spots:?}\ntoo short {short} times");
    assert!(seen.values().map(|seen| seen.made).sum::<u64>() >= 20_000);
    assert_seen(&seen);
    assert!(short >= 80_000);
    assert!(wrong.values().all(|count| *count >= 500));
    // Of the first entry the start names a disjunct, which may be any.
    assert_eq!(spots.0.len(), 2 * 3 * 3);
    assert!(spots.0.values().all(|count| *count >= 500));
}

/// The most words of results that are found again by their words, pass by pass.
const SMALL: usize = 40_000;

/// Both forms are accepted, and trimmed to the same words, which are accepted and stay as they are. How
/// often a buffer was too short.
fn assert_made(random: &mut Random, made: &Made, left: &Made) -> u64 {
    let expected = in_order(&left.program, &left.certificate);
    let [dense, sparse] = both_forms(&made.pair(random));
    for pair in [&dense, &sparse] {
        assert_eq!(answer(pair), safe(made), "{pair:?}");
    }
    assert!(expected.len() > SMALL || left_by_words(&dense) == expected);
    let short = assert_written(&dense, &expected) + assert_just_written(&sparse, &expected);
    let result = Pair {
        witness: expected,
        ..dense
    };
    assert_eq!(answer(&result), safe(left), "{result:?}");
    short + assert_just_written(&result, &result.witness)
}

fn assert_seen(seen: &BTreeMap<Kind, Seen>) {
    for kind in Kind::ALL {
        let seen = &seen[&kind];
        let dropping = !matches!(kind, Kind::Plain | Kind::Chains);
        assert!(!dropping || seen.cut >= 1_800, "{kind:?}");
        assert!(kind == Kind::Plain || seen.cut >= 500, "{kind:?}");
    }
    assert!(seen[&Kind::Unreachable].emptied + seen[&Kind::Mixed].emptied >= 100);
    assert!(seen[&Kind::Circles].circles >= 1_000);
    assert!(seen[&Kind::Trees].several_targets >= 1_000);
    assert!(seen[&Kind::Summaries].partial_summaries >= 1_000);
    assert!(seen[&Kind::Chains].repeated >= 1_000);
}

// ---- written by hand

/// Asserts what is left of a certificate, whose answer is this, and that it stays.
fn assert_by_hand(program: &str, certificate: &str, before: &str, left: &str, after: &str) {
    let dense = pair(program, certificate);
    assert_eq!(answer(&dense).to_string(), before);
    let left = pair(program, left);
    assert_eq!(answer(&left).to_string(), after);
    for pair in both_forms(&dense).iter().chain(&both_forms(&left)) {
        assert_written(pair, &left.witness);
    }
}

/// Certificates whose disjuncts are all used are unshared.
#[test]
fn nothing_to_drop() {
    let left = "1 8 8 | 1 1 1 1 | 0 1 6 7 | 0 , 1 -1 999460 0 1 , 0 , 0 | 1 1 1 1 0 1 1 1";
    assert_by_hand(PROGRAM_A, CERTIFICATE_A, "safe 5", left, "safe 5");
    // Two places that nobody tests, and a word that nobody reads.
    let given = "1 2 2 | 1 0 0 | 1 -7 99 | 9 0 | 1 , 1";
    let left = "1 1 2 | 1 0 0 | 0 1 1 | 0 | 1 , 1";
    assert_by_hand(PROGRAM_S, given, "safe 2", left, "safe 2");
    assert_by_hand(PROGRAM_S, CERTIFICATE_S, "safe 2", left, "safe 2");
    // Vertices 4 and 6 shared their 13 words, and three entries the word 0.
    assert_by_hand(PROGRAM_C, CERTIFICATE_C, "safe 10", IN_ORDER_C, "safe 10");
}

/// Certificate C with each entry at the next free place.
const IN_ORDER_C: &str = "1 62 42 | 1 1 1 1 1 1 1 1 | 0 1 10 23 36 37 50 51
    | 0 , 2 -1 999995 0 1 0 5 0 -1 , 2 0 0 0 -1 0 1 0 0 0 1 0 -1 , 2 0 0 0 -1 1 0 0 0 0 1 -1 0 , 0 ,
      2 0 0 0 -1 1 0 0 0 0 1 -1 0 , 0 , 2 0 0 0 -1 1 0 0 0 1 -1
    | 1 , 1 1 1 , 1 1 1 0 1 0 1 , 1 , 0 0 1 1 , 0 1 0 1 , 1 1 1 0 1 0 1 , 1 1 1 0 1 0 1 , 1 ,
      1 1 1 0 1 0 1";

/// Program C: f's summary twice, of which its exit names the second, and vertex 2 twice, of which the
/// return by that one names the first.
#[test]
fn a_call() {
    let given = "1 67 58 | 1 2 1 1 1 1 1 2 | 0 1 19 32 0 32 0 45
        | 0 , 2 -1 999995 0 1 0 5 0 -1 , 2 -1 999995 0 1 0 5 0 -1 , 2 0 0 0 -1 0 1 0 0 0 1 0 -1 ,
          2 0 0 0 -1 1 0 0 0 0 1 -1 0 , 2 0 0 0 -1 1 0 0 0 1 -1 , 2 0 0 0 -1 1 0 0 0 1 -1
        | 1 , 1 1 1 , 2 1 1 0 1 0 1 , 1 1 1 0 1 0 1 , 1 , 0 0 1 1 , 0 1 0 1 , 1 , 0 0 1 1 , 0 1 0 1 ,
          1 1 1 0 1 0 1 , 1 1 1 0 1 0 1 , 1 , 2 1 1 0 1 0 1";
    assert_by_hand(PROGRAM_C, given, "safe 14", IN_ORDER_C, "safe 10");
}

/// Two skips, each its own successor: nothing leads to the second.
#[test]
fn a_vertex_that_nothing_leads_to() {
    let given = "1 1 3 | 1 1 0 0 | 0 0 0 0 | 0 | 1 , 1 , 1";
    let left = "1 1 2 | 1 0 0 0 | 0 1 1 1 | 0 | 1 , 1";
    assert_by_hand(named("program D35"), given, "safe 3", left, "safe 2");
}

/// Plan A: x ≤ 599 is claimed where x ≤ 540 is, and nothing needs it; nor the first of two equal
/// disjuncts of vertex 1 and of main's summary.
#[test]
fn plan_a() {
    let given = "1 12 14 | 2 2 1 2 | 0 2 0 0 | 0 0 , 1 -1 999401 0 1 , 1 -1 999460 0 1
        | 2 , 1 1 , 2 1 , 1 , 0 1 1 , 1 , 0 1 1 , 2";
    let left = "1 8 8 | 1 1 1 1 | 0 1 6 7 | 0 , 1 -1 999460 0 1 , 0 , 0 | 1 1 1 1 0 1 1 1";
    assert_by_hand(PROGRAM_A, given, "safe 8", left, "safe 5");
    // The start names the first, which leads to x ≤ 599.
    let given = given.replace("| 2 , 1 1", "| 1 , 1 1");
    let left = left.replace("999460", "999401");
    assert_by_hand(PROGRAM_A, &given, "safe 8", &left, "safe 5");
}

/// Main calls f at vertex 1 and goes on at 2; f is a skip, vertex 3. Nothing has rows. A return counts
/// with the disjunct 1 of vertex 1 and the summary disjunct 2, and so vertex 2 keeps its second.
#[test]
fn returns() {
    let program = "3 2 0 13 | 5 1 1 6 6 | 0 3 5 7 10 | 0 2 2 , 0 4 , 0 5 , 1 0 0 , 3 0 0";
    let given = "1 3 13 | 2 3 1 1 1 1 2 | 0 0 0 0 0 0 0 | 0 0 0
        | 1 , 1 1 2 , 1 3 3 , 1 , 1 , 1 , 1 , 1 , 2";
    let left = "1 7 7 | 1 1 1 1 1 1 1 | 0 1 2 3 4 5 6 | 0 0 0 0 0 0 0 | 1 , 1 1 , 1 , 1 , 1 , 1";
    assert_by_hand(program, given, "safe 13", left, "safe 7");
    // The start names disjunct 2 as well: both returns by the summary disjunct 2 count.
    let given = given
        .replace("1 3 13", "1 3 17")
        .replace("| 1 , 1 1 2", "| -1 0 0 2 1 , 1 1 2");
    let left = "1 9 14 | 2 2 1 1 1 1 1 | 0 2 4 5 6 7 8 | 0 0 0 0 0 0 0 0 0
        | -1 0 0 2 1 , 1 1 , 1 2 , 1 , 1 , 1 , 1 , 1";
    assert_by_hand(program, &given, "safe 13", left, "safe 10");
    // f never gets to its exit, as far as the certificate says: no return counts.
    let program = program.replace("0 4 , 0 5", "0 4 , 0 3");
    let given = "1 2 9 | 1 2 1 1 1 1 2 | 0 0 0 0 0 0 0 | 0 0 | 1 , 1 1 2 , 1 , 1 , 1 , 1 , 2";
    let left = "1 2 3 | 1 0 1 0 0 0 0 | 0 1 1 2 2 2 2 | 0 0 | 1 , 1 , 1";
    assert_by_hand(&program, given, "safe 9", left, "safe 3");
}

/// One skip that is its own successor, and nothing has rows.
#[test]
fn trees_and_circles() {
    // The second and the third keep each other.
    let given = "1 3 4 | 3 0 0 | 0 0 0 | 0 0 0 | 1 , 1 , 3 , 2";
    let left = "1 1 2 | 1 0 0 | 0 1 1 | 0 | 1 , 1";
    assert_by_hand(PROGRAM_S, given, "safe 4", left, "safe 2");
    // The start's tree names the third and the first, and splits at the row 0.
    let given = "1 3 8 | 3 0 0 | 0 0 0 | 0 0 0 | -1 0 0 3 1 , 1 , 2 , 3";
    let left = "1 2 7 | 2 0 0 | 0 2 2 | 0 0 | -1 0 0 2 1 , 1 , 2";
    assert_by_hand(PROGRAM_S, given, "safe 4", left, "safe 3");
    // Two splits: the first leaf is a contradiction of 1 ≤ 0, and the last names the third.
    let given = "1 3 13 | 3 0 0 | 0 0 0 | 0 0 0 | -1 0 1 0 1 -1 0 0 3 3 , 1 , 2 , 3";
    let left = "1 1 11 | 1 0 0 | 0 1 1 | 0 | -1 0 1 0 1 -1 0 0 1 1 , 1";
    assert_by_hand(PROGRAM_S, given, "safe 4", left, "safe 2");
    // A chain from the last to the first, which leads to itself.
    let given = "1 4 5 | 4 0 0 | 0 0 0 | 0 0 0 0 | 4 , 1 , 1 , 2 , 3";
    let left = "1 4 5 | 4 0 0 | 0 4 4 | 0 0 0 0 | 4 , 1 , 1 , 2 , 3";
    assert_by_hand(PROGRAM_S, given, "safe 5", left, "safe 5");
    let given = given.replace("| 4 , 1", "| 2 , 1");
    let left = "1 2 3 | 2 0 0 | 0 2 2 | 0 0 | 2 , 1 , 1";
    assert_by_hand(PROGRAM_S, &given, "safe 5", left, "safe 3");
}

/// 4 after 1 to 3, for a trace too, and all of them before 26.
#[test]
fn refused_by_hand() {
    let mut counts = Refused::default();
    let mut assert = |program: &[i32], certificate: &[i32], expected: &str| {
        let pair = Pair {
            program: program.to_vec(),
            witness: certificate.to_vec(),
        };
        let answer = judge(program, certificate);
        assert_eq!(answer.to_string(), expected);
        assert_refused(&pair, answer, &mut counts);
    };
    let [program, certificate, trace] = [PROGRAM_A, CERTIFICATE_A, TRACE_B].map(words);
    let with = |words: &[i32], changes: &[(usize, i32)]| {
        let mut words = words.to_vec();
        changes.iter().for_each(|(at, word)| words[*at] = *word);
        words
    };
    for mark in [0, 2, 3, 5, -1, -4, i32::MIN, i32::MAX] {
        assert(&program, &with(&certificate, &[(0, mark)]), "refused 4 0 0");
    }
    for other in [&trace, &Vec::new()] {
        assert(&program, other, "refused 4 0 0");
        assert(&with(&program, &[(0, 0)]), other, "refused 1 0 0");
        assert(&with(&program, &[(6, 1)]), other, "refused 2 6 0");
        assert(
            &with(&program, &[(10, 12), (4, 7)]),
            other,
            "refused 3 4 12",
        );
    }
    for (changes, expected) in [
        (&[(4, 9)][..], "refused 5 4 0"),
        (&[(16, 0)], "refused 15 4 0"),
        (&[(23, 1_001)], "refused 6 21 0"),
        (&[(23, 0)], "refused 7 21 0"),
    ] {
        assert(&program, &with(&certificate, changes), expected);
    }
    let mut longer = with(&certificate, &[(2, 9)]);
    longer.push(1);
    assert(&program, &longer, "refused 8 25 0");
    let sparse = Parts::of(&pair(PROGRAM_A, CERTIFICATE_A)).words(Form::Sparse);
    assert(&program, &with(&sparse, &[(17, 0)]), "refused 25 4 0");
    assert(&program, &with(&sparse, &[(10, 7)]), "refused 25 6 0");
}

// ---- refusals

/// Damage of both forms aimed at each number, at first, middle and last places.
#[test]
fn damaged_certificates() {
    let random = &mut Random::new(1102);
    let mut counts = [Refused::default(), Refused::default()];
    let mut with_line = 0;
    for turn in 0..5_000 {
        let kind = Kind::ALL[turn % Kind::ALL.len()];
        let base = made(random, kind, 1).remove(0).pair(random);
        let mut aimed = aimed::certificate(random, &base);
        if turn % 4 == 0 {
            aimed.extend(aimed::lines(random, &base));
        }
        if turn % 6 == 0 {
            aimed.extend(aimed::sparse(random, &base.program, &Parts::of(&base)));
        }
        for aimed in aimed {
            let Input {
                program, witness, ..
            } = aimed.input;
            let is_sparse = witness.first() == Some(&Form::Sparse.mark());
            let pair = Pair { program, witness };
            if let Answer::Refused { line, .. } = aimed.answer {
                assert_refused(&pair, aimed.answer, &mut counts[usize::from(is_sparse)]);
                with_line += u64::from(line > 0);
            }
        }
        for (pair, counts) in both_forms(&base).iter().zip(&mut counts) {
            for pair in wrong_sizes(random, pair) {
                assert_refused(&pair, judge(&pair.program, &pair.witness), counts);
            }
        }
    }
    let [dense, sparse] = counts;
    println!("damaged, dense: {dense}; sparse: {sparse}; with a line: {with_line}");
    assert!(with_line >= 10_000);
    let both = |number| dense.times(number) + sparse.times(number);
    for number in [1, 2, 3, 4, 5, 6, 7, 8, 15, 25] {
        assert!(both(number) >= 10_000, "{number}");
        assert!(sparse.times(number) >= 1_000, "{number}");
        assert!(number == 25 || dense.times(number) >= 5_000, "{number}");
    }
}

/// Program and certificate words too many or too few, for 1, 4 and 8.
fn wrong_sizes(random: &mut Random, pair: &Pair) -> [Pair; 3] {
    let mut wrong = [(); 3].map(|()| pair.clone());
    let program = &mut wrong[0].program;
    match random.below(3) {
        0 => program.push(0),
        1 => program.truncate(random.below(program.len())),
        _ => program[random.below(3)] = *random.pick(&[-1, 1_025, i32::MIN, i32::MAX]),
    }
    let certificate = &mut wrong[1].witness;
    match random.below(4) {
        0 => certificate.push(0),
        1 => certificate.truncate(random.below(certificate.len())),
        2 => certificate[0] = *random.pick(&[0, 2, 3, 5, i32::MIN, i32::MAX]),
        _ => certificate[1 + random.below(2)] = *random.pick(&[-1, i32::MIN, i32::MAX]),
    }
    let certificate = &mut wrong[2].witness;
    let left = 1 + random.below(4);
    certificate[2] += left as i32;
    certificate.extend((0..left).map(|_| random.between(-1, 2)));
    wrong
}

/// Inputs of all streams: what is refused is refused here, and what is accepted is left smaller or
/// equal, and accepted.
#[test]
fn generated() {
    let mut counts = Refused::default();
    let mut trimmed = 0;
    let inputs = certificate_inputs(1103).take(30_000);
    let inputs = inputs.chain(split_inputs(1104).take(15_000));
    let inputs = inputs.chain(trace_inputs(1105).take(5_000));
    let pairs = inputs.map(|input| Pair {
        program: input.program,
        witness: input.witness,
    });
    for pair in pairs.chain(sparse::pairs(1106).take(30_000)) {
        match judge(&pair.program, &pair.witness) {
            Answer::Safe(count) => {
                assert_stays_accepted(&pair, count);
                trimmed += 1;
            }
            refused => assert_refused(&pair, refused, &mut counts),
        }
    }
    println!("generated: {trimmed} trimmed, refused {counts}");
    assert!(trimmed >= 2_000 && counts.all([1, 2, 3, 4, 5, 6, 7, 15, 25], 1_000));
    assert!(counts.times(8) >= 500);
}

/// Asserts that what is left of a certificate with so many entailments is accepted, with no more of
/// them, and stays as it is. How many words there are.
fn assert_stays_accepted(pair: &Pair, count: u64) -> usize {
    let result = Pair {
        program: pair.program.clone(),
        witness: result(pair),
    };
    assert_written(pair, &result.witness);
    let small = result.witness.len() <= SMALL;
    assert!(!small || result.witness == left_by_words(&dense(pair)));
    let Answer::Safe(left) = answer(&result) else {
        panic!("{pair:?}");
    };
    assert!(left <= count);
    for form in both_forms(&result) {
        assert_just_written(&form, &result.witness);
    }
    result.witness.len()
}

/// The certificate in dense form.
fn dense(pair: &Pair) -> Pair {
    let mut dense = pair.clone();
    if pair.witness[0] == Form::Sparse.mark() {
        dense.witness.resize(1_000_000, 0);
        let writing = to_dense(&pair.program, &pair.witness, &mut dense.witness);
        let Writing::Written(length) = writing else {
            panic!("{writing}: {pair:?}");
        };
        dense.witness.truncate(length as usize);
    }
    dense
}

/// The words that are left of an accepted certificate.
fn result(pair: &Pair) -> Vec<i32> {
    let lengths = [pair.witness.len(), 10_000, 1_000_000].into_iter();
    let results = lengths.map(|length| trimming(pair, length));
    let written = results.filter_map(|(writing, mut result)| match writing {
        Writing::Written(length) => {
            result.truncate(length as usize);
            Some(result)
        }
        _ => None,
    });
    written.into_iter().next().expect("it is written")
}

/// A trace is of no kind that is trimmed, whatever else is in it.
#[test]
fn traces_are_refused() {
    let random = &mut Random::new(1107);
    let mut counts = Refused::default();
    for _ in 0..2_500 {
        let trace = traces::trace(random).pair;
        assert_refused(&trace, Answer::refused(4, 0), &mut counts);
        for _ in 0..6 {
            let damaged = damage::damaged(random, &trace);
            if damaged.witness.first() == Some(&3) {
                let answer = judge(&damaged.program, &damaged.witness);
                assert_refused(&damaged, answer, &mut counts);
            }
        }
    }
    println!("traces: refused {counts}");
    assert!(counts.times(4) >= 10_000 && counts.all(1..=3, 100));
}

// ---- certificates of many words

/// Asserts what is left of both forms of a ring's certificate.
fn assert_ring(random: &mut Random, ring: &Ring) {
    let made = ring.made();
    let left = made.cut_down(&ring.used());
    let count = ring.chain - ring.first_used();
    assert_eq!(safe(&left), Answer::Safe(1 + count as u64));
    assert_made(random, &made, &left);
}

/// A chain of 8,000 disjuncts against the order of vertices and disjuncts, each named by the one before
/// it alone: the start names the first of them or a later one, and the last an earlier one.
#[test]
fn chain_of_8_000() {
    let random = &mut Random::new(1108);
    let ring = Ring::backwards(1_000, 8);
    for (start, back, first_used) in [
        (0, 0, 0),
        (0, 7_000, 0),
        (4_000, 0, 0),
        (4_000, 5_000, 4_000),
        (7_000, 7_000, 7_000),
    ] {
        let ring = Ring {
            start,
            back,
            ..ring.clone()
        };
        assert_eq!((ring.chain, ring.first_used()), (8_000, first_used));
        assert_ring(random, &ring);
    }
}

/// The same with steps to and fro between the first and the last of the vertices and disjuncts.
#[test]
fn alternating_chains() {
    let random = &mut Random::new(1112);
    for (skips, rounds) in [(1, 1), (1, 8), (2, 3), (7, 4), (30, 8), (1_000, 8)] {
        let ring = Ring::alternating(skips, rounds);
        let made = ring.made();
        assert!(skips > 30 || ring.used() == made.used(Reading::Right));
        assert_eq!(ring.first_used(), 0);
        assert_ring(random, &ring);
    }
}

/// Calls whose returns by all summary disjuncts but one are found last. All of it is used.
#[test]
fn late_summaries() {
    let random = &mut Random::new(1113);
    for calls in [1, 2, 5, 40, 1_000] {
        let made = late_returns(calls);
        let all: Used = made.counts().iter().map(|own| vec![true; *own]).collect();
        assert!(calls > 40 || made.used(Reading::Right) == all);
        assert_eq!(safe(&made), Answer::Safe(1 + 8 * 9 * calls as u64 + 16));
        assert_made(random, &made, &made);
    }
}

/// Any rings: what is used of the chain is what is found by looking at all entailments again and again.
#[test]
fn chains() {
    let random = &mut Random::new(1109);
    let mut dropped = 0;
    for _ in 0..2_000 {
        let ring = Ring::any(random);
        assert_eq!(ring.used(), ring.made().used(Reading::Right));
        dropped += u64::from(ring.first_used() > 0);
        assert_ring(random, &ring);
    }
    println!("chains: {dropped} with disjuncts that aren't used");
    assert!(dropped >= 500);
}

/// Results of 1,000,000 words are written, and longer ones refused whatever the buffer: from shared
/// words, from sparse ones, and from as many.
#[test]
fn most_words() {
    for length in [999_999, 1_000_000, 1_000_001, 1_000_002, 1_100_000] {
        let made = Ring::of_words(length).made();
        let expected = in_order(&made.program, &made.certificate);
        assert_eq!(expected.len(), length);
        let shared = made.shared();
        let [_, sparse] = both_forms(&shared);
        let mut pairs = vec![shared, sparse];
        if length <= 1_000_000 {
            let mut whole = pairs[0].clone();
            whole.witness = expected.clone();
            pairs.push(whole);
        }
        for pair in pairs {
            println!("{length} words from {}", pair.witness.len());
            assert_eq!(answer(&pair), safe(&made));
            if length <= 1_000_000 {
                assert_written(&pair, &expected);
                continue;
            }
            for buffer in [0, 999_999, 1_000_000, length, length + 1] {
                assert_refused_in(&pair, Writing::refused(26, 0), buffer);
            }
        }
    }
}

/// As long as a certificate may be, with words that no entry uses; and one word longer.
#[test]
fn longest_certificate() {
    let random = &mut Random::new(1110);
    let made = made(random, Kind::Copies, 1).remove(0);
    let left = made.cut_down(&made.used(Reading::Right));
    let expected = in_order(&left.program, &left.certificate);
    let mut pair = made.pair(random);
    fill(&mut pair, 1_000_000);
    assert_written(&pair, &expected);
    fill(&mut pair, 1_000_001);
    assert_refused_in(&pair, Writing::refused(4, 0), 0);
}

#[test]
fn long_certificates() {
    let random = &mut Random::new(1111);
    let mut longest = 0;
    for pair in certificates::long(random) {
        for pair in both_forms(&pair) {
            let Answer::Safe(count) = answer(&pair) else {
                panic!("accepted");
            };
            longest = longest.max(assert_stays_accepted(&pair, count));
        }
    }
    println!("the longest result has {longest} words");
    assert!(longest >= 10_000);
}

/// Asserts that of a certificate with copies that nothing uses the same is left as without them.
fn assert_copies_dropped(pair: &Pair) {
    let (copied, left) = (with_copies(pair), result(pair));
    let [with, without] = [&copied, pair].map(answer);
    let (Answer::Safe(with), Answer::Safe(without)) = (with, without) else {
        panic!("{with}: {copied:?}");
    };
    assert!(with > without);
    for copied in both_forms(&copied) {
        assert_written(&copied, &left);
    }
}

#[test]
fn families_and_examples() {
    let mut count = 0;
    for family in FAMILIES {
        for n in [0, 1, 3, 7].into_iter().filter(|n| *n <= family.largest) {
            let (program, witness) = (family.make)(n);
            let pair = Pair { program, witness };
            assert_copies_dropped(&pair);
            for pair in both_forms(&pair) {
                let Answer::Safe(before) = answer(&pair) else {
                    panic!("{} ({n})", family.name);
                };
                assert_stays_accepted(&pair, before);
                count += 1;
            }
        }
    }
    let mut refused = Refused::default();
    for example in examples() {
        let pair = Pair {
            program: example.program,
            witness: example.witness,
        };
        match judge(&pair.program, &pair.witness) {
            Answer::Safe(before) => {
                assert_stays_accepted(&pair, before);
                count += 1;
            }
            answer => assert_refused(&pair, answer, &mut refused),
        }
    }
    println!("families and examples: {count} trimmed, refused {refused}");
    assert!(count >= 100 && refused.all([1, 2, 3, 4, 5, 6, 7, 8, 15, 25], 1));
}

/// The header promises that 256 KB of stack are enough for the proved trimmer: with most disjuncts, and
/// with trees.
#[test]
fn little_stack() {
    let random = &mut Random::new(1113);
    let trees = made(random, Kind::Trees, 8);
    let mut pairs: Vec<Pair> = trees
        .iter()
        .flat_map(|made| both_forms(&made.shared()))
        .collect();
    pairs.extend(both_forms(&Ring::backwards(1_000, 8).made().shared()));
    let trim = move || {
        for pair in &pairs {
            let mut result = vec![0; 1_000_000];
            let writing = proved::trim(&pair.program, &pair.witness, &mut result);
            assert!(matches!(writing, Writing::Written(_)), "{writing:?}");
        }
    };
    let thread = std::thread::Builder::new().stack_size(256 * 1024);
    thread.spawn(trim).unwrap().join().unwrap();
}
