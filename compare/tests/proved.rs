//! The proved checker, through its C interface, gives the second checker's answers: on generated
//! certificates and traces, good and damaged, on damage aimed at each refusal at first, middle and
//! last places, on lines of all sorts, on sums that only rounding accepts, on witnesses with splits,
//! on constants above 1,000,000, on the largest sizes and on the report's families.

use compare::checker::{self, Answer};
use compare::compare::{
    compare, inputs, outcome, run, run_large, Counts, Second, NUMBERS, WITH_LINES,
};
use compare::families::FAMILIES;
use compare::generate::constants::{decided, Place};
use compare::generate::large::{self, Large};
use compare::generate::{
    aimed, certificates, extremes, other_locals, rounding, split_inputs, splits, traces, Input,
    Pair,
};
use compare::proved::{self, Proved};
use compare::random::Random;

#[test]
fn generated() {
    let mut safe_with_others = 0;
    for seed in [41, 42, 46, 47] {
        let report = run(&Proved, seed, 190_000);
        println!("proved checker, seed {seed}: {}", report.counts);
        assert!(report.disagreement.is_none());
        assert!(report.counts.safe >= 1_000 && report.counts.trace >= 1_000);
        assert!(report.counts.refused.all(NUMBERS, 100));
        let lines = &report.counts.lines;
        assert!(lines.refused.all(WITH_LINES, 100));
        safe_with_others += report.counts.others.safe;
    }
    assert!(safe_with_others >= 10_000);
}

/// The stream about splits alone, with random damage.
#[test]
fn generated_with_splits() {
    let report = compare(&Proved, split_inputs(84).take(100_000));
    println!("proved checker, splits: {}", report.counts);
    assert!(report.disagreement.is_none());
    let splits = report.counts.splits;
    assert!(splits.safe >= 1_000 && splits.deepest >= 100);
    assert!(splits.beyond >= 10_000 && splits.misfit >= 10_000);
}

#[test]
fn aimed_at_each_refusal() {
    let random = &mut Random::new(43);
    let mut counts = Counts::default();
    for _ in 0..1_070 {
        let pair = certificates::accepted(random);
        let mut aimed = aimed::certificate(random, &pair);
        aimed.extend(aimed::lines(random, &pair));
        let plain = Input {
            program: pair.program,
            witness: pair.witness,
            buffer: vec![7; 3],
        };
        let inputs = aimed.into_iter().map(|aimed| aimed.input);
        for input in std::iter::once(plain).chain(inputs) {
            let answered = outcome(&Proved, &input);
            assert_eq!(answered, outcome(&Second, &input), "{input:?}");
            counts.add(&input.program, &input.witness, answered.0);
        }
        assert_expected(extremes::wrapping(random));
        for (pair, expected) in aimed::one_column(random) {
            counts.add(&pair.program, &pair.witness, expected);
            assert_expected((pair, expected));
        }
    }
    println!("proved checker, aimed: {counts}");
    assert!(counts.safe >= 1_000);
    assert!(counts.refused.all(1..=8, 1_000));
    assert!(counts.refused.times(15) >= 10_000);
    let lines = counts.lines;
    assert!(lines.refused.times(3) >= 10_000 && lines.unknown_kinds >= 10_000);
    assert!(lines.cut_off >= 5_000 && lines.beyond >= 5_000);
}

#[test]
fn aimed_at_each_refusal_of_traces() {
    let random = &mut Random::new(48);
    let mut counts = Counts::default();
    for _ in 0..2_800 {
        for make in [
            traces::trace,
            traces::deep,
            traces::growing,
            traces::climbing,
            traces::again,
            traces::calling,
            traces::switching,
        ] {
            let trace = make(random);
            for aimed in aimed::trace(random, &trace) {
                let rest = &aimed.input.buffer[aimed.values.len()..];
                let expected = [&aimed.values, rest].concat();
                let answered = outcome(&Proved, &aimed.input);
                assert_eq!(answered, (aimed.answer, expected), "{:?}", aimed.input);
                let input = &aimed.input;
                counts.add(&input.program, &input.witness, answered.0);
            }
        }
    }
    println!("proved checker, aimed at traces: {counts}");
    assert!(counts.trace >= 1_000);
    assert!(counts.refused.all(9..=14, 1_000));
    let others = counts.others;
    assert!(others.trace >= 10_000 && others.beyond >= 10_000);
    assert!(others.missing >= 10_000 && others.left_over >= 10_000);
    assert!(counts.lines.refused.all(10..=12, 10_000));
    assert!(counts.lines.none >= 10_000);
    let expressions = counts.constants.expressions;
    assert!(expressions.accepted >= 10_000 && expressions.refused >= 10_000);
}

/// Several refusals in one trace, each pair of neighbours in both orders.
#[test]
fn clashing() {
    let random = &mut Random::new(76);
    for _ in 0..10_000 {
        let clash = aimed::clashing(random);
        let Pair { program, witness } = &clash.pair;
        let answer = proved::check(program, witness, &mut []);
        assert_eq!(answer, clash.answer(), "{:?}", clash.pair);
    }
}

/// What certificates say of other locals at an entry.
#[test]
fn other_locals() {
    let random = &mut Random::new(77);
    let [mut refused, mut accepted] = [0; 2];
    for _ in 0..10_000 {
        let zero = other_locals::zero(random);
        refused += assert_expected(zero.unassigned);
        accepted += assert_expected(zero.assigned);
        let [tied, untied] = other_locals::tied(random);
        accepted += assert_expected(tied);
        refused += assert_expected(untied);
    }
    println!("proved checker, other locals at an entry: {accepted} accepted, {refused} refused");
}

/// The proved checker's answer is the second checker's and the expected one.
fn assert_expected((pair, expected): (Pair, Answer)) -> u64 {
    let answer = proved::check(&pair.program, &pair.witness, &mut []);
    assert_eq!(answer, expected, "{pair:?}");
    assert_eq!(answer, checker::judge(&pair.program, &pair.witness));
    1
}

#[test]
fn rounding() {
    let random = &mut Random::new(75);
    let [mut only, mut tighter, mut too_low, mut exact, mut others] = [0; 5];
    for _ in 0..12_000 {
        let sharing = certificates::sharing(random);
        let rounded = rounding::rounded(random);
        only += assert_expected(rounded.accepted(sharing));
        tighter += assert_expected(rounded.tighter(sharing));
        too_low += assert_expected(rounded.too_low(sharing));
        let unrounded = rounding::exact(random);
        exact += assert_expected(unrounded.accepted(sharing));
        tighter += assert_expected(unrounded.tighter(sharing));
        let contradictions = rounding::contradictions(random, sharing);
        let [starts, extremes] = [rounding::starts(random), extremes::rounded(random)];
        for pairs in [contradictions, starts, extremes] {
            others += pairs.map(assert_expected).iter().sum::<u64>();
        }
    }
    println!(
        "proved checker, rounding: {only} that only rounding accepts, {exact} exact, \
         {tighter} one tighter, {too_low} one too low, {others} others"
    );
    assert!(only >= 10_000 && tighter >= 10_000 && too_low >= 10_000);
}

/// Counts the pair, whose answer is the expected one by both checkers.
fn take(counts: &mut Counts, pair: Pair, expected: Answer) {
    counts.add(&pair.program, &pair.witness, expected);
    assert_expected((pair, expected));
}

#[test]
fn splits() {
    let random = &mut Random::new(80);
    let [mut accepted, mut aimed_at, mut changed] = [0; 3].map(|_| Counts::default());
    for turn in 0..5_500 {
        let sharing = certificates::sharing(random);
        let made = splits::accepted(random);
        let pair = splits::pair(&made, sharing);
        for aimed in aimed::trees(random, &pair) {
            let Input {
                program, witness, ..
            } = aimed.input;
            take(&mut aimed_at, Pair { program, witness }, aimed.answer);
        }
        let count = made.1.witnesses.len() as u64;
        take(&mut accepted, pair, Answer::Safe(count));
        let tree = match turn % 5 {
            0 => splits::bounded(random),
            1 => splits::impossible(random),
            _ => splits::covered(random),
        };
        for damaged in splits::changed(random, &tree, sharing) {
            take(&mut changed, damaged.pair, damaged.answer);
        }
        let made = tree.into_parts();
        let count = made.1.witnesses.len() as u64;
        let pair = splits::pair(&made, sharing);
        take(&mut accepted, pair, Answer::Safe(count));
    }
    println!("proved checker, accepted: {}", accepted.splits);
    println!("proved checker, aimed at trees: {}", aimed_at.splits);
    println!("proved checker, trees changed: {}", changed.splits);
    assert!(accepted.splits.safe >= 10_000 && accepted.splits.deepest >= 1_000);
    assert!(aimed_at.splits.beyond >= 10_000);
    assert!(aimed_at.splits.misfit >= 10_000 && changed.splits.misfit >= 10_000);
}

/// Constants above 1,000,000 in expressions, in rows of entries and in split rows: those that decide
/// an answer, those of the largest sums, and damage aimed at their two words.
#[test]
fn constants() {
    let random = &mut Random::new(96);
    let [mut counts, mut aimed_at] = [0; 2].map(|_| Counts::default());
    for turn in 0..6_000 {
        for place in Place::ALL.into_iter().chain([Place::SplitRow]) {
            let decided = decided(random, place);
            for (pair, expected) in [decided.accepted, decided.refused] {
                take(&mut counts, pair, expected);
            }
        }
        if turn % 3 > 0 {
            continue;
        }
        let sums = [extremes::sums(random), extremes::goals(random)];
        for (pair, expected) in sums.into_iter().flatten() {
            take(&mut counts, pair, expected);
        }
        let (plain, sharing) = (
            certificates::accepted(random),
            certificates::sharing(random),
        );
        let split = splits::pair(&splits::accepted(random), sharing);
        for pair in [plain, split] {
            for aimed in aimed::constants(random, &pair) {
                let Input {
                    program, witness, ..
                } = aimed.input;
                take(&mut aimed_at, Pair { program, witness }, aimed.answer);
            }
        }
    }
    println!("proved checker, constants: {}", counts.constants);
    println!("proved checker, aimed at constants: {}", aimed_at.constants);
    for (standing, aimed_at) in counts.constants.all().iter().zip(aimed_at.constants.all()) {
        assert!(standing.accepted >= 10_000 && standing.refused >= 10_000);
        assert!(aimed_at.beyond >= 5_000);
    }
}

#[test]
fn largest_sizes() {
    let report = run_large(&Proved, 44);
    println!("proved checker, largest sizes: {}", report.counts);
    assert!(report.disagreement.is_none());
}

/// The header promises that 128 KB of stack are enough.
#[test]
fn little_stack() {
    let inputs = large::inputs(50);
    let check = move || inputs.iter().for_each(assert_answer);
    let thread = std::thread::Builder::new().stack_size(128 * 1024);
    thread.spawn(check).unwrap().join().unwrap();
}

fn assert_answer(large: &Large) {
    assert_eq!(outcome(&Proved, &large.input).0, large.answer);
}

#[test]
fn families() {
    for family in FAMILIES {
        let chosen = [0, 1, 2, 3, 5, 7, 8, 20, 27, 100, 509, 1_000_000];
        for n in chosen.into_iter().filter(|n| *n <= family.largest) {
            let (program, certificate) = (family.make)(n);
            let answer = proved::check(&program, &certificate, &mut []);
            let name = family.name;
            assert!(matches!(answer, Answer::Safe(_)), "{name} ({n}): {answer}");
            assert_eq!(answer, checker::judge(&program, &certificate));
        }
    }
}

/// The wrapper's diagnosis is the second checker's, the same words at the same place in memory, and
/// so are its values: after each refusal but 13, which its own buffer never gets, and after safe
/// and trace.
#[test]
fn parts_and_values() {
    let mut counts = Counts::default();
    let mut parts = 0;
    for input in inputs(49).take(30_500) {
        let (program, witness) = (&input.program, &input.witness);
        let checked = leukarion::check(program, witness);
        let answer = proved::answer(checked.answer);
        let expected = checker::diagnosis(program, witness, answer);
        let mut buffer = [i64::MAX; leukarion::MOST_VALUES];
        assert_eq!(answer, checker::check(program, witness, &mut buffer));
        let values: Vec<i64> = (buffer.into_iter())
            .take_while(|value| *value != i64::MAX)
            .collect();
        assert_eq!(checked.values(), values);
        assert_eq!(
            checked.diagnosis.as_ptr_range(),
            expected.as_ptr_range(),
            "{answer}"
        );
        parts += u64::from(!expected.is_empty());
        counts.add(program, witness, answer);
    }
    println!("{parts} diagnoses of 30,500 were not empty: {counts}");
    assert!(parts >= 10_000 && counts.safe > 0 && counts.trace > 0);
    let numbers = NUMBERS.into_iter().filter(|number| *number != 13);
    assert!(counts.refused.all(numbers, 1));
}
