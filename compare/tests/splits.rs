//! Witnesses with splits: the second checker's answers at each kind of entailment and for trees of
//! every depth, and that without splits the same goals have no witness.

mod common;

use common::{assert_second, PROGRAM_S};
use compare::build::{systems, Attempt, Certificate, Program, Sharing, Witness};
use compare::checker::{check, witness_layout, Answer};
use compare::generate::splits::{self, Kind, Tree};
use compare::generate::Pair;
use compare::random::Random;
use std::collections::BTreeMap;

const AMOUNT: usize = 6_000;

fn assert_answer(pair: &Pair, expected: Answer) {
    let answer = check(&pair.program, &pair.witness, &mut []);
    assert_eq!(answer, expected, "{pair:?}");
}

/// The accepted pair of a program and its certificate.
fn assert_safe(made: &(Program, Certificate), sharing: Sharing) -> Pair {
    let pair = splits::pair(made, sharing);
    assert_answer(&pair, Answer::Safe(made.1.witnesses.len() as u64));
    pair
}

/// Which shapes of trees there were.
#[derive(Debug, Default)]
struct Shapes {
    /// By the most splits on a way.
    depths: [u64; 9],
    /// Trees with 255 splits and 256 leaves.
    fullest: u64,
    /// Trees whose splits are all on one way, and those with eight.
    combs: u64,
    deepest_combs: u64,
    /// Rows of splits: without coefficients, over no columns, with numbers at the limits.
    constant_rows: u64,
    without_columns: u64,
    at_limits: [u64; 4],
    most_words: usize,
}

impl Shapes {
    fn add(&mut self, pair: &Pair) {
        let layout = witness_layout(&pair.program, &pair.witness).expect("accepted");
        let trees: Vec<_> = layout.iter().filter(|tree| tree.has_splits()).collect();
        assert!(!trees.is_empty(), "{pair:?}");
        for tree in trees {
            let splits: Vec<_> = tree.parts.iter().filter(|part| part.is_split).collect();
            self.depths[tree.depth()] += 1;
            self.fullest += u64::from(splits.len() == 255);
            let is_comb = splits.len() == tree.depth() && tree.depth() > 1;
            self.combs += u64::from(is_comb);
            self.deepest_combs += u64::from(is_comb && tree.depth() == 8);
            self.most_words = self.most_words.max(tree.words().len());
            for split in splits {
                let row = &pair.witness[split.words.start + 1..split.words.end];
                let (constant, coefficients) = row.split_at(2);
                self.constant_rows += u64::from(coefficients.iter().all(|word| *word == 0));
                self.without_columns += u64::from(coefficients.is_empty());
                let extremes = [constant == [4_000, 0], constant == [-4_000, 0]];
                let coefficients = [1_000, -1_000].map(|limit| coefficients.contains(&limit));
                let found = extremes.into_iter().chain(coefficients);
                for (count, found) in self.at_limits.iter_mut().zip(found) {
                    *count += u64::from(found);
                }
            }
        }
    }
}

#[test]
fn accepted() {
    let random = &mut Random::new(81);
    let mut shapes = Shapes::default();
    for _ in 0..AMOUNT {
        let made = splits::accepted(random);
        let pair = assert_safe(&made, Sharing::Shared);
        shapes.add(&pair);
    }
    println!("{shapes:?}");
    assert!(shapes.depths[1..].iter().all(|count| *count >= 100));
    assert!(shapes.fullest >= 100 && shapes.combs >= 1_000 && shapes.deepest_combs >= 100);
    assert!(shapes.constant_rows >= 1_000 && shapes.without_columns >= 1_000);
    assert!(shapes.at_limits.iter().all(|count| *count >= 1_000));
}

/// Whether no single sum shows the tree's entailment.
fn needs_a_split(tree: &Tree) -> bool {
    let systems = systems(&tree.program, &tree.certificate.edges).expect("well formed");
    !matches!(systems[tree.entailment].prove(), Attempt::Proved(_))
}

#[test]
fn needed_at_each_kind_of_entailment() {
    let random = &mut Random::new(82);
    let mut needed: BTreeMap<Kind, u64> = BTreeMap::new();
    let mut depths: BTreeMap<(Kind, usize), u64> = BTreeMap::new();
    let mut of_fresh_columns: BTreeMap<Kind, u64> = BTreeMap::new();
    let mut disjuncts: BTreeMap<usize, u64> = BTreeMap::new();
    let mut contradictions = 0;
    let mut cases: BTreeMap<&str, u64> = BTreeMap::new();
    for turn in 0..AMOUNT {
        let tree = match turn % 8 {
            0 => splits::bounded(random),
            1 => splits::impossible(random),
            _ => splits::covered(random),
        };
        contradictions += u64::from(turn % 8 == 1 && needs_a_split(&tree));
        if needs_a_split(&tree) {
            *needed.entry(tree.kind).or_default() += 1;
            let witness = &tree.certificate.witnesses[tree.entailment];
            *depths.entry((tree.kind, witness.depth())).or_default() += 1;
            *disjuncts.entry(different_disjuncts(witness)).or_default() += 1;
            let own = 2 * tree.program.columns(0);
            let fresh = used_columns(witness)
                .into_iter()
                .any(|column| column >= own);
            *of_fresh_columns.entry(tree.kind).or_default() += u64::from(fresh);
        }
        for sharing in [Sharing::Apart, Sharing::Shared] {
            assert_safe(&tree.clone().into_parts(), sharing);
            for changed in splits::changed(random, &tree, sharing) {
                assert_answer(&changed.pair, changed.answer);
                *cases.entry(changed.case).or_default() += 1;
            }
        }
    }
    println!("splits that are needed: {needed:?}; leaves by how many disjuncts: {disjuncts:?}");
    println!("by depth: {depths:?}; with a fresh column in the row: {of_fresh_columns:?}");
    println!("contradictions by cases: {contradictions}; changed: {cases:?}");
    assert!(contradictions >= 100);
    assert!(Kind::ALL.iter().all(|kind| needed[kind] >= 100));
    assert!(Kind::ALL
        .iter()
        .all(|kind| (1..=8).all(|depth| depths[&(*kind, depth)] >= 10)));
    assert!([Kind::CallEntry, Kind::Return]
        .iter()
        .all(|kind| of_fresh_columns[kind] >= 100));
    assert!((2..=8).all(|count| disjuncts[&count] >= 100));
    assert!(cases.len() == 7 && cases.values().all(|count| *count >= 100));
}

/// The search finds splits for up to four disjuncts by itself, and what it finds is accepted.
#[test]
fn found_by_search() {
    let random = &mut Random::new(85);
    let [mut found, mut two] = [0; 2];
    for _ in 0..1_000 {
        let tree = splits::covered(random);
        let systems = systems(&tree.program, &tree.certificate.edges).expect("well formed");
        let system = &systems[tree.entailment];
        if system.disjunct_count() > 4 {
            continue;
        }
        if let Some(witness) = system.prove_by_splits(2) {
            found += u64::from(witness.depth() > 0);
            two += u64::from(witness.depth() == 2);
            let mut certificate = tree.certificate.clone();
            certificate.witnesses[tree.entailment] = witness;
            assert_safe(&(tree.program.clone(), certificate), Sharing::Shared);
        }
    }
    println!("found by search: {found}, with two splits on a way {two}");
    assert!(found >= 400 && two >= 200);
}

/// The columns that the splits of a witness speak of.
fn used_columns(witness: &Witness) -> Vec<usize> {
    let Witness::Split { row, witnesses } = witness else {
        return Vec::new();
    };
    let own = row.coefficients.iter().enumerate();
    let own = own
        .filter(|(_, cell)| **cell != 0)
        .map(|(column, _)| column);
    own.chain(witnesses.iter().flat_map(used_columns)).collect()
}

/// How many disjuncts the leaves of a witness name.
fn different_disjuncts(witness: &Witness) -> usize {
    let mut numbers = Vec::new();
    let mut witness = witness.clone();
    for leaf in witness.leaves_mut() {
        if let Witness::Disjunct { number, .. } = leaf {
            numbers.push(*number);
        }
    }
    numbers.sort_unstable();
    numbers.dedup();
    numbers.len()
}

/// One skip that is its own successor, and a global x. The path edge is x now ≤ 0 or x now ≥ 1, and
/// the start shows it with these words.
fn assert_start(words: &str, expected: &str) {
    let witness = format!(
        "1 10 {} | 2 0 0 | 0 0 0 | 1 0 0 0 1 1 0 1 0 -1 | {words} | 1 1 1 2 1 1",
        words.split_whitespace().count() + 6
    );
    assert_second("1 1 1 5 | 1 6 | 0 2 | 0 1 1 0 0", &witness, expected);
}

#[test]
fn at_the_start() {
    assert_start("-1 0 0 1 1 1 1 2 1 1", "safe 3");
    // By the other side, and with the row twice.
    assert_start("-1 0 1 -1 2 1 1 1 1 1", "safe 3");
    assert_start("-1 0 0 2 1 2 1 2 2 1", "safe 3");
    // x ≤ 1 and x ≤ -1 are other splits.
    assert_start("-1 -1 999999 1 1 1 1 2 1 1", "refused 7 19 0");
    assert_start("-1 0 1 1 1 1 1 2 1 1", "refused 7 19 0");
    // The sides exchanged, one witness on both, and a contradiction on one.
    assert_start("-1 0 0 1 2 1 1 1 1 1", "refused 7 19 0");
    assert_start("-1 0 0 1 1 1 1 1 1 1", "refused 7 19 0");
    assert_start("-1 0 0 1 1 1 1 0 1", "refused 7 19 0");
    // No split.
    assert_start("1 1", "refused 7 19 0");
    assert_start("-2 0 0 1 1 1 1 2 1 1", "refused 6 19 0");
    assert_start("3 0 0 1 1 1 1 2 1 1", "refused 6 19 0");
}

#[test]
fn limits_of_a_row() {
    for (constant, expected) in [
        ("4000 0", "refused 7 19 0"),
        ("-4000 0", "refused 7 19 0"),
        ("0 999999", "refused 7 19 0"),
        ("4000 1", "refused 6 19 0"),
        ("-4001 999999", "refused 6 19 0"),
        ("0 1000000", "refused 6 19 0"),
        ("1 -1", "refused 6 19 0"),
    ] {
        assert_start(&format!("-1 {constant} 1 1 1 1 2 1 1"), expected);
    }
    assert_start("-1 0 0 1000 1 1000 1 2 1000 1", "safe 3");
    assert_start("-1 0 0 1001 1 1000 1 2 1000 1", "refused 6 19 0");
    assert_start("-1 0 1 -1000 2 1000 1 1 1000 1", "safe 3");
    assert_start("-1 0 1 -1001 2 1000 1 1 1000 1", "refused 6 19 0");
    // Behind a useless split the constant of a second side is 4,000,000,001.
    assert_start("-1 -4000 0 0 -1 0 0 1 1 1 0 1 2 1 0 1 0 1", "safe 3");
}

/// The premise of the outer split comes first.
#[test]
fn order_of_premises() {
    assert_start("-1 0 0 1 -1 0 0 1 1 1 1 0 0 1 1 2 1 1", "safe 3");
    // A leaf that takes x ≤ 0 from the second premise, where the first is 7 x - 3 ≤ 0.
    let tree = |first: &str| {
        let second = "-1 0 0 1 0 1 7 2 1 0 1";
        format!("-1 -1 999997 7 -1 0 0 1 {first} 2 1 0 1 {second}")
    };
    assert_start(&tree("1 1 0 1"), "safe 3");
    assert_start(&tree("1 1 1 0"), "refused 7 19 0");
    assert_start(&tree("1 7 1 0"), "safe 3");
}

/// Without variables the row is its constant, and both witnesses are read and judged.
#[test]
fn without_columns() {
    let assert_start = |words: &str, expected: &str| {
        let count = words.split_whitespace().count() + 1;
        let witness = format!("1 1 {count} | 1 0 0 | 0 0 0 | 0 | {words} | 1");
        assert_second(PROGRAM_S, &witness, expected);
    };
    assert_start("-1 0 5 1 1", "safe 2");
    assert_start("-1 0 5 0 1 1", "safe 2");
    assert_start("-1 -1 999995 1 0 1", "safe 2");
    assert_start("-1 -1 999995 0 1 1", "refused 7 10 0");
    assert_start("-1 0 0 1 0 1", "safe 2");
    assert_start("-1 0 1 0 1 1", "safe 2");
    assert_start("-1 0 1 1 0 1", "refused 7 10 0");
    // 6 on one side and 7 on the other.
    assert_start("-1 0 5 0 0 -2", "refused 6 10 0");
    assert_start("-1 0 5 -2 0 0", "refused 6 10 0");
    assert_start("-1 0 5 0 0 1", "refused 7 10 0");
}

/// Eight splits on a way, and nine.
#[test]
fn eight_and_nine() {
    for (splits, expected) in [(8, "safe 2"), (9, "refused 6 10 0"), (20, "refused 6 10 0")] {
        for comb in [
            format!("{} 1", "-1 0 0 1 ".repeat(splits)),
            format!("{} 1 {}", "-1 0 0 ".repeat(splits), "1 ".repeat(splits)),
        ] {
            let count = comb.split_whitespace().count() + 1;
            let witness = format!("1 1 {count} | 1 0 0 | 0 0 0 | 0 | {comb} | 1");
            assert_second(PROGRAM_S, &witness, expected);
        }
    }
}

/// Where the words end, the place is that of the outermost split.
#[test]
fn missing_words() {
    let tree = "-1 0 0 -1 0 0 1 1 -1 0 0 1 1";
    let words: Vec<&str> = tree.split_whitespace().collect();
    for count in 0..words.len() {
        let witness = format!(
            "1 1 {count} | 1 0 0 | 0 0 0 | 0 | {}",
            words[..count].join(" ")
        );
        assert_second(PROGRAM_S, &witness, "refused 6 10 0");
    }
    let witness = format!("1 1 15 | 1 0 0 | 0 0 0 | 0 | {tree} 1 1");
    assert_second(PROGRAM_S, &witness, "refused 8 24 0");
}
