//! What certificates say of other locals at an entry. They may hold anything there: a certificate that
//! counts on 0 is refused at the entailment to the entry, and one with an assignment first is accepted.

mod common;

use common::assert_second;
use compare::checker::{check, Answer};
use compare::generate::other_locals::{self, Entry};
use compare::generate::Pair;
use compare::random::Random;
use std::collections::BTreeMap;

const AMOUNT: usize = 12_000;

/// Main asserts x ≤ 0 of its other local x, where the path edge is x now ≤ 0.
#[test]
fn main_counts_on_zero() {
    assert_second(
        "1 1 0 9 | 4 6 | 0 6 | 0 2 3 0 0 1 1 1 0",
        "1 6 7 | 1 1 1 | 1 0 0 | 0 1 0 0 0 1 | 1 1 1 0 1 1 1",
        "refused 7 15 0",
    );
    // x = 0 first: the edge is that of vertex 2.
    assert_second(
        "2 1 0 15 | 2 4 6 | 0 6 12 | 0 2 0 0 0 0 0 3 3 0 0 1 1 1 0",
        "1 6 8 | 1 1 1 1 | 0 1 0 0 | 0 1 0 0 0 1 | 1 1 1 1 0 1 1 1",
        "safe 5",
    );
}

/// Main calls f, which asserts x ≤ 0 of its other local x, where the path edge is x now ≤ 0.
#[test]
fn a_callee_counts_on_zero() {
    assert_second(
        "2 2 0 15 | 5 4 6 6 | 0 3 9 12 | 0 3 2 0 4 3 0 0 1 1 0 0 2 1 0",
        "1 6 10 | 1 1 1 1 1 1 | 0 1 0 0 0 0 | 0 1 0 0 0 1 | 1 1 1 1 1 0 1 1 1 1",
        "refused 7 22 0",
    );
    // x = 0 first: the edge is that of vertex 3.
    assert_second(
        "3 2 0 21 | 5 2 4 6 6 | 0 3 9 15 18 | 0 4 2 0 3 0 0 0 0 0 5 3 0 0 1 1 0 0 2 1 0",
        "1 6 11 | 1 1 1 1 1 1 1 | 0 0 1 0 0 0 0 | 0 1 0 0 0 1 | 1 1 1 1 1 1 0 1 1 1 1",
        "safe 8",
    );
}

fn assert_expected((pair, expected): (Pair, Answer)) {
    let answer = check(&pair.program, &pair.witness, &mut []);
    assert_eq!(answer, expected, "{pair:?}");
}

#[test]
fn zeros() {
    let random = &mut Random::new(78);
    let mut entries: BTreeMap<Entry, u64> = BTreeMap::new();
    for _ in 0..AMOUNT {
        let zero = other_locals::zero(random);
        assert!(matches!(
            zero.unassigned.1,
            Answer::Refused { number: 7, .. }
        ));
        assert!(matches!(zero.assigned.1, Answer::Safe(_)));
        assert_expected(zero.unassigned);
        assert_expected(zero.assigned);
        *entries.entry(zero.entry).or_default() += 1;
    }
    println!("{AMOUNT} that count on 0: {entries:?}");
    assert!(Entry::ALL.iter().all(|entry| entries[entry] >= 1_000));
}

/// An other local is the same at entry and now, and has nothing to do with any other value.
#[test]
fn the_same_at_entry_and_now() {
    let random = &mut Random::new(79);
    for _ in 0..AMOUNT {
        other_locals::tied(random)
            .into_iter()
            .for_each(assert_expected);
    }
}
