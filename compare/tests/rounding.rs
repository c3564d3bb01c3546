//! Sums that are rounded to whole numbers: the second checker's answers at each kind of entailment,
//! and that without rounding the same sums would not fit.

mod common;

use common::needing_rounding;
use compare::build::Sharing;
use compare::checker::{check, Answer};
use compare::generate::rounding::{self, Kind};
use compare::generate::{extremes, Pair};
use compare::random::Random;
use std::collections::BTreeMap;

const AMOUNT: usize = 12_000;

fn assert_answer((pair, expected): (Pair, Answer)) {
    let answer = check(&pair.program, &pair.witness, &mut []);
    assert_eq!(answer, expected, "{pair:?}");
}

#[test]
fn only_by_rounding() {
    let random = &mut Random::new(71);
    let mut kinds: BTreeMap<Kind, u64> = BTreeMap::new();
    let mut divisors: BTreeMap<i32, u64> = BTreeMap::new();
    let [mut least, mut most, mut negative, mut positive] = [0; 4];
    for _ in 0..AMOUNT {
        let rounded = rounding::rounded(random);
        let needing = needing_rounding(&rounded.program, &rounded.certificate);
        assert_eq!(needing, [rounded.entailment]);
        for sharing in [Sharing::Apart, Sharing::Shared] {
            assert_answer(rounded.accepted(sharing));
            assert_answer(rounded.tighter(sharing));
            assert_answer(rounded.too_low(sharing));
        }
        *kinds.entry(rounded.kind).or_default() += 1;
        *divisors.entry(rounded.sum.divisor).or_default() += 1;
        negative += u64::from(rounded.claimed() < 0);
        positive += u64::from(rounded.claimed() > 0);
        least += u64::from(rounded.sum.above == 1);
        most += u64::from(rounded.sum.above == rounded.sum.divisor - 1);
    }
    println!("{AMOUNT} that only rounding accepts: {kinds:?}, {least} least sums, {most} most");
    println!(
        "{} divisors, {negative} negative constants, {positive} positive",
        divisors.len()
    );
    assert!(Kind::ALL.iter().all(|kind| kinds[kind] >= 300));
    assert!([2, 7, 999, 1_000]
        .iter()
        .all(|divisor| divisors[divisor] >= 300));
    assert!(divisors.len() >= 500);
    assert!([least, most, negative, positive]
        .iter()
        .all(|count| *count >= 1_000));
}

/// With divisor 1 nothing is rounded, and no other divisor changes what was accepted before.
#[test]
fn nothing_to_round() {
    let random = &mut Random::new(72);
    for _ in 0..AMOUNT {
        let exact = rounding::exact(random);
        assert!(needing_rounding(&exact.program, &exact.certificate).is_empty());
        assert_answer(exact.accepted(Sharing::Apart));
        assert_answer(exact.tighter(Sharing::Apart));
        rounding::starts(random).into_iter().for_each(assert_answer);
    }
}

#[test]
fn contradictions_are_not_rounded() {
    let random = &mut Random::new(73);
    for _ in 0..AMOUNT {
        let pairs = rounding::contradictions(random, Sharing::Apart);
        pairs.into_iter().for_each(assert_answer);
    }
}

#[test]
fn largest_constants() {
    let random = &mut Random::new(74);
    for _ in 0..1_000 {
        extremes::rounded(random)
            .into_iter()
            .for_each(assert_answer);
    }
}
