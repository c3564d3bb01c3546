//! Both trimmers on the same certificates, and the proved check alone, which says what trimming costs
//! above judging.

use super::head;
use super::shapes::{self, Shape};
use super::timing::{best, Call, TURNS};
use crate::build::Sharing;
use crate::checker::certificate::LARGEST;
use crate::checker::row::Form;
use crate::checker::{judge, Answer};
use crate::convert::Writing;
use crate::generate::large::Multipliers;
use crate::generate::program_words::ProgramWords;
use crate::generate::sparse::Parts;
use crate::generate::trimming::{late_returns, with_copies, Made, Ring};
use crate::generate::Pair;
use crate::proved;
use crate::trim::{trim, Trimmer};
use std::hint::black_box;

/// A certificate, its name and its form.
struct Case {
    name: String,
    form: Form,
    pair: Pair,
}

/// What there is before, what is left, and nanoseconds for each word of the certificate before. What
/// would be left with too many words isn't listed.
pub fn trimmers() {
    let columns = [
        "certificate",
        "form",
        "disjuncts",
        "left",
        "entailments",
        "left",
        "words",
        "left",
        "proved, ns/word",
        "second, ns/word",
        "proved check, ns/word",
        "proved/second",
    ];
    head(2, &columns);
    let cases = chains().chain(returns()).chain(as_made()).chain(families());
    cases.for_each(|case| row(&case));
}

/// How many disjuncts the chains have, and how many of them each vertex.
const CHAINS: [usize; 4] = [1_000, 2_000, 4_000, 8_000];
const OF_VERTEX: usize = 8;

/// Makes a chain on so many skips.
type Chain = fn(usize) -> Ring;

/// Chains of disjuncts, each named by the one before it alone.
fn chains() -> impl Iterator<Item = Case> {
    let sorts: [(&str, Chain); 3] = [
        ("a chain backwards, all used", |skips| {
            Ring::backwards(skips, OF_VERTEX)
        }),
        ("a chain backwards, the last eighth used", |skips| {
            let last = skips * (OF_VERTEX - 1);
            Ring {
                start: last,
                back: last,
                ..Ring::backwards(skips, OF_VERTEX)
            }
        }),
        ("a chain to and fro, all used", |skips| {
            Ring::alternating(skips, OF_VERTEX)
        }),
    ];
    sorts.into_iter().flat_map(|(name, make)| {
        let rings = CHAINS.into_iter().map(move |chain| make(chain / OF_VERTEX));
        rings.map(move |ring| Case::made(name, &ring.made()))
    })
}

/// As many disjuncts of calls.
fn returns() -> impl Iterator<Item = Case> {
    let made = CHAINS
        .into_iter()
        .map(|chain| late_returns(chain / OF_VERTEX));
    made.map(|made| Case::made("calls, summary disjuncts found late", &made))
}

/// The benchmark's certificates as they are.
fn as_made() -> impl Iterator<Item = Case> {
    shapes::all().map(|shape| {
        let multipliers = match shape.multipliers {
            Multipliers::Sparse => "",
            Multipliers::Dense => ", dense multipliers",
        };
        let name = format!("{}{multipliers}", shape.name);
        Case::dense(name, shape.pair)
    })
}

/// The families as they are, and with copies that nothing uses in both forms.
fn families() -> impl Iterator<Item = Case> {
    shapes::families().flat_map(|Shape { name, pair, .. }| {
        let copied = with_copies(&pair);
        let sparse = Parts::of(&copied).pair(&copied.program, Form::Sparse);
        let with_copies = format!("{name}, with copies");
        [
            Case::dense(name, pair),
            Case::dense(with_copies.clone(), copied),
            Case {
                name: with_copies,
                form: Form::Sparse,
                pair: sparse,
            },
        ]
    })
}

impl Case {
    fn dense(name: String, pair: Pair) -> Case {
        Case {
            name,
            form: Form::Dense,
            pair,
        }
    }

    /// With the words of each entry for itself.
    fn made(name: &str, made: &Made) -> Case {
        let pair = Pair {
            program: made.program.words(Sharing::Apart),
            witness: made.certificate.words(Sharing::Apart),
        };
        Case::dense(name.into(), pair)
    }
}

fn row(case: &Case) {
    let pair = &case.pair;
    let Some(left) = trimmed(trim, pair) else {
        return;
    };
    let same = trimmed(proved::trim, pair).as_ref() == Some(&left);
    assert!(same, "{}: the proved trimmer writes others", case.name);
    let left = Pair {
        program: pair.program.clone(),
        witness: left,
    };
    let sizes = [pair, &left].map(Sizes::of);
    let [before, after] = &sizes;
    let times = times(pair, &sizes);
    let [proved, second, check] = times.map(|time| 1e9 * time / before.words as f64);
    println!(
        "| {} | {} | {} | {} | {} | {} | {} | {} | {proved:.2} | {second:.2} | {check:.2} | {:.2} |",
        case.name,
        match case.form {
            Form::Dense => "dense",
            Form::Sparse => "sparse",
        },
        before.disjuncts,
        after.disjuncts,
        before.entailments,
        after.entailments,
        before.words,
        after.words,
        proved / second
    );
}

/// The words that are left of an accepted certificate, if they aren't too many.
fn trimmed(trimmer: Trimmer, pair: &Pair) -> Option<Vec<i32>> {
    let mut result = vec![0; LARGEST];
    let writing = trimmer(&pair.program, &pair.witness, &mut result);
    let Writing::Written(words) = writing else {
        assert_eq!(writing, Writing::refused(26, 0));
        return None;
    };
    result.truncate(words as usize);
    Some(result)
}

/// How much an accepted certificate has.
struct Sizes {
    disjuncts: i32,
    entailments: u64,
    words: usize,
}

impl Sizes {
    fn of(pair: &Pair) -> Sizes {
        let counts = &pair.witness[3..][..ProgramWords(&pair.program).entries()];
        let Answer::Safe(entailments) = judge(&pair.program, &pair.witness) else {
            panic!("not accepted: {pair:?}");
        };
        Sizes {
            disjuncts: counts.iter().sum(),
            entailments,
            words: pair.witness.len(),
        }
    }
}

/// More where a call is short.
fn turns(pair: &Pair) -> usize {
    match pair.witness.len() {
        ..20_000 => 4 * TURNS,
        _ => TURNS,
    }
}

/// The best times of the proved trimmer, of the second one and of the proved check.
fn times(pair: &Pair, [before, after]: &[Sizes; 2]) -> [f64; 3] {
    let Pair { program, witness } = pair;
    let (count, words) = (before.entailments, after.words);
    let trimming = |trimmer: Trimmer| -> Call<bool> {
        let mut result = vec![0; words];
        Box::new(move || {
            let result = black_box(&mut result[..]);
            let answer = trimmer(black_box(program), black_box(witness), result);
            answer == Writing::Written(words as u64)
        })
    };
    let check: Call<bool> = Box::new(|| {
        let answer = proved::check(black_box(program), black_box(witness), black_box(&mut []));
        answer == Answer::Safe(count)
    });
    let calls = vec![trimming(proved::trim), trimming(trim), check];
    let times = best(turns(pair), true, calls);
    [times[0], times[1], times[2]]
}
