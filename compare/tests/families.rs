//! The report's six families are accepted.

use compare::checker::{judge, Answer};
use compare::families::FAMILIES;

#[test]
fn accepted() {
    for family in FAMILIES {
        let chosen = [0, 1, 2, 3, 5, 6, 7, 8, 20, 27, 100, 500, 509, 1_000_000];
        let mut counts = Vec::new();
        for n in chosen.into_iter().filter(|n| *n <= family.largest) {
            let (program, certificate) = (family.make)(n);
            match judge(&program, &certificate) {
                Answer::Safe(count) => counts.push((n, count)),
                answer => panic!("{} ({n}): {answer}", family.name),
            }
        }
        println!("{}: (N, entailments) {counts:?}", family.name);
    }
}
