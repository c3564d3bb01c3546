//! A choice made definite (document 02, CR 13): what was accepted is accepted with the same count, by
//! both checkers; each condition of the request is needed; and conditions as text.

mod common;

use common::{answer, assert_answer};
use compare::build::Sharing;
use compare::checker::{witness_layout, Answer};
use compare::compare::{outcome, Refused};
use compare::definite::condition::parse;
use compare::definite::{
    definite, lists, with_condition, with_zeros, Condition, Definite, Expression, Fault, Operator,
    OPERATORS,
};
use compare::explain::{explain, Plan};
use compare::files::{in_repository, read_words, Folder, PROGRAM, WITNESS};
use compare::generate::certificates::sharing;
use compare::generate::definite::{choice, condition, in_form, largest, Choice, Wrong};
use compare::generate::program_words::ProgramWords;
use compare::generate::sparse::Form;
use compare::generate::{traces, Pair};
use compare::plans::words;
use compare::proved::Proved;
use compare::random::Random;
use std::collections::BTreeMap;
use std::process::Command;
use std::{fmt, fs};

fn safe(choice: &Choice) -> Answer {
    Answer::Safe(choice.certificate.witnesses.len() as u64)
}

fn make(pair: &Pair, choice: &Choice, condition: &Condition) -> Result<Definite, Fault> {
    definite(&pair.program, &pair.witness, choice.vertex, condition)
}

/// The words with the condition put in, and multipliers 0 at these places of the certificate.
fn put_in(pair: &Pair, choice: &Choice, condition: &Condition, places: &[usize]) -> Pair {
    Pair {
        program: with_condition(&pair.program, choice.vertex, condition),
        witness: with_zeros(&pair.witness, places),
    }
}

/// The right places for multipliers.
fn guards(pair: &Pair, choice: &Choice) -> Vec<usize> {
    let lists = lists(&pair.program, &pair.witness, choice.vertex).expect("accepted");
    lists.iter().map(|list| list.guard).collect()
}

/// What was made definite.
#[derive(Debug, Default)]
struct Made {
    by_form: [u64; 2],
    by_operator: [u64; 4],
    /// By the most splits above a leaf of the branch's entailments.
    by_depth: [u64; 9],
    by_disjuncts: [u64; 9],
    /// Where nothing is put in, and where it is a multiplier, or more of them.
    by_zeros: [u64; 3],
    /// Constants 4,000,000,000, its opposite and 0; coefficients 1,000, its opposite and 0.
    constants: [u64; 3],
    coefficients: [u64; 3],
    in_callees: u64,
    most_words: usize,
}

impl Made {
    fn add(&mut self, choice: &Choice, form: Form, condition: &Condition, made: &Definite) {
        let Condition {
            operator,
            expression,
        } = condition;
        let at = OPERATORS.iter().position(|known| known == operator);
        let depths = choice.witnesses().iter().map(|witness| witness.depth());
        let depth = depths.max().unwrap_or(0);
        self.by_form[form as usize] += 1;
        self.by_operator[at.expect("one of the four")] += 1;
        self.by_depth[depth] += 1;
        self.by_disjuncts[choice.disjuncts().len()] += 1;
        self.by_zeros[made.zeros.min(2)] += 1;
        for (count, limit) in self
            .constants
            .iter_mut()
            .zip([4_000_000_000, -4_000_000_000, 0])
        {
            *count += u64::from(expression.constant == limit);
        }
        for (count, limit) in self.coefficients.iter_mut().zip([1_000, -1_000, 0]) {
            *count += u64::from(expression.coefficients.contains(&limit));
        }
        self.in_callees += u64::from(choice.vertex > choice.program.procedures[0].statements.len());
        self.most_words = self.most_words.max(made.pair.witness.len());
    }

    fn total(&self) -> u64 {
        self.by_form.iter().sum()
    }

    fn assert_enough(&self) {
        let all = |counts: &[u64], least: u64| counts.iter().all(|count| *count >= least);
        assert_eq!(self.total(), 36_000);
        assert!(all(&self.by_form, 18_000) && all(&self.by_operator, 9_000));
        assert!(self.by_depth[0] >= 10_000);
        assert!(self.by_depth[1..].iter().sum::<u64>() >= 10_000);
        assert!(all(&self.by_depth, 1_000) && all(&self.by_disjuncts, 1_000));
        assert!(self.by_zeros[0] >= 5_000 && self.by_zeros[1] >= 500);
        assert!(self.by_zeros[2] >= 20_000);
        assert!(all(&self.constants, 4_000) && all(&self.coefficients, 8_000));
        assert!(self.in_callees >= 4_000 && self.most_words >= 10_000);
    }
}

/// Certificates of both forms, with and without trees, and all four operators.
#[test]
fn made_definite() {
    let random = &mut Random::new(1301);
    let mut counts = Made::default();
    for turn in 0..4_500 {
        let choice = choice(random);
        let entries = sharing(random);
        let is_scattered = turn % 4 == 0;
        let dense = match is_scattered {
            true => choice.scattered(random),
            false => choice.pair(Sharing::Apart, entries),
        };
        for form in Form::ALL {
            let pair = in_form(dense.clone(), form);
            assert_eq!(answer(&pair), safe(&choice));
            for operator in OPERATORS {
                let condition = condition(random, operator, choice.columns());
                let made = make(&pair, &choice, &condition).expect("its row is unshared");
                assert_eq!(answer(&made.pair), safe(&choice), "{pair:?} {condition:?}");
                assert_put_in(&pair, &made, &choice, &condition);
                if !is_scattered {
                    let (program, certificate) = choice.decided(&condition);
                    let decided = Pair {
                        program: program.words(Sharing::Apart),
                        witness: certificate.words(entries),
                    };
                    assert_same(&in_form(decided, form), &made.pair);
                }
                counts.add(&choice, form, &condition, &made);
            }
        }
    }
    println!("{} made definite: {counts:?}", counts.total());
    counts.assert_enough();
}

fn assert_same(wanted: &Pair, found: &Pair) {
    assert_eq!(wanted.program, found.program);
    assert_eq!(wanted.witness, found.witness);
}

/// That the words that were put in are those of the condition and as many multipliers 0 as there are
/// lists, and that all others but W are as they were.
fn assert_put_in(before: &Pair, made: &Definite, choice: &Choice, condition: &Condition) {
    assert_eq!(made.zeros, choice.lists());
    let mut program = made.pair.program.clone();
    let row = ProgramWords(&before.program).row(choice.vertex).len();
    let start = program.len() - row + 3;
    let words: Vec<i32> = condition.expression.words().collect();
    let end = start + 1 + words.len();
    assert_eq!(program[start], condition.operator as i32);
    assert_eq!(program[start + 1..end], words);
    program[start..end].fill(0);
    assert_eq!(program, before.program);

    let mut left = before.witness.clone();
    left[2] += made.zeros as i32;
    let mut rest = &left[..];
    for word in &made.pair.witness {
        if rest.first() == Some(word) {
            rest = &rest[1..];
        } else {
            assert_eq!(*word, 0, "{before:?}");
        }
    }
    assert!(rest.is_empty());
    assert_eq!(made.pair.witness.len(), before.witness.len() + made.zeros);
}

/// x = 0, a branch that leads to 3 on both sides, assert x - 1 < 0. Then the words of a certificate up
/// to the witnesses of vertex 2, and those behind them. Vertices 2 and 3 have the disjunct x ≤ 0 and
/// -x ≤ 0.
const BY_HAND: [&str; 3] = [
    "3 1 1 22 | 2 3 4 6 | 0 6 13 19 | 0 2 0 0 0 0 , 0 3 3 0 0 0 0 , 0 4 1 -1 999999 1 , 1 0 0",
    "| 1 1 1 1 1 | 0 1 1 0 0 | 0 , 2 0 0 0 1 0 0 0 -1 | 1 , 1 1 1 ,",
    "1 , 0 1 0 1 , 1",
];

/// The witnesses of vertex 2 with `?`: the two leaves of the true side, which splits at x ≤ 0, and the
/// false side. Then those with a condition.
const UNDECIDED: [&str; 3] = ["1 , 1 0 0 1 , 1 0 1 0", "0 1 0 1", "1 , 1 1 0 , 1 0 1"];
const DECIDED: [&str; 3] = [
    "1 , 1 0 0 0 1 , 1 0 1 0 0",
    "0 1 0 0 1",
    "1 , 1 1 0 0 , 1 0 1 0",
];

/// `3x - 5 operator 0`, or `?`.
fn by_hand(operator: Operator) -> Condition {
    let expression = match operator {
        Operator::Any => Expression::constant(1, 0),
        _ => Expression::sum(1, -5, &[(0, 3)]),
    };
    Condition {
        operator,
        expression,
    }
}

fn pair_by_hand(operator: Operator, [first, second, other]: [&str; 3]) -> Pair {
    let [program, front, end] = BY_HAND.map(words);
    let own = words(&format!("-1 0 0 0 1 {first} {second} {other}"));
    let count = 4 + own.len() + end.len();
    Pair {
        program: with_condition(&program, 2, &by_hand(operator)),
        witness: [vec![1, 10, count as i32], front, own, end].concat(),
    }
}

/// The answers that the documents give, worked out by hand.
#[test]
fn worked_by_hand() {
    let ([first, second, other], less) = (UNDECIDED, Operator::Less);
    let [first_0, second_0, other_0] = DECIDED;
    let behind = ["1 , 1 0 0 1 0 , 1 0 1 0 0", "0 1 0 1 0", other_0];
    let firsts = ["1 , 1 0 0 0 1 , 1 0 1 0", second_0, "1 , 1 1 0 0 , 1 0 1"];
    for (case, operator, witnesses, answer) in [
        ("as it was", Operator::Any, UNDECIDED, "safe 7"),
        ("as it should be", less, DECIDED, "safe 7"),
        ("behind the split rows", less, behind, "refused 7 27 0"),
        (
            "not in the first leaf",
            less,
            [first, second_0, other_0],
            "refused 6 27 0",
        ),
        (
            "not in the second leaf",
            less,
            [first_0, second, other_0],
            "refused 7 27 0",
        ),
        ("in first lists alone", less, firsts, "refused 6 27 0"),
        (
            "on the true side alone",
            less,
            [first_0, second_0, other],
            "refused 6 48 0",
        ),
        ("with =", Operator::Equal, DECIDED, "refused 6 27 0"),
        ("with ≠", Operator::NotEqual, DECIDED, "refused 6 57 0"),
    ] {
        let Pair { program, witness } = pair_by_hand(operator, witnesses);
        assert_answer(case, &program, &witness, answer);
    }
    let before = pair_by_hand(Operator::Any, UNDECIDED);
    let made = definite(&before.program, &before.witness, 2, &by_hand(less)).unwrap();
    assert_same(&pair_by_hand(less, DECIDED), &made.pair);
    let Pair {
        program,
        mut witness,
    } = made.pair;
    witness[2] = before.witness[2];
    assert_answer("W as it was", &program, &witness, "refused 4 0 0");
}

/// Vertices 2 and 3 are branches with one row for both, and so with one condition.
#[test]
fn a_shared_row_by_hand() {
    let program = "3 1 1 16 | 2 3 3 6 | 0 6 6 13 | 0 2 0 0 0 0 , 0 3 3 0 0 0 0 , 1 0 0";
    let front = "1 10 32 | 1 1 1 0 0 | 0 1 1 0 0 | 0 , 2 0 0 0 1 0 0 0 -1 | 1 , 1 1 1 ,";
    let (program, front, side) = (words(program), words(front), words(UNDECIDED[2]));
    let certificate = [front, side.repeat(4)].concat();
    assert_answer("as it was", &program, &certificate, "safe 6");
    let condition = by_hand(Operator::Less);
    let fault = definite(&program, &certificate, 2, &condition).unwrap_err();
    assert_eq!(fault, Fault::SharedRow(2, 3));
    let lists = lists(&program, &certificate, 2).unwrap();
    let places: Vec<usize> = lists.iter().map(|list| list.guard).collect();
    assert_eq!(places, [31, 34, 38, 41]);
    let program = with_condition(&program, 2, &condition);
    let certificate = with_zeros(&certificate, &places);
    assert_answer(
        "one condition for both",
        &program,
        &certificate,
        "refused 6 45 0",
    );
}

/// A `?` branch with its condition and its words, in either form.
fn any(random: &mut Random, operators: &[Operator]) -> (Choice, Pair, Condition) {
    let choice = choice(random);
    let form = *random.pick(&Form::ALL);
    let dense = choice.pair(Sharing::Apart, sharing(random));
    let operator = *random.pick(operators);
    let condition = condition(random, operator, choice.columns());
    (choice, in_form(dense, form), condition)
}

/// How often something was answered safe, and refused.
#[derive(Debug, Default)]
struct Answers {
    safe: u64,
    refused: Refused,
}

impl fmt::Display for Answers {
    fn fmt(&self, out: &mut fmt::Formatter) -> fmt::Result {
        write!(out, "safe {}, refused {}", self.safe, self.refused)
    }
}

impl Answers {
    fn add(&mut self, answer: Answer) {
        match answer {
            Answer::Refused { number, .. } => self.refused.add(number, 1),
            _ => self.safe += 1,
        }
    }
}

/// Multipliers behind those of the split rows are those of other rows: the sums don't fit, 7, where
/// that makes a difference. With one left out the words behind it are those of other lists: 6, 7 or
/// 8, at the entailment or behind it.
#[test]
fn put_in_wrongly() {
    let random = &mut Random::new(1302);
    let mut counts: BTreeMap<Wrong, Answers> = BTreeMap::new();
    for _ in 0..3_000 {
        let (choice, pair, condition) = any(random, &OPERATORS);
        let lists = lists(&pair.program, &pair.witness, choice.vertex).expect("accepted");
        let layout = witness_layout(&pair.program, &pair.witness).expect("accepted");
        for wrong in Wrong::ALL {
            let Some((places, first)) = wrong.places(&pair.witness, &lists) else {
                continue;
            };
            let start = layout[first].words().start;
            let start = start + places.iter().filter(|place| **place <= start).count();
            let found = answer(&put_in(&pair, &choice, &condition, &places));
            match found {
                Answer::Safe(_) => assert_eq!(found, safe(&choice)),
                Answer::Refused { number, place, .. } => {
                    assert!(place >= start as u64, "{wrong:?}: {found}");
                    let is_aligned = wrong == Wrong::BehindSplits;
                    assert!(number == 7 || !is_aligned && [6, 8].contains(&number));
                }
                Answer::Trace(_) => panic!("{found}"),
            }
            counts.entry(wrong).or_default().add(found);
        }
    }
    assert_eq!(counts.len(), Wrong::ALL.len());
    for (wrong, answers) in &counts {
        println!("put in wrongly, {wrong:?}: {answers}");
        let refused: u64 = (6..=8).map(|number| answers.refused.times(number)).sum();
        assert!(refused >= 500, "{wrong:?}");
        // A multiplier in another place may change nothing; a word too few hardly ever does.
        assert!(
            *wrong == Wrong::BehindSplits || answers.safe == 0,
            "{wrong:?}"
        );
        assert!(answers.safe < refused);
    }
}

/// W as it was: the total is wrong, 4 at 0.
#[test]
fn witness_words_not_counted() {
    let random = &mut Random::new(1303);
    let mut refused = 0;
    for _ in 0..1_500 {
        let (choice, pair, condition) = any(random, &OPERATORS);
        let mut made = make(&pair, &choice, &condition).expect("its row is unshared");
        made.pair.witness[2] = pair.witness[2];
        if made.zeros > 0 {
            assert_eq!(answer(&made.pair), Answer::refused(4, 0));
            refused += 1;
        }
    }
    println!("W as it was: {refused} refused");
    assert!(refused >= 500);
}

/// With = and ≠ each disjunct has three cases for two, one of them with two guard rows. So the count is
/// another, and with one multiplier a list the certificate isn't accepted.
#[test]
fn other_operators() {
    let random = &mut Random::new(1304);
    let others = [Operator::Equal, Operator::NotEqual];
    let mut by_operator = [0; 2];
    let mut counts = Answers::default();
    for _ in 0..3_000 {
        let (choice, pair, condition) = any(random, &others);
        let fault = make(&pair, &choice, &condition).expect_err("another operator");
        assert_eq!(fault, Fault::Operator(condition.operator));
        let disjuncts = choice.disjuncts().len() as u64;
        let found = answer(&put_in(&pair, &choice, &condition, &guards(&pair, &choice)));
        if disjuncts == 0 {
            assert_eq!(found, safe(&choice));
            continue;
        }
        assert_ne!(found, safe(&choice));
        counts.add(found);
        let (program, certificate) = choice.decided(&condition);
        let decided = Pair {
            program: program.words(Sharing::Apart),
            witness: certificate.words(Sharing::Shared),
        };
        let count = choice.certificate.witnesses.len() as u64 + disjuncts;
        assert_eq!(answer(&decided), Answer::Safe(count));
        let at = others.iter().position(|other| *other == condition.operator);
        by_operator[at.expect("one of the two")] += 1;
    }
    println!("with = and ≠ {by_operator:?}: {counts}");
    assert!(by_operator.iter().all(|count| *count >= 500));
    assert!(counts.safe == 0 && counts.refused.all([6, 7], 100));
}

/// Where the branch's row shares words, the condition may change another statement or an exit.
#[test]
fn shared_rows() {
    let random = &mut Random::new(1305);
    let [mut shared, mut unshared] = [0; 2];
    let mut counts = Answers::default();
    for _ in 0..8_000 {
        let choice = choice(random);
        let pair = choice.pair(Sharing::Shared, Sharing::Shared);
        let operator = *random.pick(&OPERATORS);
        let condition = condition(random, operator, choice.columns());
        match make(&pair, &choice, &condition) {
            Ok(made) => {
                assert_eq!(answer(&made.pair), safe(&choice));
                unshared += 1;
            }
            Err(Fault::SharedRow(vertex, other)) => {
                assert!(vertex == choice.vertex && vertex != other);
                let places = guards(&pair, &choice);
                counts.add(answer(&put_in(&pair, &choice, &condition, &places)));
                shared += 1;
            }
            Err(fault) => panic!("{fault}"),
        }
    }
    println!("{shared} rows that share words: {counts}; {unshared} that don't");
    assert!(shared >= 500 && unshared >= 500);
    assert!(shared - counts.safe >= 100);
}

/// A condition beyond the limits isn't put in; where it is all the same, the statement is refused.
#[test]
fn beyond_limits() {
    let random = &mut Random::new(1306);
    let mut refused = 0;
    for _ in 0..2_000 {
        let (choice, pair, mut condition) = any(random, &OPERATORS);
        let expression = &mut condition.expression;
        let beyond = *random.pick(&[1, -1]);
        match random.below(2) {
            0 => expression.constant = beyond * 4_000_000_001,
            _ if expression.coefficients.is_empty() => continue,
            _ => {
                let column = random.below(expression.coefficients.len());
                expression.coefficients[column] = beyond as i32 * 1_001;
            }
        }
        let fault = make(&pair, &choice, &condition).expect_err("beyond the limits");
        assert_eq!(fault, Fault::BeyondLimits);
        let place = ProgramWords::kind(choice.vertex) as u64;
        let found = answer(&put_in(&pair, &choice, &condition, &guards(&pair, &choice)));
        let line = choice.program.line(choice.vertex) as u64;
        let wanted = Answer::Refused {
            number: 3,
            place,
            line,
        };
        assert_eq!(found, wanted);
        refused += 1;
    }
    println!("beyond the limits: {refused} refused");
    assert!(refused >= 1_000);
}

fn is_choice(pair: &Pair, vertex: usize) -> bool {
    let given = ProgramWords(&pair.program);
    let is_statement = (1..=given.statements()).contains(&vertex);
    is_statement && pair.program[ProgramWords::kind(vertex)] == 3 && given.row(vertex)[3] == 0
}

/// Vertices that are no `?` branch, certificates that aren't accepted, traces, and conditions over
/// other columns.
#[test]
fn nothing_to_make_definite() {
    let random = &mut Random::new(1307);
    let [mut vertices, mut not_accepted] = [0; 2];
    for _ in 0..500 {
        let (choice, pair, condition) = any(random, &OPERATORS);
        let made = |pair: &Pair, vertex: usize| {
            let made = definite(&pair.program, &pair.witness, vertex, &condition);
            made.map(|made| made.zeros)
        };
        let beyond = choice.program.vertices().count() + 1;
        for vertex in (0..=beyond).filter(|vertex| *vertex != choice.vertex) {
            if is_choice(&pair, vertex) {
                continue;
            }
            assert_eq!(made(&pair, vertex), Err(Fault::NoChoice(vertex)));
            vertices += 1;
        }
        let mut weaker = pair.clone();
        weaker.witness.pop();
        weaker.witness[2] -= 1;
        let found = answer(&weaker);
        assert_eq!(made(&weaker, choice.vertex), Err(Fault::NotAccepted(found)));
        not_accepted += 1;
        let trace = traces::trace(random).pair;
        let is_refused = |fault| matches!(fault, Err(Fault::NotAccepted(Answer::Refused { .. })));
        assert!(is_refused(made(&trace, 1)));
        let mut other = condition.clone();
        other.expression.coefficients.push(0);
        let columns = choice.columns();
        let fault = make(&pair, &choice, &other).map(|made| made.zeros);
        assert_eq!(fault, Err(Fault::Coefficients(columns + 1, columns)));
    }
    println!("{vertices} vertices that are no choice, {not_accepted} certificates not accepted");
    assert!(vertices >= 1_000 && not_accepted >= 500);
}

/// A certificate of 1,000,000 words after it is accepted; one of a word more isn't made, and where it
/// is all the same, its total is refused.
#[test]
fn most_words() {
    let random = &mut Random::new(1308);
    for form in Form::ALL {
        let zeros = 8 * 32;
        for length in [1_000_000, 1_000_001] {
            let (choice, pair) = largest(form, length - zeros);
            assert_eq!(pair.witness.len(), length - zeros);
            assert_eq!(answer(&pair), safe(&choice));
            let condition = condition(random, Operator::Less, choice.columns());
            let made = make(&pair, &choice, &condition);
            if length > 1_000_000 {
                assert_eq!(made.unwrap_err(), Fault::TooLong(length));
                let longer = put_in(&pair, &choice, &condition, &guards(&pair, &choice));
                assert_eq!(answer(&longer), Answer::refused(4, 0));
                continue;
            }
            let made = made.expect("just short enough");
            assert_eq!((made.zeros, made.pair.witness.len()), (zeros, length));
            assert_eq!(answer(&made.pair), safe(&choice));
        }
    }
}

/// The condition of a branch as the explanation of a plan prints it.
fn printed(pair: &Pair, vertex: usize) -> String {
    let plan = Plan::new(pair.program.clone(), pair.witness.clone());
    let proved = outcome(&Proved, &plan.input());
    let text = explain(&plan, &proved);
    let mut lines = text.lines();
    let front = format!("{vertex:>6}  if ");
    let line = lines.find_map(|line| line.strip_prefix(&front));
    let (condition, _) = line
        .and_then(|line| line.split_once(" then "))
        .expect("a branch");
    condition.to_string()
}

#[test]
fn conditions_are_read_as_they_are_printed() {
    let random = &mut Random::new(1309);
    for _ in 0..2_000 {
        let (choice, pair, condition) = any(random, &Operator::ALL[1..]);
        assert_eq!(printed(&pair, choice.vertex), "?");
        let decided = put_in(&pair, &choice, &condition, &[]);
        let text = printed(&decided, choice.vertex);
        let read = parse(&text, choice.program.globals, choice.columns());
        assert_eq!(read, Ok(condition), "{text}");
    }
}

/// Over the columns g0, l0 and l1.
fn assert_read(text: &str, operator: Operator, constant: i64, coefficients: [i32; 3]) {
    let expression = Expression {
        constant,
        coefficients: coefficients.to_vec(),
    };
    let condition = Condition {
        operator,
        expression,
    };
    assert_eq!(parse(text, 1, 3), Ok(condition), "{text}");
}

#[test]
fn conditions() {
    assert_read("l0 - 5 < 0", Operator::Less, -5, [0, 1, 0]);
    assert_read("l0-5<0", Operator::Less, -5, [0, 1, 0]);
    assert_read(" \t- 2 * g0 + 7\t>  0 ", Operator::Greater, 7, [-2, 0, 0]);
    assert_read("l1 <= 0", Operator::AtMost, 0, [0, 0, 1]);
    assert_read("l1 ≤ 0", Operator::AtMost, 0, [0, 0, 1]);
    assert_read("l1 >= 0", Operator::AtLeast, 0, [0, 0, 1]);
    assert_read("l1≥0", Operator::AtLeast, 0, [0, 0, 1]);
    assert_read("l1 = 0", Operator::Equal, 0, [0, 0, 1]);
    assert_read("l1 ≠ 0", Operator::NotEqual, 0, [0, 0, 1]);
    assert_read("l1 != 0", Operator::NotEqual, 0, [0, 0, 1]);
    assert_read("0 < 0", Operator::Less, 0, [0, 0, 0]);
    assert_read("-0 < 0", Operator::Less, 0, [0, 0, 0]);
    assert_read("3 + g0 - 5 + 2*g0 < 0", Operator::Less, -2, [3, 0, 0]);
    assert_read(
        "1000*l0 - 1000*l1 < 0",
        Operator::Less,
        0,
        [0, 1_000, -1_000],
    );
    let most = 4_000_000_000;
    assert_read("4000000000 < 0", Operator::Less, most, [0, 0, 0]);
    assert_read("-4000000000 < 0", Operator::Less, -most, [0, 0, 0]);
    assert_read("2000*g0 - 1000*g0 < 0", Operator::Less, 0, [1_000, 0, 0]);
}

#[test]
fn texts_that_are_no_conditions() {
    let beyond = "the condition is beyond the limits";
    let missing = "a number or a name is missing";
    let operator = "an operator, <, >, <= or >=, is missing";
    let zero = "the condition must end with 0";
    let unknown = "is no number and none of g0, l0 and l1";
    for (text, said) in [
        ("", "missing at the end of the condition"),
        ("  ", "missing at the end of the condition"),
        ("< 0", "a number or a name is missing before '< 0'"),
        ("?", missing),
        ("+ g0 < 0", missing),
        ("g0 - - 5 < 0", missing),
        ("g0 + < 0", missing),
        ("2* < 0", missing),
        ("g0 − 5 < 0", operator),
        ("g0", operator),
        ("g0 5 < 0", operator),
        ("g0*2 < 0", operator),
        ("g0 => 0", zero),
        ("g0 == 0", zero),
        ("g0 <", zero),
        ("g0 < 5", zero),
        ("g0 < 0 0", zero),
        ("g0 < 00", zero),
        ("g0 < 0;", zero),
        ("g0 < -0", zero),
        ("5 < g0", zero),
        ("x < 0", unknown),
        ("g1 < 0", unknown),
        ("l2 < 0", unknown),
        ("G0 < 0", unknown),
        ("2g0 < 0", unknown),
        ("2*3 < 0", unknown),
        ("g0@entry < 0", operator),
        ("1001*g0 < 0", beyond),
        ("-1001*g0 < 0", beyond),
        ("1000*g0 + g0 < 0", beyond),
        ("4000000001 < 0", beyond),
        ("-4000000001 < 0", beyond),
        ("9223372036854775807 + 1 < 0", beyond),
        ("99999999999999999999 < 0", beyond),
        ("99999999999999999999*g0 < 0", beyond),
    ] {
        let found = parse(text, 1, 3).expect_err(text);
        assert!(found.contains(said), "{text}: {found}");
    }
    let none = parse("g0 < 0", 0, 0).expect_err("no variables");
    assert_eq!(none, "g0 is no number, and there are no variables here");
}

/// The example of README.md and of the plan's own page.
#[test]
fn example_of_the_pages() {
    let folder = Folder::new().unwrap();
    let new = folder.file("definite");
    let mut command = Command::new(env!("CARGO_BIN_EXE_definite"));
    let command = command.current_dir(in_repository("")).args(EXAMPLE);
    let output = command.arg(&new).output().unwrap();
    assert!(output.status.success() && output.stderr.is_empty());
    let printed = String::from_utf8(output.stdout).unwrap();
    let told = printed.replace(new.to_str().unwrap(), "plans/undecided.definite");
    let [plan, vertex, condition] = EXAMPLE;
    let call = format!("./definite-plan {plan} {vertex} '{condition}'\n");
    for (path, wanted) in [
        ("README.md", format!("{call}{told}")),
        ("plans/undecided/README.md", format!("$ {call}{told}")),
    ] {
        let page = fs::read_to_string(in_repository(path)).unwrap();
        let lines = page.lines().filter_map(|line| line.strip_prefix("    "));
        let set_in: String = lines.map(|line| format!("{line}\n")).collect();
        assert!(set_in.contains(&wanted), "{path}: {wanted}");
    }
}

/// A folder, a vertex and a condition.
const EXAMPLE: [&str; 3] = ["plans/undecided", "2", "l0 - 5 < 0"];

/// The words that the plan's page shows, of both sides, before and after.
#[test]
fn words_of_the_example() {
    let folder = in_repository(EXAMPLE[0]);
    let [program, before] = [PROGRAM, WITNESS].map(|file| read_words(&folder.join(file)));
    let condition = parse(EXAMPLE[2], 2, 3).unwrap();
    let made = definite(&program, &before, 2, &condition).unwrap();
    let page = fs::read_to_string(folder.join("README.md")).unwrap();
    for (turn, side) in ["| true | ", "| false | "].into_iter().enumerate() {
        let row = page
            .lines()
            .find_map(|line| line.strip_prefix(side))
            .unwrap();
        let told = row.split('`').skip(1).step_by(2).map(words);
        let after = &made.pair;
        let wanted = [(&program, &before), (&after.program, &after.witness)];
        let wanted = wanted.map(|(program, certificate)| {
            let layout = witness_layout(program, certificate).unwrap();
            let mut own = layout.iter().filter(|witness| witness.source == 2);
            certificate[own.nth(turn).unwrap().words()].to_vec()
        });
        assert_eq!(told.collect::<Vec<_>>(), wanted);
    }
}
