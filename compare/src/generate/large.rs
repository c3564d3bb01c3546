//! Inputs of the largest sizes that document 01 allows, and one beyond.

use super::constants::LARGEST;
use super::program_words::ProgramWords;
use super::splits::{self, Leaves, Shape};
use super::trace_words::TraceWords;
use super::traces::{self, Countdown, Trace};
use super::{extremes, Input, Pair};
use crate::build::{
    systems, Attempt, Certificate, Combination, Disjunct, Edges, Expression, Next, Operator,
    Procedure, Program, Row, Sharing, Statement, Witness,
};
use crate::checker::witness::SPLITS;
use crate::checker::Answer;
use crate::random::Random;

const STATEMENTS: usize = 1_024;
const PROCEDURES: usize = 32;
const BODY: usize = STATEMENTS / PROCEDURES;
const GLOBALS: usize = 8;
const LOCALS: usize = 8;
const COLUMNS: usize = GLOBALS + LOCALS;
const POOL: usize = 12_000;
const CERTIFICATE: usize = 1_000_000;
const ENTRY_VALUES: usize = 32_768;

/// An input with the answer that its size gives it.
pub struct Large {
    pub name: &'static str,
    pub input: Input,
    pub answer: Answer,
}

/// Which multipliers the witnesses have: those that the search finds, mostly 0, or most above 0.
#[derive(Clone, Copy, Debug, PartialEq, Eq)]
pub enum Multipliers {
    Sparse,
    Dense,
}

/// All of them, certificates first, but those with trees last.
pub fn inputs(seed: u64) -> Vec<Large> {
    let random = &mut Random::new(seed);
    let mut inputs = certificates(random);
    inputs.extend(traces(random));
    inputs.extend(traces_with_entry_values(random));
    inputs.extend(trees(random));
    inputs
}

/// Certificates of the largest sizes.
fn certificates(random: &mut Random) -> Vec<Large> {
    let (full, count) = full(random);
    let mut longer = full.clone();
    longer.witness[2] += 1;
    longer.witness.push(0);
    let mut left = full.clone();
    let rows = left.witness[1] as usize;
    let end = 3 + 2 * (STATEMENTS + 2 * PROCEDURES) + rows;
    left.witness.remove(end - 1);
    left.witness[1] -= 1;
    left.witness[2] += 1;
    left.witness.push(0);
    let last = (CERTIFICATE - 1) as u64;
    let (disjuncts, disjunct_count) = circle(
        random,
        &Circle {
            globals: GLOBALS,
            locals: LOCALS,
            skips: 100,
            disjuncts: 8,
            rows: 32,
            sharing: Sharing::Shared,
            multipliers: Multipliers::Dense,
        },
    );
    let (calls, call_count) = all_calls(PROCEDURES, 32);
    let beyond = Answer::refused(1, 0);
    let exit = (STATEMENTS + 4) as u64;
    vec![
        large(
            random,
            "all limits",
            sized(1_024, 32, 8, 8, 12_000),
            Answer::Safe(2),
        ),
        large(
            random,
            "1,025 statements",
            sized(1_025, 32, 8, 8, 12_000),
            beyond,
        ),
        large(
            random,
            "33 procedures",
            sized(1_024, 33, 8, 8, 12_000),
            beyond,
        ),
        large(random, "9 globals", sized(1_024, 32, 9, 8, 12_000), beyond),
        large(
            random,
            "9 locals",
            sized(1_024, 32, 8, 9, 12_000),
            Answer::refused(2, exit),
        ),
        large(
            random,
            "12,001 pool words",
            sized(1_024, 32, 8, 8, 12_001),
            beyond,
        ),
        large(random, "1,000,000 words", full, Answer::Safe(count)),
        large(random, "1,000,001 words", longer, Answer::refused(4, 0)),
        large(random, "the last word left", left, Answer::refused(8, last)),
        large(
            random,
            "8 disjuncts of 32 rows",
            disjuncts,
            Answer::Safe(disjunct_count),
        ),
        large(
            random,
            "the most entailments",
            calls,
            Answer::Safe(call_count),
        ),
    ]
}

/// Full trees of 255 splits and 256 leaves, the last leaf of the last one changed or not.
fn trees(random: &mut Random) -> [Large; 3] {
    let (program, certificate) = full_trees(random, &TREES);
    let count = certificate.witnesses.len();
    let pair = |change: fn(&Witness) -> Witness| {
        let mut certificate = certificate.clone();
        let last = &mut certificate.witnesses[count - 1];
        if let Some(leaf) = last.leaves_mut().pop() {
            *leaf = change(leaf);
        }
        let length = certificate.witnesses[count - 1].length();
        let pair = Pair {
            program: program.words(Sharing::Shared),
            witness: certificate.words(Sharing::Shared),
        };
        let place = (pair.witness.len() - length) as u64;
        (pair, place)
    };
    let (full, _) = pair(Witness::clone);
    let (ninth, in_ninth) = pair(|leaf| {
        let row = Row::constant(2 * COLUMNS, 0);
        Witness::split(row, [leaf.deeper(1), leaf.deeper(1)])
    });
    let (misfit, in_misfit) = pair(|leaf| {
        let mut leaf = leaf.clone();
        leaf.multipliers_mut()
            .iter_mut()
            .for_each(|numbers| numbers.fill(0));
        leaf
    });
    [
        large(random, "256 leaves", full, Answer::Safe(count as u64)),
        large(random, "a ninth split", ninth, Answer::refused(6, in_ninth)),
        large(
            random,
            "256 leaves, the last wrong",
            misfit,
            Answer::refused(7, in_misfit),
        ),
    ]
}

const TREES: Circle = Circle {
    globals: GLOBALS,
    locals: LOCALS,
    skips: 2,
    disjuncts: 1,
    rows: 32,
    sharing: Sharing::Shared,
    multipliers: Multipliers::Dense,
};

/// 64 open calls of 16 columns in 4,096 steps, with so many parameters beside the first.
fn deep(random: &mut Random, more: usize, main_others: usize) -> Trace {
    let countdown = Countdown {
        globals: GLOBALS,
        more,
        main_others,
        others: LOCALS - 1 - more,
        depth: 62,
        main_skips: 1,
        skips: 63,
        asserted: true,
    };
    traces::counting_down(random, &countdown)
}

/// Traces of the largest sizes, without entry values.
pub fn traces(random: &mut Random) -> Vec<Large> {
    let trace = traces::looping(random, traces::STEPS);
    let longer = traces::looping(random, traces::STEPS + 1);
    let deep = deep(random, LOCALS - 1, 0);
    let refused = Answer::refused(4, 0);
    vec![
        large(random, "4,096 steps", trace.pair, trace.answer),
        large(random, "4,097 steps", longer.pair, refused),
        large(random, "64 open calls", deep.pair, deep.answer),
    ]
}

/// Traces with many entry values. In 4,096 steps 64 rounds of 31 calls begin and end, each of which
/// takes 8; no trace can take as many as it may have.
pub fn traces_with_entry_values(random: &mut Random) -> Vec<Large> {
    let taking = traces::rounds(random, 64, &[LOCALS; PROCEDURES]);
    let deep = deep(random, 0, LOCALS);
    let short = traces::rounds(random, 1, &[LOCALS, 0]);
    let mut inputs = vec![
        large(
            random,
            "15,872 entry values taken",
            taking.pair.clone(),
            taking.answer,
        ),
        large(
            random,
            "64 open calls with 441 entry values",
            deep.pair.clone(),
            deep.answer,
        ),
    ];
    for trace in [&taking, &deep, &short] {
        inputs.extend(with_many(random, trace));
    }
    let mut words = TraceWords::of(&taking.pair);
    words.entry_values.pop();
    let (at, _) = taking.takes[taking.takes.len() - 1];
    inputs.push(changed(
        random,
        "the last entry value missing",
        &taking,
        words.words(),
        (14, words.vertex_place(at)),
    ));
    inputs
}

/// An accepted trace with the most entry values there can be and one less, which are left, the last
/// of them beyond its limit, and one more.
fn with_many(random: &mut Random, trace: &Trace) -> [Large; 4] {
    let mut words = TraceWords::of(&trace.pair);
    let first = words.entry_place(words.entry_values.len());
    let mut filled = |count| {
        words.entry_values.resize(count, -1_000_000_000);
        words.words()
    };
    let [less, most, more] = [ENTRY_VALUES - 1, ENTRY_VALUES, ENTRY_VALUES + 1].map(&mut filled);
    let mut beyond = most.clone();
    let last = beyond.len() - 1;
    beyond[last] = 1_000_000_001;
    [
        changed(random, "32,767 entry values", trace, less, (14, first)),
        changed(random, "32,768 entry values", trace, most, (14, first)),
        changed(
            random,
            "the last beyond its limit",
            trace,
            beyond,
            (9, last),
        ),
        changed(random, "32,769 entry values", trace, more, (4, 0)),
    ]
}

/// The trace's program with other words, refused with this number at this place.
fn changed(
    random: &mut Random,
    name: &'static str,
    trace: &Trace,
    witness: Vec<i32>,
    (number, place): (u64, usize),
) -> Large {
    let pair = Pair {
        program: trace.pair.program.clone(),
        witness,
    };
    let place = place as u64;
    large(random, name, pair, Answer::refused(number, place))
}

fn large(random: &mut Random, name: &'static str, pair: Pair, answer: Answer) -> Large {
    let input = Input {
        program: pair.program,
        witness: pair.witness,
        buffer: super::buffer(random, 100),
    };
    Large {
        name,
        input,
        answer,
    }
}

/// Skips that are their own successors, with a certificate for the first. The sizes may be beyond
/// their limits, and the total is right.
pub fn sized(
    statements: usize,
    procedures: usize,
    globals: usize,
    variables: usize,
    pool: usize,
) -> Pair {
    let sizes = [statements, procedures, globals, pool];
    let kinds = [vec![1; statements], vec![6; procedures]].concat();
    let places = (0..statements).map(|statement| 2 * statement);
    let exit_places = (0..procedures).map(|procedure| 2 * statements + 3 * procedure);
    // The line, and the successor.
    let rows = (1..=statements).flat_map(|vertex| [1_000_000 - vertex, vertex]);
    let exit_rows = (1..=procedures).flat_map(|first| [first, variables, variables]);
    let mut words: Vec<usize> = sizes.into_iter().chain(kinds).collect();
    words.extend(places.chain(exit_places));
    words.extend(rows.chain(exit_rows));
    words.resize(4 + 2 * (statements + procedures) + pool, 0);

    let entries = statements + 2 * procedures;
    let mut witness = vec![0; 3 + 2 * entries];
    witness[..4].copy_from_slice(&[1, 1, 2, 1]);
    witness.extend([0, 1, 1]);
    Pair {
        program: words.into_iter().map(|word| word as i32).collect(),
        witness,
    }
}

/// 1,024 statements of all kinds in 32 procedures with all variables there can be, a pool of
/// 12,000 words and a certificate of exactly 1,000,000 words with most multipliers above 0.
pub fn full(random: &mut Random) -> (Pair, u64) {
    let (mut pair, count) = mixed(random, PROCEDURES, Multipliers::Dense);
    fill(&mut pair, CERTIFICATE);
    (pair, count)
}

/// Procedures of 32 statements of all kinds with all variables there can be.
///
/// All edges say that weighted differences between entry and now are 0, for the globals and for the
/// first four locals; statements assign to the other locals only.
pub fn mixed(random: &mut Random, procedures: usize, multipliers: Multipliers) -> (Pair, u64) {
    let program = Program::new(
        GLOBALS,
        (0..procedures)
            .map(|procedure| body(random, procedure, procedures))
            .collect(),
    )
    .lined(random);
    let weights: Vec<Weights> = (0..13)
        .map(|at| match at % 2 {
            0 => weights(random, 0..GLOBALS),
            _ => weights(random, GLOBALS..GLOBALS + 4),
        })
        .collect();
    let differences = |width: usize, now: usize, global: bool| -> Disjunct {
        weights
            .iter()
            .filter(|weights| !global || weights[0].0 < GLOBALS)
            .flat_map(|weights| equality(width, now, weights))
            .collect()
    };
    let path = program
        .vertices()
        .map(|(_, next)| {
            let mut rows = differences(2 * COLUMNS, COLUMNS, false);
            if let Next::Statement(index @ (2 | 4 | 6)) = next {
                let (column, value) = setting(index - 1);
                rows.push(Row::sum(2 * COLUMNS, -value, &[(COLUMNS + column, 1)]));
                rows.push(Row::sum(2 * COLUMNS, value, &[(COLUMNS + column, -1)]));
            }
            vec![rows]
        })
        .collect();
    let summary = differences(2 * GLOBALS + LOCALS, GLOBALS + LOCALS, true);
    let edges = Edges {
        path,
        summaries: vec![vec![summary]; procedures],
    };
    let witnesses = witnesses(random, &program, &edges, multipliers);
    let count = witnesses.len() as u64;
    let pair = Pair {
        program: program.words(Sharing::Apart),
        witness: Certificate { edges, witnesses }.words(Sharing::Shared),
    };
    (pair, count)
}

/// A witness for each entailment, in order.
fn witnesses(
    random: &mut Random,
    program: &Program,
    edges: &Edges,
    multipliers: Multipliers,
) -> Vec<Witness> {
    systems(program, edges)
        .expect("the words have their form")
        .iter()
        .map(|system| match (system.prove(), multipliers) {
            (Attempt::Proved(witness), Multipliers::Sparse) => witness,
            (Attempt::Proved(witness), Multipliers::Dense) => {
                extremes::enlarged(random, system, witness)
            }
            (attempt, _) => panic!("no witness from {}: {attempt:?}", system.source),
        })
        .collect()
}

/// Adds unused pool words up to their limit, and unused row words up to so many words in all.
pub fn fill(pair: &mut Pair, words: usize) {
    let rows = 3 + 2 * ProgramWords(&pair.program).entries() + pair.witness[1] as usize;
    let unused = POOL - pair.program[3] as usize;
    pair.program[3] = POOL as i32;
    pair.program.extend(vec![0; unused]);
    let unused = words - pair.witness.len();
    pair.witness[1] += unused as i32;
    pair.witness.splice(rows..rows, vec![0; unused]);
}

/// Columns and coefficients.
type Weights = Vec<(usize, i32)>;

/// Random ones, not all of them 0.
fn weights(random: &mut Random, columns: std::ops::Range<usize>) -> Weights {
    let mut weights: Weights = columns
        .map(|column| (column, random.between(-1_000, 1_000)))
        .collect();
    if weights.iter().all(|&(_, weight)| weight == 0) {
        weights[0].1 = 1;
    }
    weights
}

/// The weighted difference of the columns now and at entry, as two rows.
fn equality(width: usize, now: usize, weights: &Weights) -> [Row; 2] {
    [1, -1].map(|sign| {
        let mut row = Row::constant(width, 0);
        for &(column, weight) in weights {
            row.coefficients[column] -= sign * weight;
            row.coefficients[now + column] += sign * weight;
        }
        row
    })
}

/// A call, then assignments with assertions of what they assigned, branches and skips.
fn body(random: &mut Random, procedure: usize, procedures: usize) -> Procedure {
    let statements = (0..BODY)
        .map(|index| {
            let next = match index + 1 < BODY {
                true => Next::Statement(index + 1),
                false => Next::Exit,
            };
            match index {
                0 => Statement::Call {
                    back: next,
                    procedure: (7 * procedure + 3) % procedures,
                    actuals: (0..LOCALS).map(|_| anything(random)).collect(),
                },
                1 | 3 | 5 => {
                    let (column, value) = setting(index);
                    Statement::Assign {
                        next,
                        column,
                        expression: Expression::constant(COLUMNS, value),
                    }
                }
                2 | 4 | 6 => {
                    let (column, value) = setting(index - 1);
                    Statement::Assert {
                        next,
                        operator: Operator::Equal,
                        expression: Expression::sum(COLUMNS, -value, &[(column, 1)]),
                    }
                }
                7 | 8 => Statement::Branch {
                    on_true: next,
                    on_false: Next::Exit,
                    operator: *random.pick(&Operator::ALL[1..]),
                    expression: anything(random),
                },
                _ => Statement::Skip { next },
            }
        })
        .collect();
    Procedure {
        locals: LOCALS,
        parameters: LOCALS,
        statements,
    }
}

/// The column that an assignment sets, one of the last four locals, and its value.
fn setting(index: usize) -> (usize, i64) {
    (COLUMNS - 4 + index / 2, LARGEST - index as i64)
}

fn anything(random: &mut Random) -> Expression {
    Expression {
        constant: random.number(-LARGEST, LARGEST),
        coefficients: (0..COLUMNS)
            .map(|_| random.between(-1_000, 1_000))
            .collect(),
    }
}

/// Skips in a circle, each with the same disjuncts; main's columns stay as they are.
pub struct Circle {
    pub globals: usize,
    pub locals: usize,
    pub skips: usize,
    pub disjuncts: usize,
    /// Of each disjunct, an even number: two for each equality.
    pub rows: usize,
    /// Whether all disjuncts stand at one place or each skip has its own.
    pub sharing: Sharing,
    pub multipliers: Multipliers,
}

/// The words of a circle, and how many entailments it has.
pub fn circle(random: &mut Random, circle: &Circle) -> (Pair, u64) {
    words(circle_certificate(random, circle), circle.sharing)
}

/// The same where each row is about so many neighbouring variables only, at entry and now, and its
/// other coefficients are 0.
pub fn circle_of_few(random: &mut Random, circle: &Circle, variables: usize) -> (Pair, u64) {
    let firsts = circle.globals + circle.locals - variables + 1;
    let certificate = certificate_of(random, circle, |random| {
        let first = random.below(firsts);
        weights(random, first..first + variables)
    });
    words(certificate, circle.sharing)
}

/// The same with a full tree of depth 8 in place of each witness.
pub fn circle_of_trees(random: &mut Random, circle: &Circle) -> (Pair, u64) {
    words(full_trees(random, circle), circle.sharing)
}

fn words((program, certificate): (Program, Certificate), sharing: Sharing) -> (Pair, u64) {
    let pair = Pair {
        program: program.words(Sharing::Shared),
        witness: certificate.words(sharing),
    };
    (pair, certificate.witnesses.len() as u64)
}

fn full_trees(random: &mut Random, circle: &Circle) -> (Program, Certificate) {
    let (program, mut certificate) = circle_certificate(random, circle);
    let systems = systems(&program, &certificate.edges).expect("the words have their form");
    for (system, witness) in systems.iter().zip(&mut certificate.witnesses) {
        let tree = splits::tree(random, system, Leaves::Given(witness), Shape::Full(SPLITS));
        *witness = tree.expect("no split is needed");
    }
    (program, certificate)
}

fn circle_certificate(random: &mut Random, circle: &Circle) -> (Program, Certificate) {
    let columns = circle.globals + circle.locals;
    certificate_of(random, circle, |random| weights(random, 0..columns))
}

/// A circle whose rows come in pairs that have these weights.
fn certificate_of(
    random: &mut Random,
    circle: &Circle,
    weights: impl Fn(&mut Random) -> Weights,
) -> (Program, Certificate) {
    let columns = circle.globals + circle.locals;
    let main = Procedure {
        locals: circle.locals,
        parameters: circle.locals,
        statements: (1..=circle.skips)
            .map(|next| Statement::Skip {
                next: Next::Statement(next % circle.skips),
            })
            .collect(),
    };
    let program = Program::new(circle.globals, vec![main]).lined(random);
    let disjuncts: Vec<Disjunct> = (0..circle.disjuncts)
        .map(|_| {
            (0..circle.rows / 2)
                .flat_map(|_| equality(2 * columns, columns, &weights(random)))
                .collect()
        })
        .collect();
    let mut path = vec![disjuncts; circle.skips];
    path.push(Vec::new());
    let edges = Edges {
        path,
        summaries: vec![Vec::new()],
    };
    let witnesses = witnesses(random, &program, &edges, circle.multipliers);
    (program, Certificate { edges, witnesses })
}

/// Procedures of 32 calls without parameters. Each entry has 8 disjuncts, the first without rows,
/// so that a witness is one word; the others have so many rows that are premises all the same.
pub fn all_calls(procedures: usize, rows: usize) -> (Pair, u64) {
    let statements = BODY * procedures;
    let disjuncts = |columns: usize| -> Vec<Disjunct> {
        (0..8)
            .map(|at| match at {
                0 => Disjunct::new(),
                _ => vec![Row::sum(columns, LARGEST, &[(at, 1_000)]); rows],
            })
            .collect()
    };
    let edges = Edges {
        path: vec![disjuncts(2 * COLUMNS); statements + procedures],
        summaries: vec![disjuncts(2 * GLOBALS); procedures],
    };
    let count = 1 + 8 * (statements * 9 + procedures);
    let pair = Pair {
        program: calls(procedures).words(Sharing::Shared),
        witness: edges.words(&vec![1; count], Sharing::Shared),
    };
    (pair, count as u64)
}

/// The same calls, and as many entailments. All disjuncts say in two rows that a weighted
/// difference of the globals is 0, so that each witness has two combinations.
pub fn all_calls_with_rows(
    random: &mut Random,
    procedures: usize,
    multipliers: Multipliers,
) -> (Pair, u64) {
    let statements = BODY * procedures;
    let weights = weights(random, 0..GLOBALS);
    let disjuncts = |columns, now| vec![equality(columns, now, &weights).to_vec(); 8];
    let edges = Edges {
        path: vec![disjuncts(2 * COLUMNS, COLUMNS); statements + procedures],
        summaries: vec![disjuncts(2 * GLOBALS, GLOBALS); procedures],
    };
    // The premises are pairs of opposite rows: what is added to both of a pair changes no sum.
    let mut witness = |row_multipliers: [&[i32]; 2]| Witness::Disjunct {
        number: 1,
        rows: row_multipliers
            .map(|numbers| {
                let mut numbers = numbers.to_vec();
                for pair in numbers.chunks_exact_mut(2) {
                    let added = match multipliers {
                        Multipliers::Sparse => 0,
                        Multipliers::Dense => random.between(1, 999),
                    };
                    pair.iter_mut().for_each(|number| *number += added);
                }
                Combination {
                    divisor: 1,
                    multipliers: numbers,
                }
            })
            .to_vec(),
    };
    let mut witnesses = vec![witness([&[], &[]])];
    for _ in 0..8 * statements {
        witnesses.push(witness([&[0, 0], &[0, 0]]));
        witnesses.extend((0..8).map(|_| witness([&[1, 0, 1, 0], &[0, 1, 0, 1]])));
    }
    witnesses.extend((0..8 * procedures).map(|_| witness([&[1, 0], &[0, 1]])));
    let count = witnesses.len() as u64;
    let pair = Pair {
        program: calls(procedures).words(Sharing::Shared),
        witness: Certificate { edges, witnesses }.words(Sharing::Shared),
    };
    (pair, count)
}

/// Procedures of 32 calls without parameters, in circles, each at its own line.
fn calls(procedures: usize) -> Program {
    let bodies = (0..procedures).map(|procedure| Procedure {
        locals: LOCALS,
        parameters: 0,
        statements: (0..BODY)
            .map(|index| Statement::Call {
                back: Next::Statement((index + 1) % BODY),
                procedure: (procedure + index) % procedures,
                actuals: Vec::new(),
            })
            .collect(),
    });
    let lines = (1..=BODY * procedures).map(|line| line as i32);
    Program::new(GLOBALS, bodies.collect()).with_lines(lines.collect())
}
