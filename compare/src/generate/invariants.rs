//! Accepted pairs from random programs: edges are guessed from samples of runs and weakened until
//! each entailment has a witness; assertions are then taken from what the edges say.

use super::constants::LARGEST;
use super::interpreter::{At, Run};
use super::{programs, statement_at};
use crate::build::{
    systems, Attempt, Certificate, Disjunct, Edges, Expression, Goal, Next, Operator, Program, Row,
    Statement, System, Witness,
};
use crate::random::Random;

const RUNS: usize = 12;
const STEPS: usize = 120;
const DEPTH: usize = 40;
const SAMPLES: usize = 50;

/// Values from which a run is of no more use as a sample.
const WILD: i64 = 1_000_000_000_000;

/// A bound that samples reach only by chance is not worth a row, nor one so far from the other.
const BOUND: i64 = 3_000;

const ROUNDS: usize = 60;

/// A random program with a certificate, or nothing if the search was not worth it.
pub fn accepted(random: &mut Random) -> Option<(Program, Certificate)> {
    search(random, 0)
}

/// The same with disjuncts that are side by side, and at least one split.
pub fn accepted_by_splits(random: &mut Random) -> Option<(Program, Certificate)> {
    let (program, certificate) = search(random, 1)?;
    let has_splits = certificate
        .witnesses
        .iter()
        .any(|witness| witness.depth() > 0);
    has_splits.then_some((program, certificate))
}

/// With at most so many splits on a way.
fn search(random: &mut Random, splits: usize) -> Option<(Program, Certificate)> {
    let program = programs::program(random);
    certified(random, program, splits)
}

/// This program, with some of its skips made assertions or branches, and a certificate with at most so
/// many splits on a way.
pub fn certified(
    random: &mut Random,
    mut program: Program,
    splits: usize,
) -> Option<(Program, Certificate)> {
    let samples = Samples::collect(random, &program);
    let mut edges = samples.edges(random, &program, splits > 0);
    settle(&mut program, &mut edges, splits)?;
    harden(random, &mut program, &edges)?;
    rescale(random, &mut edges);
    settle(&mut program, &mut edges, splits)?;
    let witnesses = systems(&program, &edges)?
        .iter()
        .map(|system| witness(random, system, splits))
        .collect::<Option<_>>()?;
    Some((program, Certificate { edges, witnesses }))
}

/// States seen in runs: for a vertex the entry state and the state now, for a summary its columns.
struct Samples {
    path: Vec<Vec<Vec<i64>>>,
    summaries: Vec<Vec<Vec<i64>>>,
}

impl Samples {
    fn collect(random: &mut Random, program: &Program) -> Samples {
        let procedures = program.procedures.len();
        let mut samples = Samples {
            path: vec![Vec::new(); program.statement_count() + procedures],
            summaries: vec![Vec::new(); procedures],
        };
        for _ in 0..RUNS {
            let starts: Vec<i64> = (0..program.columns(0))
                .map(|_| start_value(random))
                .collect();
            let mut run = Run::start(program, &starts);
            for _ in 0..STEPS {
                samples.observe(random, program, &run);
                let wild = run.values().iter().any(|value| value.abs() > WILD);
                if wild || run.calls.len() > DEPTH || !run.step(random) {
                    break;
                }
            }
        }
        samples
    }

    fn observe(&mut self, random: &mut Random, program: &Program, run: &Run) {
        let call = run.top();
        let state = [&call.entry[..], &run.values()].concat();
        if state.iter().any(|value| value.abs() > WILD) {
            return;
        }
        keep(random, &mut self.path[run.vertex() - 1], state);
        if call.at == At::Vertex(Next::Exit) {
            let known = program.globals + program.procedures[call.procedure].parameters;
            let state = [&call.entry[..known], &run.globals].concat();
            keep(random, &mut self.summaries[call.procedure], state);
        }
    }

    /// With entries at times covered by their disjuncts, or never.
    fn edges(&self, random: &mut Random, program: &Program, covered: bool) -> Edges {
        let mut guess = |samples: &[Vec<i64>], pairs: &[(usize, usize)]| {
            let cover = match covered && random.chance(60) {
                true => cover(random, samples, pairs),
                false => None,
            };
            cover.unwrap_or_else(|| disjuncts(random, samples, pairs))
        };
        let path = program
            .vertices()
            .zip(&self.path)
            .map(|((procedure, _), samples)| {
                let columns = program.columns(procedure);
                let pairs: Vec<_> = (0..columns).map(|entry| (entry, columns + entry)).collect();
                guess(samples, &pairs)
            })
            .collect();
        let summaries = program
            .procedures
            .iter()
            .zip(&self.summaries)
            .map(|(procedure, samples)| {
                let known = program.globals + procedure.parameters;
                let pairs: Vec<_> = (0..program.globals)
                    .map(|entry| (entry, known + entry))
                    .collect();
                guess(samples, &pairs)
            })
            .collect();
        Edges { path, summaries }
    }
}

/// Small numbers, and far ones so that what is free does not look bounded.
fn start_value(random: &mut Random) -> i64 {
    let limit = *random.pick(&[1, 5, 50, 10_000, 1_000_000]);
    random.between(-limit, limit).into()
}

fn keep(random: &mut Random, samples: &mut Vec<Vec<i64>>, state: Vec<i64>) {
    if samples.len() < SAMPLES {
        samples.push(state);
    } else {
        let at = random.below(SAMPLES);
        samples[at] = state;
    }
}

/// Coefficients of some columns.
type Direction = Vec<(usize, i32)>;

fn along(direction: &Direction, sample: &[i64]) -> i64 {
    direction
        .iter()
        .map(|&(column, factor)| i64::from(factor) * sample[column])
        .sum()
}

/// Disjuncts that all samples meet; none without samples. `pairs` are columns at entry and now.
fn disjuncts(random: &mut Random, samples: &[Vec<i64>], pairs: &[(usize, usize)]) -> Vec<Disjunct> {
    let Some(columns) = samples.first().map(Vec::len) else {
        return Vec::new();
    };
    if columns == 0 {
        return vec![Vec::new()];
    }
    let mut directions = directions(random, columns, pairs);
    let most = *random.pick(&[1, 1, 1, 1, 2, 2, 3, 8]);
    let split = random.pick(&directions).clone();
    let parts = split_by(&split, samples, most);
    // The direction that tells the parts apart goes first, so that no limit cuts it off.
    directions.insert(0, split);
    parts
        .into_iter()
        .map(|samples| rows(random, columns, &directions, &samples))
        .collect()
}

/// Two or three disjuncts, one of which always holds: a direction is at most a number, or above it.
fn cover(
    random: &mut Random,
    samples: &[Vec<i64>],
    pairs: &[(usize, usize)],
) -> Option<Vec<Disjunct>> {
    let columns = samples
        .first()
        .map(Vec::len)
        .filter(|columns| *columns > 0)?;
    let directions = directions(random, columns, pairs);
    let direction = random.pick(&directions).clone();
    let mut borders: Vec<i64> = (0..1 + random.below(2))
        .map(|_| along(&direction, &samples[random.below(samples.len())]))
        .filter(|border| border.abs() <= BOUND)
        .collect();
    borders.sort_unstable();
    borders.dedup();
    let opposite: Direction = direction.iter().map(|&(at, by)| (at, -by)).collect();
    if borders.is_empty() || Row::sum(columns, 0, &direction).is_constant() {
        return None;
    }
    let lows = [i64::MIN]
        .into_iter()
        .chain(borders.iter().map(|border| border + 1));
    let highs = borders.iter().copied().chain([i64::MAX]);
    let parts = lows.zip(highs).map(|(low, high)| {
        let part: Vec<&Vec<i64>> = samples
            .iter()
            .filter(|sample| (low..=high).contains(&along(&direction, sample)))
            .collect();
        let mut own = Disjunct::new();
        if high < i64::MAX {
            own.push(Row::sum(columns, -high, &direction));
        }
        if low > i64::MIN {
            own.push(Row::sum(columns, low, &opposite));
        }
        if random.chance(50) {
            own.extend(rows(random, columns, &directions[..1], &part));
        }
        own
    });
    Some(parts.collect())
}

fn directions(random: &mut Random, columns: usize, pairs: &[(usize, usize)]) -> Vec<Direction> {
    let mut directions = Vec::new();
    for &(entry, now) in pairs {
        if random.chance(70) {
            directions.push(vec![(now, 1)]);
        }
        if random.chance(60) {
            directions.push(vec![(now, 1), (entry, -1)]);
        }
    }
    for _ in 0..1 + random.below(6) {
        let terms = 1 + random.below(3);
        directions.push(
            (0..terms)
                .map(|_| {
                    let factor = *random.pick(&[1, 1, -1, -1, 2, -3]);
                    (random.below(columns), factor)
                })
                .collect(),
        );
    }
    directions
}

/// Samples by their value along the direction, or by whether it is above the middle one.
fn split_by<'a>(
    direction: &Direction,
    samples: &'a [Vec<i64>],
    most: usize,
) -> Vec<Vec<&'a Vec<i64>>> {
    let mut values: Vec<i64> = samples
        .iter()
        .map(|sample| along(direction, sample))
        .collect();
    values.sort_unstable();
    values.dedup();
    let part = |low: i64, high: i64| -> Vec<&Vec<i64>> {
        samples
            .iter()
            .filter(|sample| (low..=high).contains(&along(direction, sample)))
            .collect()
    };
    if values.len() <= most {
        values.iter().map(|&value| part(value, value)).collect()
    } else if most == 1 {
        vec![part(i64::MIN, i64::MAX)]
    } else {
        let middle = values[values.len() / 2];
        vec![part(i64::MIN, middle - 1), part(middle, i64::MAX)]
    }
}

/// Rows that all of the samples meet.
fn rows(
    random: &mut Random,
    columns: usize,
    directions: &[Direction],
    samples: &[&Vec<i64>],
) -> Disjunct {
    let most = *random.pick(&[2, 4, 6, 8, 10, 32]);
    let mut rows = Disjunct::new();
    for direction in directions {
        // Terms of one column may cancel each other.
        let row = Row::sum(columns, 0, direction);
        if row.is_constant() || rows.len() + 2 > most {
            continue;
        }
        let values: Vec<i64> = samples
            .iter()
            .map(|sample| along(direction, sample))
            .collect();
        let low = values.iter().copied().min().unwrap_or(0);
        let high = values.iter().copied().max().unwrap_or(0);
        let mut is_worth_it = |bound: i64| {
            let near = bound.abs() <= BOUND || high - low <= BOUND && bound.abs() <= LARGEST;
            near && (low == high || random.chance(80))
        };
        let [has_high, has_low] = [high, low].map(&mut is_worth_it);
        if has_high {
            rows.push(Row::sum(columns, -high, direction));
        }
        if has_low {
            let opposite: Direction = direction
                .iter()
                .map(|&(at, factor)| (at, -factor))
                .collect();
            rows.push(Row::sum(columns, low, &opposite));
        }
    }
    rows
}

/// Weakens the edges until each entailment has a witness: rows that lack a combination go, an
/// entry that is reached after all gets a disjunct without rows, and an assertion that is not
/// shown becomes a skip.
fn settle(program: &mut Program, edges: &mut Edges, splits: usize) -> Option<()> {
    for _ in 0..ROUNDS {
        let mut lacking = Vec::new();
        let mut reached = Vec::new();
        let mut failing = Vec::new();
        for system in systems(program, edges)? {
            match (system.prove(), system.goal) {
                (Attempt::Proved(_), _) => {}
                (Attempt::Lacking { .. }, _) if splits > 0 && is_split(&system, splits) => {}
                (Attempt::Lacking { disjunct, rows }, goal) => {
                    lacking.extend(rows.into_iter().map(|row| (entry(goal), disjunct, row)));
                }
                (Attempt::Unreachable, Goal::Path(0)) => failing.push(system.source),
                (Attempt::Unreachable, goal) => reached.push(entry(goal)),
            }
        }
        if lacking.is_empty() && reached.is_empty() && failing.is_empty() {
            return Some(());
        }
        // The last rows first, so that the others keep their numbers.
        lacking.sort_unstable();
        lacking.dedup();
        for (entry, disjunct, row) in lacking.into_iter().rev() {
            disjuncts_of(edges, entry)[disjunct].remove(row);
        }
        for entry in reached {
            let disjuncts = disjuncts_of(edges, entry);
            if disjuncts.is_empty() {
                disjuncts.push(Disjunct::new());
            }
        }
        for vertex in failing {
            let statement = statement_at(program, vertex);
            if let Statement::Assert { next, .. } = *statement {
                *statement = Statement::Skip { next };
            }
        }
    }
    None
}

fn is_split(system: &System, most: usize) -> bool {
    system.prove_by_splits(most).is_some()
}

/// Path entries by their vertex, then summaries, both in an order that sorts.
type Entry = (bool, usize);

fn entry(goal: Goal) -> Entry {
    match goal {
        Goal::Path(vertex) => (false, vertex - 1),
        Goal::Summary(procedure) => (true, procedure),
    }
}

fn disjuncts_of(edges: &mut Edges, (is_summary, at): Entry) -> &mut Vec<Disjunct> {
    match is_summary {
        true => &mut edges.summaries[at],
        false => &mut edges.path[at],
    }
}

/// Turns skips into assertions that the edges show, or into branches with an impossible side.
fn harden(random: &mut Random, program: &mut Program, edges: &Edges) -> Option<()> {
    let vertices: Vec<(usize, Next)> = program.vertices().collect();
    for (vertex, (procedure, _)) in (1..=program.statement_count()).zip(vertices) {
        let Statement::Skip { next } = *statement_at(program, vertex) else {
            continue;
        };
        if random.chance(20) {
            continue;
        }
        let columns = program.columns(procedure);
        let known: Vec<Expression> = edges.path[vertex - 1]
            .iter()
            .flatten()
            .filter_map(|row| now_part(row, columns))
            .collect();
        let Some((operator, expression)) = (match known[..] {
            [] => Some(trivial(random, columns)),
            _ => condition(random, &known),
        }) else {
            continue;
        };
        let before = statement_at(program, vertex).clone();
        *statement_at(program, vertex) = Statement::Assert {
            next,
            operator,
            expression: expression.clone(),
        };
        let shown = systems(program, edges)?
            .iter()
            .filter(|system| system.source == vertex && system.goal == Goal::Path(0))
            .all(|system| system.contradict().is_some());
        if !shown {
            *statement_at(program, vertex) = before;
        } else if random.chance(40) {
            let statements = program.procedures[procedure].statements.len();
            let impossible = match random.below(statements + 1) {
                index if index < statements => Next::Statement(index),
                _ => Next::Exit,
            };
            *statement_at(program, vertex) = Statement::Branch {
                on_true: next,
                on_false: impossible,
                operator,
                expression,
            };
        }
    }
    Some(())
}

/// The row as an expression of the values now, if it speaks of nothing else.
fn now_part(row: &Row, columns: usize) -> Option<Expression> {
    let (entry, now) = row.coefficients.split_at(columns);
    let only_now = entry.iter().all(|&factor| factor == 0) && now.iter().any(|&factor| factor != 0);
    only_now.then(|| Expression {
        constant: row.constant,
        coefficients: now.to_vec(),
    })
}

/// A condition on nothing: true mostly, and false at vertices that are never reached.
fn trivial(random: &mut Random, columns: usize) -> (Operator, Expression) {
    let (operator, constant) = *random.pick(&[
        (Operator::Less, -1),
        (Operator::AtMost, 0),
        (Operator::Greater, 3),
        (Operator::AtLeast, 0),
        (Operator::Equal, 0),
        (Operator::NotEqual, -2),
        (Operator::Less, 0),
        (Operator::Equal, 1),
    ]);
    (operator, Expression::constant(columns, constant))
}

/// A condition that follows from one of the expressions being at most 0.
fn condition(random: &mut Random, known: &[Expression]) -> Option<(Operator, Expression)> {
    let at_most_zero = random.pick(known);
    let slack = *random.pick(&[0, 0, 0, 1, 5]);
    let changed = |factor: i32, added: i64| Expression {
        constant: i64::from(factor) * (at_most_zero.constant - slack) + added,
        coefficients: at_most_zero
            .coefficients
            .iter()
            .map(|coefficient| factor * coefficient)
            .collect(),
    };
    let (operator, expression) = match random.below(6) {
        0 => (Operator::AtMost, changed(1, 0)),
        1 => (Operator::Less, changed(1, -1)),
        2 => (Operator::AtLeast, changed(-1, 0)),
        3 => (Operator::Greater, changed(-1, 1)),
        4 => (Operator::NotEqual, changed(1, -1)),
        _ => (Operator::Equal, at_most_zero.clone()),
    };
    (expression.constant.abs() <= LARGEST).then_some((operator, expression))
}

/// Multiplies some rows, which changes divisors and multipliers but not what the edges say. Nor
/// does a lower constant, by less than the factor, as long as sums are rounded to whole numbers.
fn rescale(random: &mut Random, edges: &mut Edges) {
    let entries = edges.path.iter_mut().chain(&mut edges.summaries);
    for row in entries.flatten().flatten() {
        if !random.chance(25) {
            continue;
        }
        let factor = *random.pick(&[2, 3, 5, 100]);
        let fits = row.constant.abs() <= LARGEST / i64::from(factor)
            && row
                .coefficients
                .iter()
                .all(|coefficient| coefficient.abs() <= 1_000 / factor);
        if fits {
            row.constant *= i64::from(factor);
            row.coefficients.iter_mut().for_each(|cell| *cell *= factor);
            if random.chance(75) {
                let lower = row.constant - random.number(1, i64::from(factor) - 1);
                row.constant = lower.max(-LARGEST);
            }
        }
    }
}

/// A witness, at times not the plainest one.
fn witness(random: &mut Random, system: &System, splits: usize) -> Option<Witness> {
    let contradiction = match random.chance(30) {
        true => system.contradict(),
        false => None,
    };
    let mut witness = match contradiction {
        Some(witness) => witness,
        None => system.prove_by_splits(splits)?,
    };
    vary(random, system, &mut witness);
    Some(witness)
}

/// Scales combinations and adds premises that cancel each other.
pub(super) fn vary(random: &mut Random, system: &System, witness: &mut Witness) {
    if random.chance(40) {
        let factor = random.between(2, 40);
        scale(witness, factor);
    }
    let opposites = system.opposites();
    if !opposites.is_empty() && random.chance(40) {
        for multipliers in witness.multipliers_mut() {
            let (a, b) = *random.pick(&opposites);
            let most = 1_000 - multipliers[a].max(multipliers[b]);
            let added = random.between(0, most);
            multipliers[a] += added;
            multipliers[b] += added;
        }
    }
}

/// Multiplies each combination that the limits allow it for.
fn scale(witness: &mut Witness, factor: i32) {
    let fits = |numbers: &[i32]| numbers.iter().all(|number| number * factor <= 1_000);
    match witness {
        Witness::Split { witnesses, .. } => {
            for witness in &mut **witnesses {
                scale(witness, factor);
            }
        }
        Witness::Contradiction(multipliers) => {
            if fits(multipliers) {
                multipliers.iter_mut().for_each(|number| *number *= factor);
            }
        }
        Witness::Disjunct { rows, .. } => {
            for row in rows {
                if fits(&row.multipliers) && fits(&[row.divisor]) {
                    row.divisor *= factor;
                    row.multipliers
                        .iter_mut()
                        .for_each(|number| *number *= factor);
                }
            }
        }
    }
}
