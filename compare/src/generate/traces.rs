//! Traces, by running random programs into assertions that fail, with the answer that the run
//! itself gives.

use super::constants::{far, LARGEST};
use super::interpreter::{other_local, Run};
use super::{programs, statement_at, Pair};
use crate::build::{Expression, Next, Operator, Procedure, Program, Sharing, Statement};
use crate::checker::Answer;
use crate::random::Random;

const VALUE_LIMIT: i64 = 1_000_000_000_000;
const START_LIMIT: i32 = 1_000_000_000;
const OPEN_CALLS: usize = 64;

/// Most steps of a trace.
pub const STEPS: usize = 4_096;

/// A trace, what a check with a long enough buffer answers, and the values it then finds there.
#[derive(Clone, Debug)]
pub struct Trace {
    pub pair: Pair,
    pub answer: Answer,
    pub values: Vec<i64>,
    /// The calls that take entry values: the vertex arrived at, counted from 0, and how many.
    pub takes: Vec<(usize, usize)>,
}

/// A trace of some kind. Most of them fail an assertion; the others pass a limit on the way.
pub fn trace(random: &mut Random) -> Trace {
    match random.below(12) {
        0 => deep(random),
        1 => growing(random),
        2 => climbing(random),
        3 => again(random),
        4 => calling(random),
        5 => {
            let few = random.below(60);
            let steps = *random.pick(&[few, few, few, STEPS - 1, STEPS]);
            looping(random, steps)
        }
        6 => switching(random),
        _ => wandering(random),
    }
}

/// A state on the way: its vertex, values and number of open calls, and how many entry values the
/// calls have taken up to there.
#[derive(Clone)]
struct Visit {
    vertex: usize,
    values: Vec<i64>,
    open_calls: usize,
    taken: usize,
}

impl Visit {
    fn of(run: &Run) -> Visit {
        Visit {
            vertex: run.vertex(),
            values: run.values(),
            open_calls: run.calls.len(),
            taken: run.entry_values.len(),
        }
    }

    /// The refusal number of a state beyond a limit.
    fn excess(&self) -> Option<u64> {
        if self.open_calls > OPEN_CALLS {
            Some(12)
        } else if self.values.iter().any(|value| value.abs() > VALUE_LIMIT) {
            Some(11)
        } else {
            None
        }
    }
}

/// The states of a run, with what it started from and what its calls found in their other locals.
pub(super) struct Journey {
    starts: Vec<i32>,
    visits: Vec<Visit>,
    entry_values: Vec<i32>,
}

impl Journey {
    /// At most so many steps, up to the first state beyond a limit.
    fn new(random: &mut Random, program: &Program, starts: &[i32], steps: usize) -> Journey {
        let numbers: Vec<i64> = starts.iter().map(|&value| value.into()).collect();
        let mut run = Run::start(program, &numbers);
        let mut visits = vec![Visit::of(&run)];
        for _ in 0..steps {
            if visits.last().is_some_and(|visit| visit.excess().is_some()) || !run.step(random) {
                break;
            }
            visits.push(Visit::of(&run));
        }
        Journey {
            starts: starts.to_vec(),
            visits,
            entry_values: run.entry_values,
        }
    }

    /// With these sides at `?`, up to the end of the run, to a `?` without a side or to the most steps. Limits
    /// may be passed on the way.
    pub(super) fn along(
        random: &mut Random,
        program: &Program,
        starts: &[i32],
        sides: &[bool],
    ) -> Journey {
        let numbers: Vec<i64> = starts.iter().map(|&value| value.into()).collect();
        let mut run = Run::start(program, &numbers);
        let mut visits = vec![Visit::of(&run)];
        let mut sides = sides.iter();
        while visits.len() <= STEPS {
            let side = match run.is_at_choice() {
                true => sides.next(),
                false => Some(&false),
            };
            let Some(&side) = side else {
                break;
            };
            if !run.step_by(random, |_| side) {
                break;
            }
            visits.push(Visit::of(&run));
        }
        Journey {
            starts: starts.to_vec(),
            visits,
            entry_values: run.entry_values,
        }
    }

    pub(super) fn steps(&self) -> usize {
        self.visits.len() - 1
    }

    fn last(&self) -> &Visit {
        self.visits.last().expect("a run has its start")
    }

    /// The place of the vertex word of a visit.
    fn place(&self, at: usize) -> u64 {
        (3 + self.starts.len() + at) as u64
    }

    /// The answer of a step to the visit of this number that is refused.
    fn refused(&self, program: &Program, number: u64, at: usize) -> Answer {
        let left = at.checked_sub(1).map(|before| self.visits[before].vertex);
        Answer::Refused {
            number,
            place: self.place(at),
            line: left.map_or(0, |vertex| program.line(vertex) as u64),
        }
    }

    /// What a check answers that gets to the end of the visits, after so many steps.
    fn answer(&self, program: &Program, steps: usize) -> Answer {
        let mut visits = self.visits.iter().enumerate();
        let excess = visits.find_map(|(at, visit)| visit.excess().map(|number| (number, at)));
        match excess {
            Some((number, at)) => self.refused(program, number, at),
            None if self.last().vertex == 0 => Answer::Trace(steps as u64),
            None => self.refused(program, 10, self.visits.len()),
        }
    }

    fn takes(&self) -> Vec<(usize, usize)> {
        let steps = self.visits.windows(2).zip(1..);
        let taken = steps.map(|(visits, at)| (at, visits[1].taken - visits[0].taken));
        taken.filter(|(_, taken)| *taken > 0).collect()
    }
}

/// The trace of the visits and its answer. If they do not end at 0, then any vertices and a 0 are
/// added that are not reached, and at times entry values that no call takes.
pub(super) fn assemble(random: &mut Random, program: &Program, journey: &Journey) -> Trace {
    let visits = journey.visits.iter();
    let mut vertices: Vec<i32> = visits.map(|visit| visit.vertex as i32).collect();
    let last = journey.last();
    let mut entry_values = journey.entry_values[..last.taken].to_vec();
    if vertices.last() != Some(&0) {
        let most = STEPS.saturating_sub(vertices.len());
        let more = random.below(4).min(most);
        vertices.extend((0..more).map(|_| random.between(0, 4)));
        vertices.push(0);
        let more = *random.pick(&[0, 0, 0, 1, 2, 20]);
        entry_values.extend((0..more).map(|_| other_local(random)));
    }
    let steps = vertices.len() - 1;
    let answer = journey.answer(program, steps);
    let sizes = [3, steps as i32, entry_values.len() as i32];
    let sharing = *random.pick(&[Sharing::Apart, Sharing::Shared]);
    Trace {
        pair: Pair {
            program: program.words(sharing),
            witness: [&sizes[..], &journey.starts, &vertices, &entry_values].concat(),
        },
        answer,
        values: match answer {
            Answer::Trace(_) => last.values.clone(),
            _ => Vec::new(),
        },
        takes: journey.takes(),
    }
}

/// A random program whose run ends at an assertion that fails there, and may pass others before.
/// Now and then the run is left as it is, beyond a limit or at main's exit.
fn wandering(random: &mut Random) -> Trace {
    let mut program = programs::program(random);
    let starts = start_values(random, &program);
    let steps = match random.chance(90) {
        true => random.below(60),
        false => random.below(STEPS),
    };
    let mut journey = Journey::new(random, &program, &starts, steps);
    let stopped = journey.visits.len() <= steps;
    if stopped && random.chance(25) {
        return assemble(random, &program, &journey);
    }
    loop {
        let (last, before) = journey.visits.split_last().expect("a run has its start");
        if let Some(failing) = failing(random, &mut program, last, before) {
            let vertex = last.vertex;
            let failed = Visit {
                vertex: 0,
                ..last.clone()
            };
            journey.visits.push(failed);
            pass(random, &mut program, &journey.visits, vertex);
            *statement_at(&mut program, vertex) = failing;
            return assemble(random, &program, &journey);
        }
        journey.visits.pop();
    }
}

/// An assertion for the vertex of the last visit that fails there and at no visit before.
fn failing(
    random: &mut Random,
    program: &mut Program,
    last: &Visit,
    before: &[Visit],
) -> Option<Statement> {
    if last.vertex > program.statement_count() || last.excess().is_some() {
        return None;
    }
    let earlier: Vec<&Visit> = before
        .iter()
        .filter(|visit| visit.vertex == last.vertex)
        .collect();
    let next = match *statement_at(program, last.vertex) {
        Statement::Skip { next } => next,
        // The other statements go on elsewhere, so this is for a first visit.
        _ if earlier.is_empty() => Next::Exit,
        _ => return None,
    };
    let columns = last.values.len();
    let (operator, expression) = match earlier[..] {
        [] => fails_at(random, &last.values),
        _ => {
            let column = (0..columns).find(|&at| {
                let new = earlier
                    .iter()
                    .all(|visit| visit.values[at] != last.values[at]);
                new && last.values[at].abs() <= LARGEST
            })?;
            let constant = -last.values[column];
            let expression = Expression::sum(columns, constant, &[(column, 1)]);
            (Operator::NotEqual, expression)
        }
    };
    Some(Statement::Assert {
        next,
        operator,
        expression,
    })
}

/// A condition that the values do not meet.
fn fails_at(random: &mut Random, values: &[i64]) -> (Operator, Expression) {
    let mut expression = Expression::constant(values.len(), random.between(-20, 20));
    for factor in &mut expression.coefficients {
        *factor = *random.pick(&[0, 0, 1, -1, 3, -1_000]);
    }
    let terms = expression.coefficients.iter().zip(values);
    let sum: i64 = terms
        .map(|(factor, value)| i64::from(*factor) * value)
        .sum();
    if sum.abs() <= LARGEST && random.chance(50) {
        expression.constant = -sum;
    }
    let value = expression.constant + sum;
    let failing: Vec<Operator> = Operator::ALL
        .into_iter()
        .filter(|operator| operator.decides(value) == Some(false))
        .collect();
    (*random.pick(&failing), expression)
}

/// Turns skips into assertions that hold at all of the visits.
fn pass(random: &mut Random, program: &mut Program, visits: &[Visit], except: usize) {
    for vertex in (1..=program.statement_count()).filter(|&vertex| vertex != except) {
        let Statement::Skip { next } = *statement_at(program, vertex) else {
            continue;
        };
        let seen: Vec<&Visit> = visits
            .iter()
            .filter(|visit| visit.vertex == vertex)
            .collect();
        let columns = seen.first().map_or(0, |visit| visit.values.len());
        if columns == 0 || random.chance(40) {
            continue;
        }
        let column = random.below(columns);
        let highest = seen.iter().map(|visit| visit.values[column]).max();
        let highest = highest.unwrap_or(0).clamp(-LARGEST, LARGEST);
        let expression = Expression::sum(columns, -highest, &[(column, 1)]);
        if seen.iter().all(|visit| visit.values[column] <= highest) {
            *statement_at(program, vertex) = Statement::Assert {
                next,
                operator: Operator::AtMost,
                expression,
            };
        }
    }
}

/// f(a, ..) asserts a ≠ 0 and calls f(a - 1, ..). Main calls it with `depth`.
pub struct Countdown {
    pub globals: usize,
    /// Parameters of f beside a.
    pub more: usize,
    /// Other locals of main and of f.
    pub main_others: usize,
    pub others: usize,
    pub depth: i32,
    /// Skips in main before its call, and in f before the assertion.
    pub main_skips: usize,
    pub skips: usize,
    /// Without the assertion there is no end but the limit.
    pub asserted: bool,
}

/// A countdown that opens few calls, up to 64, or more.
pub fn deep(random: &mut Random) -> Trace {
    let more = *random.pick(&[0, 1, 2, 7]);
    let countdown = Countdown {
        globals: *random.pick(&[0, 1, 2, 8]),
        more,
        main_others: *random.pick(&[0, 0, 1, 8]),
        others: *random.pick(&[0, 1, 7 - more]),
        depth: *random.pick(&[0, 1, 2, 30, 61, 62, 62, 63, 63, 64, 70]),
        main_skips: *random.pick(&[0, 0, 1, 2]),
        skips: *random.pick(&[0, 0, 1, 3]),
        asserted: random.chance(70),
    };
    counting_down(random, &countdown)
}

pub fn counting_down(random: &mut Random, shape: &Countdown) -> Trace {
    let &Countdown { globals, more, .. } = shape;
    let main_columns = globals + shape.main_others;
    let locals = (1 + more + shape.others).min(8);
    let columns = globals + locals;
    let skip = |at: usize| Statement::Skip {
        next: Next::Statement(at + 1),
    };
    let mut main: Vec<Statement> = (0..shape.main_skips).map(skip).collect();
    let mut actuals = vec![Expression::constant(main_columns, shape.depth)];
    actuals.resize(1 + more, Expression::constant(main_columns, 7));
    main.push(Statement::Call {
        back: Next::Exit,
        procedure: 1,
        actuals,
    });
    let mut body: Vec<Statement> = (0..shape.skips).map(skip).collect();
    if shape.asserted {
        body.push(Statement::Assert {
            next: Next::Statement(shape.skips + 1),
            operator: *random.pick(&[Operator::NotEqual, Operator::Greater]),
            expression: Expression::column(columns, globals),
        });
    }
    let mut actuals = vec![Expression::sum(columns, -1, &[(globals, 1)])];
    // They change with a, so that it matters which a they see.
    actuals.extend((0..more).map(|at| {
        let terms = [(globals + 1 + at, 1), (globals, 2)];
        Expression::sum(columns, 1, &terms)
    }));
    body.push(Statement::Call {
        back: Next::Exit,
        procedure: 1,
        actuals,
    });
    let program = Program::new(
        globals,
        vec![
            Procedure {
                locals: shape.main_others,
                parameters: 0,
                statements: main,
            },
            Procedure {
                locals,
                parameters: 1 + more,
                statements: body,
            },
        ],
    )
    .lined(random);
    let starts = start_values(random, &program);
    let journey = Journey::new(random, &program, &starts, STEPS);
    assemble(random, &program, &journey)
}

/// Main asserts that a counter isn't 0 and calls itself with one less, which is in a global or in its
/// parameter. Where it returns to, the call again, is never reached.
pub fn again(random: &mut Random) -> Trace {
    let others = random.below(9);
    let parameters = random.below(2).min(8 - others);
    let globals = 1 + *random.pick(&[0, 1, 7]);
    let columns = globals + parameters + others;
    // The last global, or the parameter behind it.
    let counter = globals + parameters - 1;
    let less = Expression::sum(columns, -1, &[(counter, 1)]);
    let mut statements = vec![Statement::assert(
        Next::Statement(1),
        Operator::NotEqual,
        Expression::column(columns, counter),
    )];
    match parameters {
        0 => statements.extend([
            Statement::assign(Next::Statement(2), counter, less),
            Statement::call(Next::Statement(2), 0, Vec::new()),
        ]),
        _ => statements.push(Statement::call(Next::Statement(1), 0, vec![less])),
    }
    let main = Procedure {
        locals: parameters + others,
        parameters,
        statements,
    };
    let program = Program::new(globals, vec![main]).lined(random);
    let mut starts = start_values(random, &program);
    starts[counter] = *random.pick(&[0, 1, 2, 5, 30, 62, 63, 64, 65, 80]);
    let journey = Journey::new(random, &program, &starts, STEPS);
    assemble(random, &program, &journey)
}

/// Main calls p2, which calls p3, and so on; the last one sets g = g - 1. All return, and main asserts
/// g ≠ 0 and goes round again.
pub fn rounds(random: &mut Random, rounds: i32, others: &[usize]) -> Trace {
    let last = others.len() - 1;
    let bodies = others.iter().enumerate().map(|(at, &locals)| {
        let columns = 1 + locals;
        let counted = Expression::sum(columns, -1, &[(0, 1)]);
        let statements = match at {
            0 => vec![
                Statement::call(Next::Statement(1), 1, Vec::new()),
                Statement::assert(
                    Next::Statement(0),
                    Operator::NotEqual,
                    Expression::column(columns, 0),
                ),
            ],
            _ if at < last => vec![Statement::call(Next::Exit, at + 1, Vec::new())],
            _ => vec![Statement::assign(Next::Exit, 0, counted)],
        };
        Procedure {
            locals,
            parameters: 0,
            statements,
        }
    });
    let program = Program::new(1, bodies.collect()).lined(random);
    let mut starts = start_values(random, &program);
    starts[0] = rounds;
    let journey = Journey::new(random, &program, &starts, STEPS);
    assemble(random, &program, &journey)
}

/// Rounds of calls that return, of procedures with any number of other locals.
pub fn calling(random: &mut Random) -> Trace {
    let procedures = 2 + random.below(5);
    let others: Vec<usize> = (0..procedures).map(|_| random.below(9)).collect();
    let turns = random.between(1, 6);
    rounds(random, turns, &others)
}

/// From a start value of ±1,000,000,000 to the value limit or one beyond: in a global, in a local
/// or in a parameter, after some steps and before others.
pub fn growing(random: &mut Random) -> Trace {
    let sign = *random.pick(&[1, -1]);
    let [constant, factor] = reaching(random, [-1, 1]);
    let (before, after) = (*random.pick(&[0, 0, 1, 2, 5]), random.below(6));
    // Columns: the global y, and in main the parameter x and the local z.
    let (global, x, z) = (0, 1, 2);
    let large = Expression::sum(3, sign * constant, &[(x, factor as i32)]);
    let skip = |at: usize| Statement::Skip {
        next: Next::Statement(at + 1),
    };
    let mut statements: Vec<Statement> = (0..before).map(skip).collect();
    let next = Next::Statement(before + 1);
    statements.push(match random.below(3) {
        0 => Statement::Call {
            back: next,
            procedure: 1,
            actuals: vec![large],
        },
        at => Statement::Assign {
            next,
            column: [global, z][at - 1],
            expression: large,
        },
    });
    statements.extend((before + 1..before + 1 + after).map(skip));
    statements.push(Statement::Assert {
        next: Next::Exit,
        operator: Operator::NotEqual,
        expression: Expression::constant(3, 0),
    });
    // f(a) sets y = a and then a = y + 1, which may pass the limit by itself.
    let locals = 1 + *random.pick(&[0, 1, 3, 7]);
    let columns = 1 + locals;
    let setter = Procedure {
        locals,
        parameters: 1,
        statements: vec![
            Statement::Assign {
                next: Next::Statement(1),
                column: global,
                expression: Expression::column(columns, 1),
            },
            Statement::Assign {
                next: Next::Exit,
                column: 1,
                expression: Expression::sum(columns, random.between(-1, 1), &[(global, 1)]),
            },
        ],
    };
    let program = Program::new(
        1,
        vec![
            Procedure {
                locals: 2,
                parameters: 1,
                statements,
            },
            setter,
        ],
    )
    .lined(random);
    let [y, z] = [random.between(-5, 5), other_local(random)];
    let starts = [y, sign as i32 * START_LIMIT, z];
    let journey = Journey::new(random, &program, &starts, STEPS - 1);
    assemble(random, &program, &journey)
}

/// A constant and a factor that take 1,000,000,000 to the value limit and by so much beyond it: 1,000,
/// or less and a far constant.
fn reaching(random: &mut Random, [least, most]: [i64; 2]) -> [i64; 2] {
    let far = random.number(0, 4);
    let constant = far * i64::from(START_LIMIT) + random.number(least, most);
    [constant.min(LARGEST), 1_000 - far]
}

/// f(b) calls f(b + 1) without end, or f(b + 4,000,000,000). The start decides whether the value limit is passed before the
/// 65th call, at it, or after it.
pub fn climbing(random: &mut Random) -> Trace {
    let sign = *random.pick(&[1, -1]);
    let (step, [constant, factor]) = match random.chance(70) {
        true => (1, reaching(random, [-66, -59])),
        false => {
            let calls = random.number(59, 66);
            (LARGEST, [random.number(-1, 1), 1_000 - 4 * calls])
        }
    };
    let main_others = *random.pick(&[0, 1, 7]);
    let others = *random.pick(&[0, 1, 2, 7]);
    let [constant, step] = [constant, step].map(|number| sign * number);
    let program = climb([constant, factor], step, [main_others, others]).lined(random);
    let mut starts = start_values(random, &program);
    starts[0] = sign as i32 * START_LIMIT;
    let journey = Journey::new(random, &program, &starts, STEPS - 1);
    assemble(random, &program, &journey)
}

/// Main(x) calls f(factor × x + constant), f(b) calls f(b + `step`); with so many other locals each.
pub fn climb([constant, factor]: [i64; 2], step: i64, others: [usize; 2]) -> Program {
    let body = |others: usize, back, constant: i64, factor: i64| {
        let actual = Expression::sum(1 + others, constant, &[(0, factor as i32)]);
        Procedure {
            locals: 1 + others,
            parameters: 1,
            statements: vec![Statement::call(back, 1, vec![actual])],
        }
    };
    Program::new(
        0,
        vec![
            body(others[0], Next::Exit, constant, factor),
            body(others[1], Next::Statement(0), step, 1),
        ],
    )
}

/// Main sets t to a far constant and calls f with another one more, and f asserts something of the
/// difference that isn't so.
pub fn switching(random: &mut Random) -> Trace {
    const T: usize = 0;
    const A: usize = 1;
    let [set, added] = [far(random), far(random)];
    let difference = match added.abs() {
        LARGEST => 0,
        _ => random.number(-1, 1),
    };
    let failing = Operator::ALL.into_iter();
    let failing: Vec<Operator> = failing
        .filter(|operator| operator.decides(difference) == Some(false))
        .collect();
    let others = random.below(8);
    let terms = [(A, 1), (T, -1)];
    let compared = Expression::sum(2 + others, difference - added, &terms);
    let body = |locals, parameters, statements| Procedure {
        locals,
        parameters,
        statements,
    };
    let actual = Expression::sum(1, added, &[(T, 1)]);
    let main = vec![
        Statement::assign(Next::Statement(1), T, Expression::constant(1, set)),
        Statement::call(Next::Exit, 1, vec![actual]),
    ];
    let callee = vec![Statement::assert(
        Next::Exit,
        *random.pick(&failing),
        compared,
    )];
    let procedures = vec![body(0, 0, main), body(1 + others, 1, callee)];
    let program = Program::new(1, procedures).lined(random);
    let starts = start_values(random, &program);
    let journey = Journey::new(random, &program, &starts, STEPS);
    assemble(random, &program, &journey)
}

/// A counting loop and then a failed assertion: `steps` steps in all, at least 3.
pub fn looping(random: &mut Random, steps: usize) -> Trace {
    let steps = steps.max(3);
    let skips = (steps + 1) % 2;
    let turns = (steps - 1 - skips) / 2;
    let at_end = Expression::sum(1, -(turns as i32), &[(0, 1)]);
    let mut statements = vec![
        Statement::Assign {
            next: Next::Statement(1),
            column: 0,
            expression: Expression::sum(1, 1, &[(0, 1)]),
        },
        Statement::Branch {
            on_true: Next::Statement(0),
            on_false: Next::Statement(2),
            operator: Operator::Less,
            expression: at_end.clone(),
        },
    ];
    if skips == 1 {
        statements.push(Statement::Skip {
            next: Next::Statement(3),
        });
    }
    statements.push(Statement::Assert {
        next: Next::Exit,
        operator: Operator::NotEqual,
        expression: at_end,
    });
    let program = Program::new(
        0,
        vec![Procedure {
            locals: 1,
            parameters: 0,
            statements,
        }],
    )
    .lined(random);
    let journey = Journey::new(random, &program, &[0], steps);
    assemble(random, &program, &journey)
}

fn start_values(random: &mut Random, program: &Program) -> Vec<i32> {
    (0..program.columns(0))
        .map(|_| {
            let limit = *random.pick(&[3, 3, 100, START_LIMIT]);
            match random.chance(80) {
                true => random.between(-limit, limit),
                false => *random.pick(&[limit, -limit]),
            }
        })
        .collect()
}
