//! Traces whose calls are matched, unmatched, or both in turn, and damage aimed at their calls.
//!
//! All procedures of a program are alike: choices lead from the first statement to each of the others, and
//! most of them lead back to it. The sides that are taken there decide how a run goes.

mod listing;

use super::aimed::Spot;
use super::trace_words::TraceWords;
use super::traces::{assemble, Journey, Trace};
use super::Pair;
use crate::build::{Expression, Next, Operator, Procedure, Program, Statement};
use crate::checker::Answer;
use crate::random::Random;
use listing::Listing;

/// What a run does from the first statement of a procedure on.
#[derive(Clone, Copy, Debug, PartialEq, Eq)]
enum Move {
    /// One step, back to the first statement.
    Stay,
    /// Adds to a global, or to a parameter.
    SetGlobal,
    SetLocal,
    /// Calls, with the first statement, another one or the exit as the return point.
    Call,
    FarCall,
    LastCall,
    Exit,
    Fail,
    /// A value beyond its limit, in a global or in a parameter of a call.
    SetBeyond,
    CallBeyond,
}

impl Move {
    /// The sides that lead to it: so many choices are passed by, and then one is taken.
    fn sides(self) -> Vec<bool> {
        let (passed, last) = match self {
            Move::Stay => (0, true),
            Move::Call => (1, true),
            Move::Exit => (2, false),
            Move::SetGlobal => (3, true),
            Move::Fail => (4, true),
            Move::FarCall => (5, true),
            Move::SetLocal => (6, true),
            Move::SetBeyond => (7, true),
            Move::CallBeyond => (8, true),
            Move::LastCall => (8, false),
        };
        // The third choice is passed by on its true side: the false one leads to the exit.
        let sides = (0..passed).map(|at| at == 2);
        sides.chain([last]).collect()
    }
}

/// The global that changes.
const COUNTER: usize = 0;

/// The procedures of a program, which call each other in any order and themselves.
fn program(random: &mut Random, sign: i64) -> Program {
    let globals = 1 + random.below(3);
    let count = 1 + random.below(4);
    let procedures = (0..count).map(|_| {
        let callees = [random.below(count), random.below(count)];
        procedure(globals, random.below(4), callees, sign)
    });
    Program::new(globals, procedures.collect()).lined(random)
}

/// A procedure with parameters a, which is ±1,000,000,000, and b, and so many other locals.
fn procedure(globals: usize, others: usize, callees: [usize; 2], sign: i64) -> Procedure {
    let (a, b, columns) = (globals, globals + 1, globals + 2 + others);
    let sum = |constant: i64, terms: &[(usize, i32)]| Expression::sum(columns, constant, terms);
    let choice = |nexts: [Next; 2]| {
        Statement::branch(nexts, Operator::Any, Expression::constant(columns, 0))
    };
    let beyond = sum(sign, &[(a, 1_000)]);
    let [near, far] = callees;
    let to = Next::Statement;
    let statements = vec![
        choice([to(0), to(1)]),
        choice([to(3), to(2)]),
        choice([to(4), Next::Exit]),
        Statement::call(to(0), near, vec![sum(0, &[(a, 1)]), sum(1, &[(b, 1)])]),
        choice([to(5), to(6)]),
        Statement::assign(to(0), COUNTER, sum(1, &[(COUNTER, 1)])),
        choice([to(7), to(8)]),
        Statement::assert(Next::Exit, Operator::NotEqual, sum(0, &[])),
        choice([to(9), to(10)]),
        Statement::call(to(13), far, vec![sum(0, &[(a, 1)]), sum(-1, &[(b, 1)])]),
        choice([to(11), to(12)]),
        Statement::assign(to(0), b, sum(0, &[(b, 1), (COUNTER, 1)])),
        choice([to(14), to(15)]),
        Statement::Skip { next: to(0) },
        Statement::assign(to(0), COUNTER, beyond.clone()),
        choice([to(16), to(17)]),
        Statement::call(to(13), near, vec![beyond, sum(0, &[(b, 1)])]),
        Statement::call(Next::Exit, far, vec![sum(0, &[(a, 1)]), sum(0, &[(b, 1)])]),
    ];
    Procedure {
        locals: 2 + others,
        parameters: 2,
        statements,
    }
}

/// What is innermost where a trace stands: main's call, or one that has its return later on or has none.
#[derive(Clone, Copy, Debug, PartialEq, Eq, PartialOrd, Ord)]
pub enum Inside {
    Main,
    Matched,
    Unmatched,
}

impl Inside {
    pub const ALL: [Inside; 3] = [Inside::Main, Inside::Matched, Inside::Unmatched];
}

/// How the calls of a trace stand to each other.
#[derive(Clone, Copy, Debug, PartialEq, Eq, PartialOrd, Ord)]
pub enum Shape {
    NoCalls,
    /// One behind the other, with some inside.
    Matched,
    /// One inside the other.
    Nested,
    Unmatched,
    /// A matched one before and inside each unmatched one.
    InTurn,
    Mixed,
}

impl Shape {
    pub const ALL: [Shape; 6] = [
        Shape::NoCalls,
        Shape::Matched,
        Shape::Nested,
        Shape::Unmatched,
        Shape::InTurn,
        Shape::Mixed,
    ];

    fn all_matched(self) -> bool {
        matches!(self, Shape::NoCalls | Shape::Matched | Shape::Nested)
    }
}

/// The sides that a run takes, and where in them it stands at a first statement.
#[derive(Clone, Debug, Default)]
struct Way {
    sides: Vec<bool>,
    stops: Vec<(usize, Inside)>,
}

impl Way {
    fn push(&mut self, inside: Inside, next: Move) {
        self.stops.push((self.sides.len(), inside));
        self.sides.extend(next.sides());
    }

    fn repeat(&mut self, inside: Inside, next: Move, times: usize) {
        (0..times).for_each(|_| self.push(inside, next));
    }

    /// So many parts, among them calls that return, of so many inside each other.
    fn level(&mut self, random: &mut Random, inside: Inside, parts: usize, depth: usize) {
        for _ in 0..parts {
            match random.below(6) {
                0 => self.push(inside, Move::SetGlobal),
                1 => self.push(inside, Move::SetLocal),
                2 | 3 if depth > 0 => self.matched(random, inside, parts - 1, depth),
                _ => self.push(inside, Move::Stay),
            }
        }
    }

    /// A call that returns.
    fn matched(&mut self, random: &mut Random, inside: Inside, parts: usize, depth: usize) {
        self.call(random, inside);
        self.level(random, Inside::Matched, parts, depth - 1);
        // The exit of the last call leads to the exit of its caller.
        if depth > 1 && random.chance(10) {
            self.push(Inside::Matched, Move::LastCall);
            self.level(random, Inside::Matched, 1, 0);
        }
        self.push(Inside::Matched, Move::Exit);
    }

    fn call(&mut self, random: &mut Random, inside: Inside) {
        let call = *random.pick(&[Move::Call, Move::Call, Move::FarCall]);
        self.push(inside, call);
    }

    /// So many calls inside each other, all of which return.
    fn nested(&mut self, random: &mut Random, inside: Inside, calls: usize) {
        if calls > 0 {
            self.call(random, inside);
            let parts = random.below(2);
            self.level(random, Inside::Matched, parts, 0);
            self.nested(random, Inside::Matched, calls - 1);
            self.push(Inside::Matched, Move::Exit);
        }
    }

    /// So many calls that don't return, each behind what is put before it.
    fn unmatched(
        &mut self,
        random: &mut Random,
        calls: usize,
        mut before: impl FnMut(&mut Way, &mut Random, Inside),
    ) -> Inside {
        let mut inside = Inside::Main;
        for _ in 0..calls {
            before(self, random, inside);
            match random.chance(10) {
                true => self.push(inside, Move::LastCall),
                false => self.call(random, inside),
            }
            inside = Inside::Unmatched;
        }
        before(self, random, inside);
        inside
    }

    /// A way with so many open calls at the most, where the shape doesn't leave that open; and what is
    /// innermost at its end.
    fn of(random: &mut Random, shape: Shape, open: usize) -> (Way, Inside) {
        let mut way = Way::default();
        let calls = open.saturating_sub(1);
        let inside = match shape {
            Shape::Unmatched => way.unmatched(random, calls, |way, random, inside| {
                let parts = random.below(2);
                way.level(random, inside, parts, 0);
            }),
            // The last matched call is inside all unmatched ones.
            Shape::InTurn => {
                way.unmatched(random, calls.saturating_sub(1), |way, random, inside| {
                    let parts = random.below(2);
                    way.matched(random, inside, parts, 1);
                })
            }
            Shape::Mixed => {
                let calls = random.below(5);
                way.unmatched(random, calls, |way, random, inside| {
                    let [parts, depth] = [random.below(4), random.below(4)];
                    way.level(random, inside, parts, depth);
                })
            }
            _ => way.all_matched(random, shape, calls),
        };
        (way, inside)
    }

    fn all_matched(&mut self, random: &mut Random, shape: Shape, calls: usize) -> Inside {
        let (main, parts) = (Inside::Main, random.below(4));
        match shape {
            Shape::NoCalls => self.level(random, main, 1 + parts, 0),
            Shape::Matched => {
                self.level(random, main, parts, 2);
                self.matched(random, main, parts, 3);
                self.level(random, main, parts, 1);
            }
            _ => {
                self.level(random, main, parts, calls.min(1));
                self.nested(random, main, calls);
                self.level(random, main, parts, calls.min(1));
            }
        }
        main
    }

    /// The sides with those of these moves put in at a stop.
    fn with(&self, stop: usize, moves: &[Move]) -> Vec<bool> {
        let moves = moves.iter().flat_map(|next| next.sides());
        let (before, behind) = self.sides.split_at(stop);
        let sides = before.iter().copied().chain(moves);
        sides.chain(behind.iter().copied()).collect()
    }

    /// One of the stops of a kind.
    fn stop(&self, random: &mut Random, inside: Inside, spot: Spot) -> Option<usize> {
        let stops = self.stops.iter().filter(|stop| stop.1 == inside);
        let stops: Vec<usize> = stops.map(|stop| stop.0).collect();
        let number = spot.number(random, stops.len())?;
        Some(stops[number - 1])
    }
}

/// A program, and a way through it that ends with a failed assertion.
pub struct Called {
    shape: Shape,
    program: Program,
    starts: Vec<i32>,
    way: Way,
    pub trace: Trace,
}

/// A trace of a shape, with so many open calls at the most.
pub fn called(random: &mut Random, shape: Shape, open: usize) -> Called {
    let (way, inside) = Way::of(random, shape, open);
    Called::of(random, shape, way, inside)
}

/// 12 at the 65th open call, in the first, the middle or the last third of the vertices; that call and
/// those that it is in are all matched, or all unmatched.
pub fn too_deep(random: &mut Random, inside: Inside, spot: Spot) -> Case {
    let mut way = Way::default();
    let shape = match inside {
        Inside::Unmatched => Shape::Unmatched,
        _ => Shape::Nested,
    };
    // Of calls that return the 65th is in the middle, of others at the end.
    let [before, behind] = match (shape, spot) {
        (_, Spot::First) => [0, 200],
        (Shape::Nested, Spot::Last) => [200, 0],
        (Shape::Unmatched, Spot::Middle) => [0, 70],
        _ => [0, 0],
    };
    way.repeat(Inside::Main, Move::SetGlobal, before);
    let last = match shape {
        Shape::Unmatched => way.unmatched(random, 64, |_, _, _| {}),
        _ => {
            way.nested(random, Inside::Main, 64);
            Inside::Main
        }
    };
    way.repeat(last, Move::SetGlobal, behind);
    let trace = Called::of(random, shape, way, last).trace;
    Case {
        name: "12 at the 65th call",
        inside,
        spot,
        pair: trace.pair,
        answer: trace.answer,
    }
}

/// A trace of a shape with just so many steps, of which 512 are enough. Its program has few columns.
pub fn of_steps(random: &mut Random, shape: Shape, steps: usize) -> Trace {
    let program = Program::new(1, vec![procedure(1, 1, [0, 0], 1)]);
    let starts = [0, 1_000_000_000, 0, 7];
    let mut moves = moves_of_steps(shape, steps);
    let run = |random: &mut Random, moves: &[Move]| {
        let moves = moves.iter().chain([&Move::Fail]);
        let sides: Vec<bool> = moves.flat_map(|next| next.sides()).collect();
        Journey::along(random, &program, &starts, &sides)
    };
    let least = run(random, &moves).steps();
    moves.resize(moves.len() + steps.saturating_sub(least), Move::Stay);
    let journey = run(random, &moves);
    assemble(random, &program, &journey)
}

/// At most so many steps, with those of the failed assertion: a call and its return take 3 and 4 steps, an
/// assignment 5.
fn moves_of_steps(shape: Shape, steps: usize) -> Vec<Move> {
    use Move::{Call, Exit, SetGlobal};
    let steps = steps.saturating_sub(6);
    match shape {
        Shape::NoCalls => vec![SetGlobal; steps / 5],
        Shape::Matched | Shape::Mixed => [Call, SetGlobal, Exit].repeat(steps / 12),
        Shape::Nested => {
            let nest = [[Call; 63], [Exit; 63]].concat();
            nest.repeat(steps / (63 * 7))
        }
        Shape::Unmatched => {
            let between = vec![SetGlobal; (steps / 63 - 3) / 5];
            [between, vec![Call]].concat().repeat(63)
        }
        Shape::InTurn => {
            // The last matched call is the 64th that is open.
            let steps = steps - 7;
            let calls = 62.min(steps / 10);
            let matched = [Call, Exit].repeat((steps / calls - 3) / 7);
            let unmatched = [matched, vec![Call]].concat().repeat(calls);
            [unmatched, vec![Call, Exit]].concat()
        }
    }
}

/// A trace, what is answered, and what it is about.
pub struct Case {
    pub name: &'static str,
    pub inside: Inside,
    pub spot: Spot,
    pub pair: Pair,
    pub answer: Answer,
}

impl Called {
    /// A way through any program, with a failed assertion at its end.
    fn of(random: &mut Random, shape: Shape, mut way: Way, inside: Inside) -> Called {
        let sign = *random.pick(&[1, -1]);
        let program = program(random, sign);
        let starts = (0..program.columns(0)).map(|_| random.between(-9, 9));
        let mut starts: Vec<i32> = starts.collect();
        starts[program.globals] = sign as i32 * 1_000_000_000;
        way.push(inside, Move::Fail);
        let journey = Journey::along(random, &program, &starts, &way.sides);
        let trace = assemble(random, &program, &journey);
        Called {
            shape,
            program,
            starts,
            way,
            trace,
        }
    }

    /// Other traces of the program, with values beyond their limit, too many exits, a vertex 0 too early
    /// and wrong returns.
    pub fn cases(&self, random: &mut Random) -> Vec<Case> {
        let mut cases = Vec::new();
        for spot in Spot::ALL {
            for inside in Inside::ALL {
                cases.extend(self.beyond(random, inside, spot));
                cases.extend(self.failed(random, inside, spot));
            }
        }
        cases.extend(self.exits(random));
        if let Answer::Trace(_) = self.trace.answer {
            let listing = Listing::of(&self.trace.pair);
            for spot in Spot::ALL {
                for inside in Inside::ALL {
                    cases.extend(listing.vertices(random, inside, spot));
                    cases.extend(listing.entry_values(random, &self.trace, inside, spot));
                }
                cases.extend(listing.returns(random, spot));
            }
        }
        cases
    }

    fn along(&self, random: &mut Random, sides: &[bool]) -> Trace {
        let journey = Journey::along(random, &self.program, &self.starts, sides);
        assemble(random, &self.program, &journey)
    }

    /// 11 at an assignment, and at a call that is matched or unmatched like the one it is in. Where there
    /// are too many calls before it, 12 comes first.
    fn beyond(&self, random: &mut Random, inside: Inside, spot: Spot) -> Vec<Case> {
        let Some(stop) = self.way.stop(random, inside, spot) else {
            return Vec::new();
        };
        let call: &[Move] = match inside {
            Inside::Unmatched => &[Move::CallBeyond],
            _ => &[Move::CallBeyond, Move::Exit],
        };
        let moves = [
            ("11 at an assignment", &[Move::SetBeyond][..]),
            ("11 at a call", call),
        ];
        let cases = moves.into_iter().map(|(name, moves)| {
            let trace = self.along(random, &self.way.with(stop, moves));
            Case {
                name: match trace.answer {
                    Answer::Refused { number: 11, .. } => name,
                    _ => "12 before 11",
                },
                inside,
                spot,
                pair: trace.pair,
                answer: trace.answer,
            }
        });
        cases.collect()
    }

    /// An assertion fails there: with that the trace ends, or goes on at the return point of the innermost
    /// call, where no step leads.
    fn failed(&self, random: &mut Random, inside: Inside, spot: Spot) -> Vec<Case> {
        let Some(stop) = self.way.stop(random, inside, spot) else {
            return Vec::new();
        };
        let sides = [&self.way.sides[..stop], &Move::Fail.sides()].concat();
        let trace = self.along(random, &sides);
        let mut cases = Vec::new();
        if let Answer::Trace(_) = trace.answer {
            let listing = Listing::of(&trace.pair);
            let mut words = listing.words.clone();
            let place = words.vertex_place(words.vertices.len());
            let back = listing.last_back().unwrap_or(1);
            words.vertices.extend([back, 0]);
            cases.push(Case {
                name: "10 behind vertex 0",
                inside,
                spot,
                answer: Answer::refused(10, place as u64),
                pair: Pair {
                    program: trace.pair.program.clone(),
                    witness: words.words(),
                },
            });
        }
        cases.push(Case {
            name: "a failed assertion",
            inside,
            spot,
            pair: trace.pair,
            answer: trace.answer,
        });
        cases
    }

    /// Main's exit, and then anything or the return point of a call that has returned: one exit more than
    /// calls.
    fn exits(&self, random: &mut Random) -> Vec<Case> {
        if !self.shape.all_matched() {
            return Vec::new();
        }
        let stop = self.way.stops.last().map_or(0, |stop| stop.0);
        let sides = [&self.way.sides[..stop], &Move::Exit.sides()].concat();
        let journey = Journey::along(random, &self.program, &self.starts, &sides);
        let trace = assemble(random, &self.program, &journey);
        let mut words = TraceWords::of(&trace.pair);
        words.vertices.truncate(journey.steps() + 1);
        // A return point of calls in main.
        let back = *random.pick(&[1, 14]);
        words.vertices.extend([back, 0]);
        let case = |name, witness| Case {
            name,
            inside: Inside::Main,
            spot: Spot::Last,
            answer: trace.answer,
            pair: Pair {
                program: trace.pair.program.clone(),
                witness,
            },
        };
        let names = match trace.answer {
            Answer::Refused { number: 10, .. } => {
                ["10 behind main's exit", "10 at one exit more than calls"]
            }
            _ => ["12 before 10"; 2],
        };
        let witness = trace.pair.witness.clone();
        vec![case(names[0], witness), case(names[1], words.words())]
    }
}
