//! Traces of programs with arrays, by running them: at each choice a move is tried, and taken if the run
//! stays within all limits, until it is to end.

use super::programs::{program, small_program};
use super::{Access, AccessKind, ArrayProgram};
use crate::build::{Next, Sharing};
use crate::checker::Answer;
use crate::generate::interpreter::{At, Run};
use crate::generate::trace_words::TraceWords;
use crate::generate::Pair;
use crate::random::Random;

const VALUE_LIMIT: i64 = 1_000_000_000_000;
const OPEN_CALLS: usize = 64;

/// How a run ends.
#[derive(Clone, Copy, Debug, PartialEq, Eq)]
pub enum Ending {
    /// At vertex 0.
    Failed,
    /// At the first state that this number refuses: 11, 12 or 28.
    Refused(u64),
}

/// A trace, and what a check with a long enough buffer answers.
#[derive(Clone, Debug)]
pub struct Made {
    pub program: ArrayProgram,
    pub trace: TraceWords,
    /// The states of the run, the last of them the one that is refused, if one is.
    pub visits: Vec<Visit>,
    /// Those of the arrays in the last state.
    pub elements: Vec<Vec<i64>>,
    pub ending: Ending,
}

/// A state on the way, and the index of the access that led there, if one did.
#[derive(Clone, Debug)]
pub struct Visit {
    pub vertex: usize,
    pub values: Vec<i64>,
    pub index: Option<i64>,
    pub open_calls: usize,
    /// How many entry values the calls have taken up to there.
    pub taken: usize,
}

impl Made {
    pub fn sharing(random: &mut Random) -> Sharing {
        *random.pick(&[Sharing::Apart, Sharing::Shared])
    }

    pub fn pair(&self, random: &mut Random) -> Pair {
        Pair {
            program: self.program.words(Made::sharing(random)),
            witness: self.trace.words(),
        }
    }

    /// The line of the statement that is left for the vertex word of this number.
    pub fn line(&self, at: usize) -> i32 {
        self.program.plain.line(self.visits[at - 1].vertex)
    }

    pub fn answer(&self) -> Answer {
        let last = self.visits.len() - 1;
        match self.ending {
            Ending::Failed => Answer::Trace(last as u64),
            Ending::Refused(number) => Answer::Refused {
                number,
                place: self.trace.vertex_place(last) as u64,
                line: match number {
                    28 => 0,
                    _ => self.line(last) as u64,
                },
            },
        }
    }

    /// Those at the failed assertion.
    pub fn values(&self) -> &[i64] {
        match self.ending {
            Ending::Failed => &self.visits[self.visits.len() - 1].values,
            Ending::Refused(_) => &[],
        }
    }
}

/// A trace of any sort.
pub fn made(random: &mut Random) -> Made {
    let ending = any_ending(random);
    made_to(random, ending)
}

/// One of a program whose elements may be globals too.
pub fn made_small(random: &mut Random) -> Made {
    let ending = any_ending(random);
    let program = small_program(random);
    made_of(random, program, ending)
}

fn any_ending(random: &mut Random) -> Ending {
    match random.below(10) {
        0 => Ending::Refused(11),
        1 => Ending::Refused(12),
        2 => Ending::Refused(28),
        _ => Ending::Failed,
    }
}

/// A trace that ends like this, or at vertex 0 if its program doesn't come to that.
pub fn made_to(random: &mut Random, ending: Ending) -> Made {
    let program = program(random);
    made_of(random, program, ending)
}

fn made_of(random: &mut Random, program: ArrayProgram, ending: Ending) -> Made {
    let starts = starts(random, &program);
    let steps = match random.below(40) {
        0 => random.below(3_000),
        1..=10 => random.below(150),
        _ => 3 + random.below(60),
    };
    let is_deep = ending == Ending::Refused(12) || random.chance(5);
    let mut journey = Journey {
        state: State::start(&program, &starts),
        visits: Vec::new(),
        is_deep,
    };
    journey.visits.push(journey.state.visit(None));
    let ending = journey.go(random, steps, ending);
    let Journey { state, visits, .. } = journey;
    let mut vertices: Vec<i32> = visits.iter().map(|visit| visit.vertex as i32).collect();
    if ending != Ending::Failed {
        vertices.push(0);
    }
    let trace = TraceWords {
        starts,
        vertices,
        entry_values: state.run.entry_values.clone(),
    };
    let elements = state.elements;
    Made {
        trace,
        visits,
        elements,
        ending,
        program,
    }
}

/// Those of main, and the elements.
fn starts(random: &mut Random, program: &ArrayProgram) -> Vec<i32> {
    let count = program.plain.columns(0) + program.elements();
    let mut starts: Vec<i32> = (0..count)
        .map(|_| match random.below(30) {
            0 => *random.pick(&[1_000_000_000, -1_000_000_000, 999_999_999]),
            1 => random.between(-1_000_000, 1_000_000),
            _ => random.between(-1, 9),
        })
        .collect();
    if let Some(far) = program.far {
        starts[0] = far as i32;
    }
    starts
}

/// A run and its elements.
#[derive(Clone)]
struct State<'p> {
    program: &'p ArrayProgram,
    run: Run<'p>,
    elements: Vec<Vec<i64>>,
}

/// What a step, or a move, came to.
#[derive(Clone, Copy, PartialEq, Eq)]
enum Outcome {
    On,
    /// Vertex 0, or main's exit.
    Failed,
    Stuck,
    Refused(u64),
}

impl<'p> State<'p> {
    fn start(program: &'p ArrayProgram, starts: &[i32]) -> State<'p> {
        let starts: Vec<i64> = starts.iter().map(|&value| value.into()).collect();
        let (main, mut rest) = starts.split_at(program.plain.columns(0));
        let mut elements = Vec::new();
        for &size in &program.sizes {
            elements.push(rest[..size].to_vec());
            rest = &rest[size..];
        }
        State {
            program,
            run: Run::start(&program.plain, main),
            elements,
        }
    }

    fn visit(&self, index: Option<i64>) -> Visit {
        Visit {
            vertex: self.run.vertex(),
            values: self.run.values(),
            index,
            open_calls: self.run.calls.len(),
            taken: self.run.entry_values.len(),
        }
    }

    /// One step, with this side at a choice, and the index of its access.
    fn step(&mut self, random: &mut Random, side: bool) -> (Outcome, Option<i64>) {
        let access = self.program.accesses.get(&self.run.vertex());
        let index = access.map(|access| self.run.value(&access.index));
        if !self.run.step_by(random, |_| side) {
            return (Outcome::Stuck, None);
        }
        let is_inside = match (access, index) {
            (Some(access), Some(index)) => self.access(access, index),
            _ => true,
        };
        let values = self.run.values();
        let mut values = self.elements.iter().flatten().chain(&values);
        let outcome = if !is_inside {
            Outcome::Refused(28)
        } else if self.run.calls.len() > OPEN_CALLS {
            Outcome::Refused(12)
        } else if values.any(|value| value.abs() > VALUE_LIMIT) {
            Outcome::Refused(11)
        } else if self.run.top().at == At::Failed {
            Outcome::Failed
        } else {
            Outcome::On
        };
        (outcome, index)
    }

    /// Whether the index is one of the array's; then its element is read or written.
    fn access(&mut self, access: &Access, index: i64) -> bool {
        let array = &mut self.elements[access.array];
        if index < 0 || index >= array.len() as i64 {
            return false;
        }
        let index = index as usize;
        match &access.kind {
            AccessKind::Read { column } => self.run.set(*column, array[index]),
            AccessKind::Write { value } => array[index] = self.run.value(value),
        }
        true
    }

    /// The choice that it stands at and the moves of its procedure.
    fn choice(&self) -> (usize, usize) {
        let top = self.run.top();
        let At::Vertex(Next::Statement(choice)) = top.at else {
            unreachable!("moves lead to choices");
        };
        (choice, self.program.moves[top.procedure])
    }

    /// From a choice to a move and on to the next choice, with the states on the way.
    fn play(&mut self, random: &mut Random, chosen: usize) -> (Outcome, Vec<Visit>) {
        let (choice, moves) = self.choice();
        let mut sides = vec![false; chosen - choice];
        if chosen + 1 < moves {
            sides.push(true);
        }
        let mut sides = sides.into_iter();
        let mut visits = Vec::new();
        loop {
            let side = match self.run.is_at_choice() {
                true => sides.next(),
                false => Some(false),
            };
            let Some(side) = side else {
                return (Outcome::On, visits);
            };
            let (outcome, index) = self.step(random, side);
            if outcome == Outcome::Stuck {
                return (outcome, visits);
            }
            visits.push(self.visit(index));
            if outcome != Outcome::On {
                return (outcome, visits);
            }
        }
    }
}

struct Journey<'p> {
    state: State<'p>,
    visits: Vec<Visit>,
    is_deep: bool,
}

/// The move that each procedure has first, a call.
const CALL: usize = 0;

impl Journey<'_> {
    /// At least so many steps, if there are so many, and then to this end, if it comes to it.
    fn go(&mut self, random: &mut Random, steps: usize, ending: Ending) -> Ending {
        let mut tries = 150;
        loop {
            let (choice, moves) = self.state.choice();
            let is_long = self.visits.len() > steps;
            let is_over = is_long && (ending == Ending::Failed || tries == 0);
            if is_over || self.visits.len() > 3_500 {
                return self.end(random, moves - 1);
            }
            if let (Ending::Refused(number), true) = (ending, is_long) {
                tries -= 1;
                let is_near = number != 12 || self.state.run.calls.len() == OPEN_CALLS;
                for chosen in (choice..moves).filter(|_| is_near) {
                    if self.attempt(random, chosen, Outcome::Refused(number)) {
                        return ending;
                    }
                }
            }
            let is_on = (0..8).any(|_| {
                let is_call = self.is_deep && choice == CALL && random.chance(90);
                let chosen = match is_call {
                    true => CALL,
                    false => choice + random.below(moves - choice),
                };
                self.attempt(random, chosen, Outcome::On)
            });
            if !is_on {
                return self.end(random, moves - 1);
            }
        }
    }

    /// Plays a move, if it comes to this.
    fn attempt(&mut self, random: &mut Random, chosen: usize, wanted: Outcome) -> bool {
        let mut state = self.state.clone();
        let (outcome, visits) = state.play(random, chosen);
        let is_wanted = outcome == wanted;
        if is_wanted {
            self.state = state;
            self.visits.extend(visits);
        }
        is_wanted
    }

    /// An assertion that fails, at times another one than the last move.
    fn end(&mut self, random: &mut Random, last: usize) -> Ending {
        let (choice, _) = self.state.choice();
        let other = choice + random.below(last + 1 - choice);
        if !self.attempt(random, other, Outcome::Failed) {
            assert!(self.attempt(random, last, Outcome::Failed));
        }
        Ending::Failed
    }
}
