//! Damage aimed at one test of a trace of a program with arrays, at the first, a middle or the last place
//! where it may fail, and at two tests, of which the earlier one answers.

use super::{with_header, AccessKind, ArrayProgram, Ending, Made};
use crate::build::{Expression, Sharing, Statement};
use crate::checker::Answer;
use crate::generate::aimed::Spot;
use crate::generate::program_words::ProgramWords;
use crate::generate::trace_words::TraceWords;
use crate::generate::{statement_at, Input, Pair};
use crate::random::Random;

mod programs;
mod runs;

/// An input, its answer, and the values that the result buffer then has at its front.
#[derive(Clone, Debug)]
pub struct Case {
    pub name: &'static str,
    pub input: Input,
    pub spot: Spot,
    pub answer: Answer,
    pub values: Vec<i64>,
}

/// The trace itself and, where it is refused at a vertex, with more that is wrong there.
pub fn where_refused(random: &mut Random, made: &Made) -> Vec<Case> {
    let mut aim = Aim::new(random, made);
    aim.undamaged();
    if made.ending != Ending::Failed {
        aim.where_refused();
    }
    aim.cases
}

/// The trace itself, and damaged for each number that it can be damaged for.
pub fn aimed(random: &mut Random, made: &Made) -> Vec<Case> {
    let mut aim = Aim::new(random, made);
    aim.undamaged();
    aim.sizes();
    aim.array_counts();
    aim.marks();
    for spot in Spot::ALL {
        aim.array_sizes(spot);
        aim.exit(spot);
        aim.statement(spot);
        aim.access(spot);
        aim.start_values(spot);
    }
    match made.ending {
        Ending::Refused(_) => aim.where_refused(),
        Ending::Failed => {
            aim.ends();
            for spot in Spot::ALL {
                aim.vertex(spot);
                aim.cut(spot);
                aim.index(spot);
                aim.value(spot);
                aim.missing(spot);
                aim.buffer(spot);
            }
        }
    }
    aim.cases
}

struct Aim<'a> {
    random: &'a mut Random,
    made: &'a Made,
    /// The program words without the number of arrays and their sizes; and these.
    headless: Vec<i32>,
    header: Vec<i32>,
    cases: Vec<Case>,
}

fn refused(number: u64, place: usize) -> Answer {
    Answer::refused(number, place as u64)
}

fn refused_at(number: u64, place: usize, line: i32) -> Answer {
    Answer::Refused {
        number,
        place: place as u64,
        line: line as u64,
    }
}

/// Longer than any k.
const LONG: usize = 20;

impl<'a> Aim<'a> {
    fn new(random: &'a mut Random, made: &'a Made) -> Aim<'a> {
        Aim {
            headless: made.program.headless(Made::sharing(random)),
            header: made.program.header(),
            random,
            made,
            cases: Vec::new(),
        }
    }
}

impl Aim<'_> {
    fn words(&self) -> Vec<i32> {
        with_header(&self.headless, &self.header)
    }

    fn push(&mut self, name: &'static str, pair: Pair, spot: Spot, answer: Answer) {
        let buffer = crate::generate::buffer(self.random, LONG);
        self.cases.push(Case {
            name,
            input: Input {
                program: pair.program,
                witness: pair.witness,
                buffer,
            },
            spot,
            answer,
            values: Vec::new(),
        });
    }

    fn push_program(&mut self, name: &'static str, program: Vec<i32>, spot: Spot, answer: Answer) {
        let witness = self.made.trace.words();
        self.push(name, Pair { program, witness }, spot, answer);
    }

    fn push_witness(&mut self, name: &'static str, witness: Vec<i32>, spot: Spot, answer: Answer) {
        let program = self.words();
        self.push(name, Pair { program, witness }, spot, answer);
    }

    /// With a program that is made anew.
    fn push_made(
        &mut self,
        name: &'static str,
        program: &ArrayProgram,
        trace: &TraceWords,
        spot: Spot,
        answer: Answer,
    ) {
        let pair = Pair {
            program: program.words(Sharing::Apart),
            witness: trace.words(),
        };
        self.push(name, pair, spot, answer);
    }

    /// Gives the last one so short a buffer.
    fn shorten_buffer(&mut self, length: usize) {
        let last = self.cases.last_mut().expect("just added");
        last.input.buffer.truncate(length);
    }

    /// The place of a kind word.
    fn kind_place(&self, vertex: usize) -> usize {
        ProgramWords::kind(vertex) + self.header.len()
    }

    fn undamaged(&mut self) {
        let answer = self.made.answer();
        self.push_program("undamaged", self.words(), Spot::First, answer);
        let values = self.made.values().to_vec();
        if let Some(case) = self.cases.last_mut() {
            case.values = values;
        }
    }
}
