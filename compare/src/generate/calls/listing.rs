//! The calls of an accepted trace, by a stack of its vertices, and damage at each of them.

use super::{Case, Inside};
use crate::checker::Answer;
use crate::generate::aimed::Spot;
use crate::generate::program_words::ProgramWords;
use crate::generate::trace_words::TraceWords;
use crate::generate::traces::Trace;
use crate::generate::Pair;
use crate::random::Random;

/// A step that begins a call.
#[derive(Clone, Debug)]
struct CallStep {
    /// The vertex arrived at, counted from 0.
    at: usize,
    statement: usize,
    back: i32,
    /// The vertex that is arrived at by its return.
    returned: Option<usize>,
}

/// The vertices of an accepted trace, with their calls.
pub(super) struct Listing<'a> {
    program: ProgramWords<'a>,
    pub(super) words: TraceWords,
    calls: Vec<CallStep>,
    /// For each vertex the call that is innermost there, if it isn't main's.
    innermost: Vec<Option<usize>>,
}

impl<'a> Listing<'a> {
    pub(super) fn of(pair: &'a Pair) -> Listing<'a> {
        let program = ProgramWords(&pair.program);
        let words = TraceWords::of(pair);
        let mut calls: Vec<CallStep> = Vec::new();
        let mut open: Vec<usize> = Vec::new();
        let mut innermost = vec![None];
        for (before, at) in words.vertices.iter().zip(1..words.vertices.len()) {
            let vertex = *before as usize;
            match program.0[ProgramWords::kind(vertex)] {
                5 => {
                    open.push(calls.len());
                    calls.push(CallStep {
                        at,
                        statement: vertex,
                        back: program.row(vertex)[1],
                        returned: None,
                    });
                }
                6 => {
                    let call = open.pop().expect("an exit has its call");
                    calls[call].returned = Some(at);
                }
                _ => {}
            }
            innermost.push(open.last().copied());
        }
        Listing {
            program,
            words,
            calls,
            innermost,
        }
    }

    /// The return point of the innermost call that is open at the end, if it isn't main's.
    pub(super) fn last_back(&self) -> Option<i32> {
        let last = self.calls.iter().rfind(|call| call.returned.is_none());
        last.map(|call| call.back)
    }

    fn inside(&self, at: usize) -> Inside {
        match self.innermost[at].map(|call| self.calls[call].returned) {
            None => Inside::Main,
            Some(Some(_)) => Inside::Matched,
            Some(None) => Inside::Unmatched,
        }
    }

    /// One of these vertices, counted from 0.
    fn one(&self, random: &mut Random, places: &[usize], spot: Spot) -> Option<usize> {
        let number = spot.number(random, places.len())?;
        Some(places[number - 1])
    }

    /// 10 at a vertex, with this one listed there.
    fn refused(
        &self,
        name: &'static str,
        (inside, spot): (Inside, Spot),
        at: usize,
        listed: i32,
    ) -> Case {
        let mut words = self.words.clone();
        words.vertices[at] = listed;
        Case {
            name,
            inside,
            spot,
            pair: Pair {
                program: self.program.0.to_vec(),
                witness: words.words(),
            },
            answer: Answer::Refused {
                number: 10,
                place: words.vertex_place(at) as u64,
                line: self.program.line(self.words.vertices[at - 1]) as u64,
            },
        }
    }

    /// 10 at a number that is no vertex, and at a vertex to which no step leads.
    pub(super) fn vertices(&self, random: &mut Random, inside: Inside, spot: Spot) -> Vec<Case> {
        let places = 1..self.words.vertices.len();
        let places: Vec<usize> = places.filter(|at| self.inside(*at) == inside).collect();
        let Some(at) = self.one(random, &places, spot) else {
            return Vec::new();
        };
        let beyond = (self.program.statements() + self.program.procedures()) as i32 + 1;
        let none = *random.pick(&[-1, i32::MIN, beyond, beyond + 1, i32::MAX]);
        let mut cases =
            vec![self.refused("10 at a number that is no vertex", (inside, spot), at, none)];
        let wrong = self.wrong(at);
        if !wrong.is_empty() {
            let listed = *random.pick(&wrong);
            cases.push(self.refused("10 at another vertex", (inside, spot), at, listed));
        }
        cases
    }

    /// Vertices to which no step leads from the one before this one.
    fn wrong(&self, at: usize) -> Vec<i32> {
        let left = self.words.vertices[at - 1] as usize;
        let kind = self.program.0[ProgramWords::kind(left)];
        let own = self.program.procedure_of(left);
        let vertices = self.program.statements() + self.program.procedures();
        let wrong = (0..=vertices).filter(|&vertex| match kind {
            // One vertex alone is right.
            5 | 6 => vertex as i32 != self.words.vertices[at],
            4 => vertex > 0 && self.program.procedure_of(vertex) != own,
            _ => vertex == 0 || self.program.procedure_of(vertex) != own,
        });
        wrong.map(|vertex| vertex as i32).collect()
    }

    /// 10 at a return: to another vertex of the caller, to the return point of another of its calls, and to
    /// that of a call further out.
    pub(super) fn returns(&self, random: &mut Random, spot: Spot) -> Vec<Case> {
        let returned = self.calls.iter().filter(|call| call.returned.is_some());
        let returned: Vec<&CallStep> = returned.collect();
        let Some(number) = spot.number(random, returned.len()) else {
            return Vec::new();
        };
        let call = returned[number - 1];
        let at = call.returned.expect("one of those that have one");
        let sorts = [
            ("10 at a return to another vertex", self.beside(call)),
            ("10 at a return by another call", self.backs(call)),
            ("10 at a return further out", self.further_out(call, at)),
        ];
        let cases = sorts.into_iter().filter_map(|(name, mut wrong)| {
            wrong.retain(|vertex| *vertex != call.back);
            let listed = *wrong.get(random.below(wrong.len().max(1)))?;
            Some(self.refused(name, (self.inside(at), spot), at, listed))
        });
        cases.collect()
    }

    /// The statements of a call's caller.
    fn beside(&self, call: &CallStep) -> Vec<i32> {
        let caller = self.program.procedure_of(call.statement);
        let statements = 1..=self.program.statements();
        let own = statements.filter(|vertex| self.program.procedure_of(*vertex) == caller);
        own.map(|vertex| vertex as i32).collect()
    }

    /// The return points of its caller's calls.
    fn backs(&self, call: &CallStep) -> Vec<i32> {
        let statements = self.beside(call).into_iter();
        let statements = statements.map(|vertex| vertex as usize);
        let calls = statements.filter(|vertex| self.program.0[ProgramWords::kind(*vertex)] == 5);
        calls.map(|vertex| self.program.row(vertex)[1]).collect()
    }

    /// Those of the calls that it is in, which are open where it returns.
    fn further_out(&self, call: &CallStep, at: usize) -> Vec<i32> {
        let before = self.calls.iter().filter(|other| other.at < call.at);
        let open = before.filter(|other| other.returned.is_none_or(|end| end > at));
        open.map(|other| other.back).collect()
    }

    /// 14 at a call that takes entry values and finds too few.
    pub(super) fn entry_values(
        &self,
        random: &mut Random,
        trace: &Trace,
        inside: Inside,
        spot: Spot,
    ) -> Option<Case> {
        let takes = trace.takes.iter().enumerate();
        let takes = takes.filter(|(_, (at, _))| self.inside(*at) == inside);
        let takes: Vec<usize> = takes.map(|(number, _)| number).collect();
        let number = self.one(random, &takes, spot)?;
        let (at, needed) = trace.takes[number];
        let before: usize = trace.takes[..number].iter().map(|(_, taken)| taken).sum();
        let mut words = self.words.clone();
        words.entry_values.truncate(before + random.below(needed));
        Some(Case {
            name: "14 at a call",
            inside,
            spot,
            answer: Answer::refused(14, words.vertex_place(at) as u64),
            pair: Pair {
                program: self.program.0.to_vec(),
                witness: words.words(),
            },
        })
    }
}
