//! Runs of built programs, for samples and for traces.

use crate::build::{Expression, Next, Operator, Program, Statement};
use crate::random::Random;

const START_LIMIT: i32 = 1_000_000_000;

/// A run's state: the globals now and the open calls, the last one on top.
#[derive(Clone, Debug)]
pub struct Run<'p> {
    program: &'p Program,
    pub globals: Vec<i64>,
    pub calls: Vec<OpenCall>,
    /// What the calls so far found in their other locals, in the order of the calls.
    pub entry_values: Vec<i32>,
}

#[derive(Clone, Debug)]
pub struct OpenCall {
    pub procedure: usize,
    pub at: At,
    pub locals: Vec<i64>,
    pub entry: Vec<i64>,
    /// The globals when it made the call that it waits for.
    pub set_aside: Option<Vec<i64>>,
}

#[derive(Clone, Copy, Debug, PartialEq, Eq)]
pub enum At {
    Vertex(Next),
    /// Vertex 0.
    Failed,
}

impl<'p> Run<'p> {
    /// `starts` are the globals and all of main's locals.
    pub fn start(program: &'p Program, starts: &[i64]) -> Run<'p> {
        let (globals, locals) = starts.split_at(program.globals);
        let mut run = Run {
            program,
            globals: globals.to_vec(),
            calls: Vec::new(),
            entry_values: Vec::new(),
        };
        run.open(0, locals.to_vec());
        run
    }

    pub fn top(&self) -> &OpenCall {
        self.calls.last().expect("main's call stays open")
    }

    fn top_mut(&mut self) -> &mut OpenCall {
        self.calls.last_mut().expect("main's call stays open")
    }

    /// The globals and the top call's locals.
    pub fn values(&self) -> Vec<i64> {
        self.values_of(self.top())
    }

    /// The values of an open call: the globals now, or those set aside while it waits, and its
    /// locals.
    pub fn values_of(&self, call: &OpenCall) -> Vec<i64> {
        let globals = call.set_aside.as_ref().unwrap_or(&self.globals);
        [&globals[..], &call.locals].concat()
    }

    pub fn vertex(&self) -> usize {
        self.vertex_of(self.top())
    }

    /// Where an open call stands.
    pub fn vertex_of(&self, call: &OpenCall) -> usize {
        match call.at {
            At::Vertex(next) => self.program.vertex(call.procedure, next),
            At::Failed => 0,
        }
    }

    pub fn statement(&self) -> Option<&'p Statement> {
        match self.top().at {
            At::Vertex(Next::Statement(index)) => {
                Some(&self.program.procedures[self.top().procedure].statements[index])
            }
            _ => None,
        }
    }

    /// One step, with a random side at `?` and random values in a callee's other locals; false where
    /// there is no step.
    pub fn step(&mut self, random: &mut Random) -> bool {
        self.step_by(random, |random| random.chance(50))
    }

    /// Whether it stands at a `?`.
    pub fn is_at_choice(&self) -> bool {
        let statement = self.statement();
        matches!(statement, Some(Statement::Branch { operator, .. }) if *operator == Operator::Any)
    }

    /// The same with a side that is chosen at `?`.
    pub fn step_by(&mut self, random: &mut Random, side: impl FnOnce(&mut Random) -> bool) -> bool {
        let Some(statement) = self.statement() else {
            return self.top().at == At::Vertex(Next::Exit) && self.exit();
        };
        let at = match statement {
            Statement::Skip { next } => At::Vertex(*next),
            Statement::Assign {
                next,
                column,
                expression,
            } => {
                let value = self.value(expression);
                self.set(*column, value);
                At::Vertex(*next)
            }
            Statement::Branch {
                on_true,
                on_false,
                operator,
                expression,
            } => {
                let decided = operator.decides(self.value(expression));
                let is_true = decided.unwrap_or_else(|| side(random));
                At::Vertex(if is_true { *on_true } else { *on_false })
            }
            Statement::Assert {
                next,
                operator,
                expression,
            } => match operator.decides(self.value(expression)) {
                Some(false) => At::Failed,
                _ => At::Vertex(*next),
            },
            Statement::Call {
                procedure, actuals, ..
            } => {
                let parameters = actuals.iter().map(|actual| self.value(actual)).collect();
                self.call(random, *procedure, parameters);
                return true;
            }
        };
        self.top_mut().at = at;
        true
    }

    fn call(&mut self, random: &mut Random, procedure: usize, parameters: Vec<i64>) {
        let mut locals = parameters;
        for _ in locals.len()..self.program.procedures[procedure].locals {
            let value = other_local(random);
            locals.push(value.into());
            self.entry_values.push(value);
        }
        let globals = self.globals.clone();
        self.top_mut().set_aside = Some(globals);
        self.open(procedure, locals);
    }

    fn open(&mut self, procedure: usize, locals: Vec<i64>) {
        self.calls.push(OpenCall {
            procedure,
            at: At::Vertex(Next::Statement(0)),
            entry: [&self.globals[..], &locals].concat(),
            locals,
            set_aside: None,
        });
    }

    fn exit(&mut self) -> bool {
        if self.calls.len() == 1 {
            return false;
        }
        self.calls.pop();
        if let Some(Statement::Call { back, .. }) = self.statement() {
            let waiting = self.top_mut();
            waiting.at = At::Vertex(*back);
            waiting.set_aside = None;
        }
        true
    }

    pub(super) fn set(&mut self, column: usize, value: i64) {
        let globals = self.globals.len();
        if column < globals {
            self.globals[column] = value;
        } else {
            self.top_mut().locals[column - globals] = value;
        }
    }

    pub(super) fn value(&self, expression: &Expression) -> i64 {
        let values = self.values();
        let terms = expression.coefficients.iter().zip(&values);
        let sum: i64 = terms
            .map(|(factor, value)| i64::from(*factor) * value)
            .sum();
        expression.constant + sum
    }
}

/// What an other local may hold at an entry: 0, something small, something far, or a limit.
pub fn other_local(random: &mut Random) -> i32 {
    match random.below(8) {
        0 => 0,
        1..=4 => random.between(-9, 9),
        5 => random.between(-10_000, 10_000),
        6 => random.between(-1_000_000, 1_000_000),
        _ => *random.pick(&[START_LIMIT, -START_LIMIT, START_LIMIT - 1]),
    }
}
