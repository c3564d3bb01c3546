//! What each entailment is about, in the order in which their witnesses stand.

use super::edges::names;
use super::listing::at_vertex;
use super::names::{inequality, list, procedure};
use crate::checker::certificate::{Certificate, Target};
use crate::checker::entailment::{cases, Entailment};
use crate::checker::program::{Action, Guard, Operator, Program, Vertex, ERROR};

/// Where an entailment comes from.
#[derive(Clone, Copy, Debug, PartialEq, Eq)]
pub struct Origin {
    /// 0 for the start.
    pub vertex: Vertex,
    /// Counted from 1; 0 for the start.
    pub disjunct: usize,
    pub case: Case,
}

#[derive(Clone, Copy, Debug, PartialEq, Eq)]
pub enum Case {
    Start,
    /// A skip or an assignment.
    Step,
    /// A side of a branch or an assertion, and which of its cases, counted from 0.
    Side {
        holds: bool,
        case: usize,
    },
    CallBegins,
    /// By a disjunct of the callee's summary, counted from 1.
    CallReturns(usize),
    Exit,
}

/// The origins of all entailments.
pub fn origins(program: &Program, certificate: &Certificate) -> Vec<Origin> {
    let mut origins = vec![Origin {
        vertex: ERROR,
        disjunct: 0,
        case: Case::Start,
    }];
    for vertex in 1..=program.vertices() {
        let cases = vertex_cases(program.action(vertex), certificate);
        let disjuncts = certificate.edges(Target::Path(vertex)).len();
        for disjunct in 1..=disjuncts {
            origins.extend(cases.iter().map(|&case| Origin {
                vertex,
                disjunct,
                case,
            }));
        }
    }
    origins
}

fn vertex_cases(action: Option<&Action>, certificate: &Certificate) -> Vec<Case> {
    match action {
        None => vec![Case::Exit],
        Some(Action::Skip { .. } | Action::Assign { .. }) => vec![Case::Step],
        Some(Action::Branch { guard, .. } | Action::Assert { guard, .. }) => {
            let sides = [true, false].into_iter();
            let cases = sides.flat_map(|holds| {
                let count = cases(operator(guard, holds)).len();
                (0..count).map(move |case| Case::Side { holds, case })
            });
            cases.collect()
        }
        Some(Action::Call { procedure, .. }) => {
            let returns = certificate.edges(Target::Summary(*procedure)).len();
            let returns = (1..=returns).map(Case::CallReturns);
            std::iter::once(Case::CallBegins).chain(returns).collect()
        }
    }
}

fn operator(guard: &Guard, holds: bool) -> Operator {
    match holds {
        true => guard.operator,
        false => guard.operator.opposite(),
    }
}

impl Origin {
    /// Where the entailment comes from, for a sentence.
    pub fn text(&self, program: &Program) -> String {
        let source = at_vertex(self.vertex, program.statement(self.vertex), names(program));
        let disjunct = self.disjunct;
        let case = match self.case {
            Case::Start => {
                return "from a run's start, where globals and all of main's locals may be anything"
                    .into()
            }
            Case::Step => "the step".into(),
            Case::Side { holds, .. } => self.side(program, holds),
            Case::CallBegins => "where the call begins".into(),
            Case::CallReturns(summary) => {
                let callee = self.callee(program);
                format!("where the call returns by disjunct {summary} of {callee}'s summary")
            }
            Case::Exit => "where the procedure ends".into(),
        };
        format!("from {source}, its disjunct {disjunct}, {case}")
    }

    fn side(&self, program: &Program, holds: bool) -> String {
        let what = match program.action(self.vertex) {
            Some(Action::Assert { .. }) => "assertion",
            _ => "condition",
        };
        match (self.condition(program), holds) {
            (None, true) => "where ? is taken as true".into(),
            (None, false) => "where ? is taken as false".into(),
            (Some(condition), true) => format!("where the {what} holds: {condition}"),
            (Some(condition), false) => format!("where the {what} fails: {condition}"),
        }
    }

    /// What is known of a branch or an assertion in this case; nothing at a `?`.
    fn condition(&self, program: &Program) -> Option<String> {
        let Case::Side { holds, case } = self.case else {
            return None;
        };
        let Some(Action::Branch { guard, .. } | Action::Assert { guard, .. }) =
            program.action(self.vertex)
        else {
            return None;
        };
        let operator = match (operator(guard, holds), case) {
            (Operator::Any, _) => return None,
            (Operator::NotEqual, 0) => Operator::Less,
            (Operator::NotEqual, _) => Operator::Greater,
            (operator, _) => operator,
        };
        Some(names(program).condition(&guard.expression, operator))
    }

    fn callee(&self, program: &Program) -> String {
        self.called(program).map_or(String::new(), procedure)
    }

    /// The procedure that the vertex calls.
    fn called(&self, program: &Program) -> Option<usize> {
        match program.action(self.vertex) {
            Some(Action::Call { procedure, .. }) => Some(*procedure),
            _ => None,
        }
    }

    /// What the names mean that aren't of the caller's values, where a call begins or returns.
    pub fn legend(&self, program: &Program) -> String {
        match self.case {
            Case::CallReturns(_) => "x is x at the call here, and x@return is x after it.\n".into(),
            Case::CallBegins => {
                let fresh = self.fresh(program);
                let callee = self.callee(program);
                match fresh[..] {
                    [] => String::new(),
                    _ => format!(
                        "x is x at the call here, and x@callee is x of {callee} where the call begins; \
                         {} may be anything.\n",
                        list(&fresh)
                    ),
                }
            }
            _ => String::new(),
        }
    }

    /// The columns where a call begins that aren't the caller's: the callee's other locals.
    fn fresh(&self, program: &Program) -> Vec<String> {
        let names = names(program);
        let others = |callee: usize| {
            let columns = names.when(program.columns(callee), "callee");
            let parameters = program.procedures[callee].parameters;
            columns[program.globals + parameters..].to_vec()
        };
        self.called(program).map_or(Vec::new(), others)
    }

    /// The names of the entailment's columns.
    pub fn columns(&self, program: &Program) -> Vec<String> {
        let names = names(program);
        match self.case {
            Case::Start => names.now(program.columns(0)),
            Case::CallBegins => {
                let own = names.path(self.own_columns(program));
                [own, self.fresh(program)].concat()
            }
            Case::CallReturns(_) => names.back(self.own_columns(program)),
            _ => names.path(self.own_columns(program)),
        }
    }

    fn own_columns(&self, program: &Program) -> usize {
        program.columns(program.procedure_of(self.vertex))
    }

    /// A line for each premise: the inequality, and where it comes from.
    pub fn premises(&self, program: &Program, entailment: &Entailment) -> Vec<String> {
        let columns = self.columns(program);
        let (rows, guards) = entailment.own_premises();
        let matrix = entailment.premises();
        let lines = matrix.rows().enumerate().map(|(at, cells)| {
            let source = if at < rows {
                let (vertex, disjunct) = (self.vertex, self.disjunct);
                format!("row {} of disjunct {disjunct} of vertex {vertex}", at + 1)
            } else if at < rows + guards {
                let condition = self.condition(program).unwrap_or_default();
                format!("because {condition} here")
            } else {
                let (row, callee) = (at + 1 - rows - guards, self.callee(program));
                format!("row {row} of {callee}'s summary, put in for this call")
            };
            format!("{}, {source}", inequality(cells, &columns))
        });
        lines.collect()
    }
}

/// What an entailment leads to.
pub fn target_text(target: Target) -> String {
    match target {
        Target::Path(ERROR) => "vertex 0".into(),
        Target::Path(vertex) => format!("vertex {vertex}"),
        Target::Summary(number) => format!("the summary of {}", procedure(number)),
    }
}
