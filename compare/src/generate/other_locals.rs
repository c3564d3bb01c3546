//! Certificates about what other locals hold at an entry: at main's start, or where a call begins.
//! They may hold anything there, and each is the same at entry and now.

use super::constants::LARGEST;
use super::Pair;
use crate::build::{
    systems, Attempt, Certificate, Combination, Disjunct, Edges, Expression, Next, Operator,
    Procedure, Program, Row, Sharing, Statement, Witness,
};
use crate::checker::Answer;
use crate::random::Random;

/// Whose entry it is.
#[derive(Clone, Copy, Debug, PartialEq, Eq, PartialOrd, Ord)]
pub enum Entry {
    Start,
    Call,
    /// A call of a procedure by one that has a local of the same number, which is 0.
    CallBesideZero,
}

impl Entry {
    pub const ALL: [Entry; 3] = [Entry::Start, Entry::Call, Entry::CallBesideZero];
}

/// An assertion about an other local that holds if it is 0.
pub struct Zero {
    pub entry: Entry,
    /// The certificate says so right after the entry: refused with 7 at the entailment to there.
    pub unassigned: (Pair, Answer),
    /// The same program with an assignment first, and a certificate that says so behind it.
    pub assigned: (Pair, Answer),
}

pub fn zero(random: &mut Random) -> Zero {
    let entry = *random.pick(&Entry::ALL);
    let claim = Claim::new(random, entry);
    Zero {
        entry,
        unassigned: claim.unassigned(random),
        assigned: claim.assigned(),
    }
}

/// A procedure with an other local, and what is said of it.
struct Claim {
    entry: Entry,
    globals: usize,
    locals: usize,
    parameters: usize,
    /// The local's column.
    column: usize,
    operator: Operator,
    /// Whether the rows are about the value at entry, and say that now is the same.
    at_entry: bool,
}

impl Claim {
    fn new(random: &mut Random, entry: Entry) -> Claim {
        let globals = random.below(4);
        let locals = 1 + random.below(8);
        let parameters = random.below(locals);
        let local = parameters + random.below(locals - parameters);
        Claim {
            entry,
            globals,
            locals,
            parameters,
            column: globals + local,
            operator: *random.pick(&[Operator::AtMost, Operator::AtLeast, Operator::Equal]),
            at_entry: random.chance(40),
        }
    }

    fn columns(&self) -> usize {
        self.globals + self.locals
    }

    /// The local, now or at entry, is at most 0, at least 0, or both.
    fn rows(&self, column: usize) -> Disjunct {
        let signs: &[i32] = match self.operator {
            Operator::AtMost => &[1],
            Operator::AtLeast => &[-1],
            _ => &[1, -1],
        };
        let rows = signs.iter();
        rows.map(|&sign| Row::sum(2 * self.columns(), 0, &[(column, sign)]))
            .collect()
    }

    fn now(&self) -> Disjunct {
        self.rows(self.columns() + self.column)
    }

    /// The procedure, which asserts what is said of the local, with a 0 in it first or not.
    fn body(&self, is_assigned: bool) -> Procedure {
        let columns = self.columns();
        let condition = Expression::column(columns, self.column);
        let mut statements = vec![Statement::assert(Next::Exit, self.operator, condition)];
        if is_assigned {
            let zero = Expression::constant(columns, 0);
            let assign = Statement::assign(Next::Statement(1), self.column, zero);
            statements.insert(0, assign);
        }
        Procedure {
            locals: self.locals,
            parameters: self.parameters,
            statements,
        }
    }

    /// Main, which calls the procedure, or puts 0 into its own local of that number and then calls.
    fn caller(&self) -> Option<Procedure> {
        let call = |locals| {
            let actual = Expression::constant(self.globals + locals, 0);
            Statement::call(Next::Exit, 1, vec![actual; self.parameters])
        };
        match self.entry {
            Entry::Start => None,
            Entry::Call => Some(Procedure {
                locals: 0,
                parameters: 0,
                statements: vec![call(0)],
            }),
            Entry::CallBesideZero => {
                let zero = Expression::constant(self.columns(), 0);
                let assign = Statement::assign(Next::Statement(1), self.column, zero);
                Some(Procedure {
                    locals: self.locals,
                    parameters: 0,
                    statements: vec![assign, call(self.locals)],
                })
            }
        }
    }

    /// The program, and edges with these disjuncts at the procedure's statements.
    fn program(&self, is_assigned: bool, own: Vec<Disjunct>) -> (Program, Edges) {
        let caller = self.caller();
        let mut path: Vec<Vec<Disjunct>> = match self.entry {
            Entry::Start => Vec::new(),
            Entry::Call => vec![anything()],
            Entry::CallBesideZero => vec![anything(), vec![self.now()]],
        };
        let procedures: Vec<Procedure> =
            caller.into_iter().chain([self.body(is_assigned)]).collect();
        path.extend(own.into_iter().map(|disjunct| vec![disjunct]));
        path.extend(procedures.iter().map(|_| anything()));
        let edges = Edges {
            path,
            summaries: procedures.iter().map(|_| anything()).collect(),
        };
        let program = Program::new(self.globals, procedures);
        (program, edges)
    }

    fn assigned(&self) -> (Pair, Answer) {
        let (program, edges) = self.program(true, vec![Disjunct::new(), self.now()]);
        let witnesses = proved(&program, &edges, None);
        let count = witnesses.len() as u64;
        let certificate = Certificate { edges, witnesses };
        (pair(&program, &certificate), Answer::Safe(count))
    }

    fn unassigned(&self, random: &mut Random) -> (Pair, Answer) {
        let mut rows = self.now();
        if self.at_entry {
            rows = self.rows(self.column);
            for sign in [1, -1] {
                let terms = [(self.columns() + self.column, sign), (self.column, -sign)];
                rows.push(Row::sum(2 * self.columns(), 0, &terms));
            }
        }
        let (program, edges) = self.program(false, vec![rows.clone()]);
        // The one that leads to the procedure. Premises are main's about its own local, and would show
        // the rows if it were the callee's.
        let (refused, premises) = match self.entry {
            Entry::Start => (0, 0),
            Entry::Call => (1, 0),
            Entry::CallBesideZero => (2, self.now().len()),
        };
        let mut witnesses = proved(&program, &edges, Some(refused));
        let combinations = (0..rows.len()).map(|row| {
            let divisor = random.between(1, 1_000);
            Combination {
                divisor,
                multipliers: (0..premises)
                    .map(|premise| i32::from(premise == row) * divisor)
                    .collect(),
            }
        });
        witnesses[refused] = Witness::Disjunct {
            number: 1,
            rows: combinations.collect(),
        };
        refused_at(&program, Certificate { edges, witnesses }, refused)
    }
}

fn anything() -> Vec<Disjunct> {
    vec![Disjunct::new()]
}

/// Witnesses for all entailments but one, whose place is taken by any.
fn proved(program: &Program, edges: &Edges, but: Option<usize>) -> Vec<Witness> {
    let systems = systems(program, edges).expect("the words have their form");
    let systems = systems.iter().enumerate();
    systems
        .map(|(at, system)| match (Some(at) == but, system.prove()) {
            (true, _) => Witness::Contradiction(Vec::new()),
            (false, Attempt::Proved(witness)) => witness,
            (false, attempt) => panic!("no witness from {}: {attempt:?}", system.source),
        })
        .collect()
}

fn pair(program: &Program, certificate: &Certificate) -> Pair {
    Pair {
        program: program.words(Sharing::Shared),
        witness: certificate.words(Sharing::Shared),
    }
}

/// The pair, refused with 7 at the entailment's first word.
fn refused_at(program: &Program, certificate: Certificate, entailment: usize) -> (Pair, Answer) {
    let pair = pair(program, &certificate);
    let rest = certificate.witnesses[entailment..].iter();
    let rest: usize = rest.map(|witness| witness.words().len()).sum();
    let place = (pair.witness.len() - rest) as u64;
    (pair, Answer::refused(7, place))
}

/// Edges right after the entries which say that weighted differences between now and entry are at
/// most 0, for all columns; and the same where an other local has another weight at entry than now.
///
/// Main calls f, which doesn't end, or itself.
pub fn tied(random: &mut Random) -> [(Pair, Answer); 2] {
    let globals = random.below(3);
    let procedures = 1 + random.below(2);
    let callee = procedures - 1;
    let shapes: Vec<(usize, usize)> = (0..procedures)
        .map(|_| {
            let locals = 1 + random.below(8);
            (locals, random.below(locals))
        })
        .collect();
    let program = tied_program(random, globals, &shapes);
    let mut path: Vec<Vec<Disjunct>> = vec![Vec::new(); program.statement_count() + procedures];
    let mut witnesses = vec![Witness::Contradiction(Vec::new()); 3 - usize::from(callee == 0)];
    let rows = 1 + random.below(3);
    for (at, (locals, _)) in shapes.iter().enumerate() {
        let columns = globals + locals;
        let disjunct = (0..rows).map(|_| difference(random, columns)).collect();
        path[program.first(at) - 1] = vec![disjunct];
    }
    witnesses[0] = by_rows(random, rows, 0);
    witnesses[1] = by_rows(random, rows, rows);
    if callee == 1 {
        witnesses[2] = same(rows);
    }
    let edges = Edges {
        path,
        summaries: vec![Vec::new(); procedures],
    };
    let mut damaged = edges.clone();
    let at = random.below(procedures);
    let (locals, parameters) = shapes[at];
    let other = globals + parameters + random.below(locals - parameters);
    let column = other + *random.pick(&[0, globals + locals]);
    let row = &mut damaged.path[program.first(at) - 1][0][random.below(rows)];
    let changed = &mut row.coefficients[column];
    *changed += if *changed < 0 { 1 } else { -1 };
    let count = witnesses.len() as u64;
    let [edges, damaged] = [edges, damaged].map(|edges| Certificate {
        edges,
        witnesses: witnesses.clone(),
    });
    [
        (pair(&program, &edges), Answer::Safe(count)),
        refused_at(&program, damaged, at),
    ]
}

fn tied_program(random: &mut Random, globals: usize, shapes: &[(usize, usize)]) -> Program {
    let callee = shapes.len() - 1;
    let columns = globals + shapes[0].0;
    let actuals = (0..shapes[callee].1).map(|_| Expression {
        constant: random.number(-LARGEST, LARGEST),
        coefficients: (0..columns)
            .map(|_| random.between(-1_000, 1_000))
            .collect(),
    });
    let call = Statement::call(Next::Exit, callee, actuals.collect());
    let circle = Statement::Skip {
        next: Next::Statement(0),
    };
    let bodies = shapes.iter().zip([call, circle]);
    let procedures = bodies.map(|(&(locals, parameters), statement)| Procedure {
        locals,
        parameters,
        statements: vec![statement],
    });
    Program::new(globals, procedures.collect()).lined(random)
}

/// Now less entry, weighted, of all columns; not all weights are 0.
fn difference(random: &mut Random, columns: usize) -> Row {
    let constant = *random.pick(&[0, 0, -1, -LARGEST]);
    let mut row = Row::constant(2 * columns, constant);
    for column in 0..columns {
        let weight = *random.pick(&[0, 1, -1, 1_000, -1_000, 7]);
        row.coefficients[column] = -weight;
        row.coefficients[columns + column] = weight;
    }
    if row.is_constant() {
        row.coefficients[columns - 1] = 1;
        row.coefficients[2 * columns - 1] = -1;
    }
    row
}

/// Sums of no premises, with any divisors.
fn by_rows(random: &mut Random, rows: usize, premises: usize) -> Witness {
    Witness::Disjunct {
        number: 1,
        rows: (0..rows)
            .map(|_| Combination {
                divisor: random.between(1, 1_000),
                multipliers: vec![0; premises],
            })
            .collect(),
    }
}

/// Each row by itself.
fn same(rows: usize) -> Witness {
    Witness::Disjunct {
        number: 1,
        rows: (0..rows)
            .map(|row| Combination {
                divisor: 1,
                multipliers: (0..rows).map(|premise| i32::from(premise == row)).collect(),
            })
            .collect(),
    }
}
