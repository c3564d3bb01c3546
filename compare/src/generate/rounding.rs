//! Certificates that are accepted only because variables are whole numbers, at an entailment of
//! each kind, and the same with a target that is one tighter or a sum that is one too low.
//!
//! No step leads to the statement or exit whose entailment it is, so its path edge may say
//! anything: its rows are chosen for the sums that they give.

use super::constants::LARGEST;
use super::{judged, Pair};
use crate::build::{
    self, Attempt, Certificate, Combination, Disjunct, Edges, Expression, Goal, Next, Operator,
    Procedure, Program, Row, Sharing, Statement, System, Witness,
};
use crate::checker::Answer;
use crate::random::Random;

const COEFFICIENT: i64 = 1_000;

/// The entailments that have premises. At the start the sum is 0, and there is nothing to round.
#[derive(Clone, Copy, Debug, PartialEq, Eq, PartialOrd, Ord)]
pub enum Kind {
    Skip,
    Assign,
    BranchTrue,
    BranchFalse,
    Assert,
    CallEntry,
    Return,
    Exit,
}

impl Kind {
    pub const ALL: [Kind; 8] = [
        Kind::Skip,
        Kind::Assign,
        Kind::BranchTrue,
        Kind::BranchFalse,
        Kind::Assert,
        Kind::CallEntry,
        Kind::Return,
        Kind::Exit,
    ];
}

/// An accepted certificate, one of whose sums is what the tests are about.
#[derive(Clone, Debug)]
pub struct Rounded {
    pub kind: Kind,
    pub program: Program,
    pub certificate: Certificate,
    /// The entailment, counted from 0.
    pub entailment: usize,
    pub sum: Sum,
    /// The row: its entry, its disjunct and its number there.
    target: (Goal, usize, usize),
    /// The premise that has multiplier 1 in this sum and 0 in the others: its vertex and number.
    premise: (usize, usize),
}

/// What a weighted sum is to be.
#[derive(Clone, Copy, Debug, PartialEq, Eq)]
pub struct Sum {
    pub divisor: i32,
    /// By how much its constant is above divisor × (row's constant − 1), from 1 to the divisor.
    /// Below the divisor only rounding accepts it.
    pub above: i32,
}

impl Sum {
    /// The sum's constant for a row's.
    fn constant(self, row: i64) -> i64 {
        i64::from(self.divisor) * (row - 1) + i64::from(self.above)
    }

    /// A sum for another row, which doesn't need rounding if this one doesn't.
    fn another(self, random: &mut Random) -> Sum {
        let divisor = *random.pick(&[1, 2, 3, 10, 1_000]);
        let above = match self.above == self.divisor {
            true => divisor,
            false => random.between(1, divisor),
        };
        Sum { divisor, above }
    }
}

/// A certificate that only rounding accepts.
pub fn rounded(random: &mut Random) -> Rounded {
    let divisor = match random.below(8) {
        0 | 1 => 2,
        2 => 7,
        3 => 999,
        4 => 1_000,
        5 => random.between(2, 12),
        _ => random.between(2, 1_000),
    };
    let above = match random.below(3) {
        0 => 1,
        1 => divisor - 1,
        _ => random.between(1, divisor - 1),
    };
    with_sum(random, Sum { divisor, above })
}

/// One whose sums are as low as they may be without rounding; with divisor 1 there is no other.
pub fn exact(random: &mut Random) -> Rounded {
    let divisor = *random.pick(&[1, 1, 1, 2, 7, 999, 1_000]);
    let sum = Sum {
        divisor,
        above: divisor,
    };
    with_sum(random, sum)
}

fn with_sum(random: &mut Random, sum: Sum) -> Rounded {
    loop {
        let kind = *random.pick(&Kind::ALL);
        if let Some(rounded) = Scene::new(random, kind).rounded(random, sum) {
            return rounded;
        }
    }
}

impl Rounded {
    /// The row's constant, as it stands in its entry.
    pub fn claimed(&self) -> i64 {
        let (goal, disjunct, row) = self.target;
        let edges = &self.certificate.edges;
        let disjuncts = match goal {
            Goal::Path(vertex) => &edges.path[vertex - 1],
            Goal::Summary(procedure) => &edges.summaries[procedure],
        };
        disjuncts[disjunct][row].constant
    }

    pub fn accepted(&self, sharing: Sharing) -> (Pair, Answer) {
        judged(&self.program, &self.certificate, None, sharing)
    }

    /// The row claims one more than the sum gives it.
    pub fn tighter(&self, sharing: Sharing) -> (Pair, Answer) {
        let mut certificate = self.certificate.clone();
        let (goal, disjunct, row) = self.target;
        disjuncts_of(&mut certificate.edges, goal)[disjunct][row].constant += 1;
        self.refused(&certificate, sharing)
    }

    /// The sum's constant is divisor × (row's constant − 1), one too low.
    pub fn too_low(&self, sharing: Sharing) -> (Pair, Answer) {
        let mut certificate = self.certificate.clone();
        let (vertex, row) = self.premise;
        certificate.edges.path[vertex - 1][0][row].constant -= i64::from(self.sum.above);
        self.refused(&certificate, sharing)
    }

    fn refused(&self, certificate: &Certificate, sharing: Sharing) -> (Pair, Answer) {
        refused(&self.program, certificate, self.entailment, sharing)
    }
}

/// A contradiction of constant 1, and the same with constant 0, which is none: it isn't rounded.
pub fn contradictions(random: &mut Random, sharing: Sharing) -> [(Pair, Answer); 2] {
    loop {
        let kind = *random.pick(&Kind::ALL);
        if let Some(pairs) = Scene::new(random, kind).contradictions(random, sharing) {
            return pairs;
        }
    }
}

/// A row of vertex 1 that is 0 ≤ 0 at the start, and the same one tighter, 1 ≤ 0.
pub fn starts(random: &mut Random) -> [(Pair, Answer); 2] {
    let columns = 1 + random.below(3);
    let locals = random.below(columns + 1);
    let weight = random.between(1, 1_000);
    let column = random.below(columns);
    let divisor = *random.pick(&[1, 2, 7, 999, 1_000]);
    let row = |constant| {
        let terms = [(column, -weight), (columns + column, weight)];
        Row::sum(2 * columns, constant, &terms)
    };
    let main = Procedure {
        locals,
        parameters: random.below(locals + 1),
        statements: vec![skip(0)],
    };
    let program = Program::new(columns - locals, vec![main]).lined(random);
    [0, 1].map(|constant| {
        let edges = Edges {
            path: vec![vec![vec![row(constant)]], Vec::new()],
            summaries: vec![Vec::new()],
        };
        let by_row = |divisor, multipliers| Witness::Disjunct {
            number: 1,
            rows: vec![Combination {
                divisor,
                multipliers,
            }],
        };
        let witnesses = vec![by_row(divisor, Vec::new()), by_row(1, vec![1])];
        let certificate = Certificate { edges, witnesses };
        match constant {
            0 => (
                pair(&program, &certificate, Sharing::Apart),
                Answer::Safe(2),
            ),
            _ => refused(&program, &certificate, 0, Sharing::Apart),
        }
    })
}

fn pair(program: &Program, certificate: &Certificate, sharing: Sharing) -> Pair {
    Pair {
        program: program.words(sharing),
        witness: certificate.words(sharing),
    }
}

/// The pair, refused with 7 at the entailment's first word.
fn refused(
    program: &Program,
    certificate: &Certificate,
    entailment: usize,
    sharing: Sharing,
) -> (Pair, Answer) {
    judged(program, certificate, Some(entailment), sharing)
}

fn disjuncts_of(edges: &mut Edges, goal: Goal) -> &mut Vec<Disjunct> {
    match goal {
        Goal::Path(vertex) => &mut edges.path[vertex - 1],
        Goal::Summary(procedure) => &mut edges.summaries[procedure],
    }
}

fn skip(to: usize) -> Statement {
    Statement::Skip {
        next: Next::Statement(to),
    }
}

/// The source of a scene that is a statement, its successor, and the callee's first vertex.
const SOURCE: usize = 2;
const NEXT: usize = 3;
const CALLEE: usize = 4;

/// Main with the statements 1 (a skip that is its own successor), 2 (the source, unless it is an
/// exit) and 3 (a skip like 1), and a procedure with one such skip.
struct Scene {
    kind: Kind,
    program: Program,
    source: usize,
    goal: Goal,
    /// Rows of the source that show that its assertion doesn't fail.
    known: Disjunct,
    /// Whether another entailment leads from the source to the goal.
    is_split: bool,
}

impl Scene {
    fn new(random: &mut Random, kind: Kind) -> Scene {
        let globals = 1 + random.below(2);
        let mut variables = || {
            let locals = random.below(3);
            (locals, random.below(locals + 1))
        };
        let [main, callee] = [variables(), variables()];
        let columns = globals + main.0;
        let operator = match kind {
            Kind::Assert => *random.pick(&Operator::ALL[1..]),
            _ => *random.pick(&Operator::ALL),
        };
        let condition = match operator {
            Operator::Any => Expression::constant(columns, 0),
            _ => varying(random, columns, 9, 1_000),
        };
        let (stay, next) = (Next::Statement(0), Next::Statement(NEXT - 1));
        let source = match kind {
            Kind::Skip | Kind::Exit => skip(NEXT - 1),
            Kind::Assign => {
                let expression = varying(random, columns, 2, 1_000);
                Statement::assign(next, random.below(columns), expression)
            }
            Kind::BranchTrue => Statement::branch([next, stay], operator, condition.clone()),
            Kind::BranchFalse => Statement::branch([stay, next], operator, condition.clone()),
            Kind::Assert => Statement::assert(next, operator, condition.clone()),
            Kind::CallEntry | Kind::Return => {
                let actuals = (0..callee.1).map(|_| varying(random, columns, 2, 1_000));
                Statement::call(next, 1, actuals.collect())
            }
        };
        let body = |(locals, parameters), statements| Procedure {
            locals,
            parameters,
            statements,
        };
        let program = Program::new(
            globals,
            vec![
                body(main, vec![skip(0), source, skip(NEXT - 1)]),
                body(callee, vec![skip(0)]),
            ],
        )
        .lined(random);
        let leaving = random.below(2);
        let (source, goal) = match kind {
            Kind::Exit => (program.exit(leaving), Goal::Summary(leaving)),
            Kind::CallEntry => (SOURCE, Goal::Path(CALLEE)),
            _ => (SOURCE, Goal::Path(NEXT)),
        };
        let known = match kind {
            Kind::Assert => known(operator, &condition),
            _ => Disjunct::new(),
        };
        let is_split = match kind {
            Kind::BranchTrue | Kind::Assert => operator == Operator::NotEqual,
            Kind::BranchFalse => operator == Operator::Equal,
            _ => false,
        };
        Scene {
            kind,
            program,
            source,
            goal,
            known,
            is_split,
        }
    }

    /// Columns of the source's rows.
    fn source_columns(&self) -> usize {
        let procedure = match self.goal {
            Goal::Summary(procedure) => procedure,
            Goal::Path(_) => 0,
        };
        2 * self.program.columns(procedure)
    }

    /// Columns of the goal's rows.
    fn goal_columns(&self) -> usize {
        match self.goal {
            Goal::Summary(procedure) => self.summary_columns(procedure),
            Goal::Path(CALLEE) => 2 * self.program.columns(1),
            Goal::Path(_) => 2 * self.program.columns(0),
        }
    }

    fn summary_columns(&self, procedure: usize) -> usize {
        2 * self.program.globals + self.program.procedures[procedure].parameters
    }

    /// No premise speaks of the callee's other locals where a call begins, and they are the same at
    /// entry and now, so that they have to cancel in a row.
    fn balance(&self, row: &mut Row) {
        if self.kind == Kind::CallEntry {
            let columns = self.program.columns(1);
            let known = self.program.globals + self.program.procedures[1].parameters;
            for column in known..columns {
                row.coefficients[column] = -row.coefficients[columns + column];
            }
            if row.is_constant() {
                row.coefficients[columns] = 1;
            }
        }
    }

    /// Edges with these rows at the source and these disjuncts at the goal; at a return also with
    /// the rows of the callee's summary edge.
    fn edges(&self, source: &Disjunct, goals: &[Disjunct], summary: &Disjunct) -> Edges {
        let mut edges = Edges {
            path: vec![Vec::new(); CALLEE + 2],
            summaries: vec![Vec::new(); 2],
        };
        edges.path[0].push(Disjunct::new());
        edges.path[self.source - 1].push(source.clone());
        if self.kind == Kind::Return {
            edges.path[CALLEE - 1].push(Disjunct::new());
            edges.summaries[1].push(summary.clone());
        }
        disjuncts_of(&mut edges, self.goal).extend_from_slice(goals);
        edges
    }

    /// The systems of these edges, and which of them leads from the source to the goal.
    fn systems(&self, random: &mut Random, edges: &Edges) -> (Vec<System>, usize) {
        let systems = build::systems(&self.program, edges).expect("the words have their form");
        let leads = |at: &usize| {
            let system: &System = &systems[*at];
            system.source == self.source && system.goal == self.goal
        };
        let leading: Vec<usize> = (0..systems.len()).filter(leads).collect();
        let chosen = *random.pick(&leading);
        (systems, chosen)
    }

    /// The goal's disjuncts, some of them without rows, and which is the given one.
    fn goals(&self, random: &mut Random, disjunct: Disjunct) -> (Vec<Disjunct>, usize) {
        let others = usize::from(self.is_split) + random.below(2);
        let mut goals = vec![Disjunct::new(); others];
        let at = random.below(others + 1);
        goals.insert(at, disjunct);
        (goals, at)
    }

    fn rounded(self, random: &mut Random, aimed: Sum) -> Option<Rounded> {
        let row = random.below(3);
        let mut sums: Vec<Sum> = (0..row + 1 + random.below(2))
            .map(|_| aimed.another(random))
            .collect();
        sums[row] = aimed;
        let mut draft = Draft::new(random, &self, &sums);
        let (mut goals, disjunct) = self.goals(random, draft.targets.clone());
        let edges = self.edges(&draft.source, &goals, &draft.summary);
        let (systems, entailment) = self.systems(random, &edges);
        let system = &systems[entailment];
        let combinations = system.goal_rows(disjunct).into_iter().zip(sums).enumerate();
        let combinations: Vec<Combination> = combinations
            .map(|(at, (goal, sum))| draft.fit(random, system, at, goal, sum))
            .collect::<Option<_>>()?;

        let premise = (self.source, draft.first + row);
        goals[disjunct] = draft.targets;
        let edges = self.edges(&draft.source, &goals, &draft.summary);
        let rows = edges.path.iter().chain(&edges.summaries).flatten();
        if rows.flatten().any(Row::is_constant) {
            return None;
        }
        let systems = build::systems(&self.program, &edges).expect("the words have their form");
        let constant = systems[entailment].sum(&combinations[row].multipliers)[0];
        let claimed = systems[entailment].goal_rows(disjunct)[row][0];
        assert_eq!(constant, aimed.constant(claimed));
        let mut witnesses = proved(&systems, entailment)?;
        witnesses[entailment] = Witness::Disjunct {
            number: disjunct + 1,
            rows: combinations,
        };
        Some(Rounded {
            kind: self.kind,
            program: self.program,
            certificate: Certificate { edges, witnesses },
            entailment,
            sum: aimed,
            target: (self.goal, disjunct, row),
            premise,
        })
    }

    fn contradictions(self, random: &mut Random, sharing: Sharing) -> Option<[(Pair, Answer); 2]> {
        let columns = self.source_columns();
        let mut source = [self.known.clone(), others(random, columns)].concat();
        let first = source.len();
        let row = varying(random, columns, 1_000, LARGEST - 1);
        source.extend([opposite(&row), row]);
        source[first].constant += 1;
        let target = varying(random, self.goal_columns(), 9, 1_000);
        let (goals, _) = self.goals(random, vec![target]);
        let summary = vec![varying(random, self.summary_columns(1), 3, 1_000)];
        let mut edges = self.edges(&source, &goals, &summary);
        let (systems, entailment) = self.systems(random, &edges);
        let mut multipliers = vec![0; systems[entailment].premise_count()];
        multipliers[first..first + 2].fill(1);
        let mut witnesses = proved(&systems, entailment)?;
        witnesses[entailment] = Witness::Contradiction(multipliers);
        let certificate = Certificate {
            edges: edges.clone(),
            witnesses: witnesses.clone(),
        };
        let count = certificate.witnesses.len() as u64;
        let accepted = pair(&self.program, &certificate, sharing);
        edges.path[self.source - 1][0][first].constant -= 1;
        let none = Certificate { edges, witnesses };
        Some([
            (accepted, Answer::Safe(count)),
            refused(&self.program, &none, entailment, sharing),
        ])
    }
}

/// The rows of a scene while they are chosen. For each row of the target the source has a row of its
/// own, from `first` on, and so has the summary edge at a return, from 1 on. They take the sum to
/// where it is to be, whatever the other premises are.
struct Draft<'s> {
    scene: &'s Scene,
    first: usize,
    source: Disjunct,
    summary: Disjunct,
    targets: Disjunct,
}

impl<'s> Draft<'s> {
    fn new(random: &mut Random, scene: &'s Scene, sums: &[Sum]) -> Draft<'s> {
        let targets = sums.iter().map(|sum| {
            let largest = (1_000 / sum.divisor).min(9);
            let mut row = varying(random, scene.goal_columns(), largest, 0);
            scene.balance(&mut row);
            row
        });
        let targets: Disjunct = targets.collect();
        let columns = scene.source_columns();
        let mut source = [scene.known.clone(), others(random, columns)].concat();
        let first = source.len();
        source.resize(first + sums.len(), Row::column(columns, 0));
        let columns = scene.summary_columns(1);
        let summary = (0..=sums.len()).map(|_| varying(random, columns, 3, 1_000));
        Draft {
            scene,
            first,
            source,
            summary: summary.collect(),
            targets,
        }
    }

    /// Small multipliers, large ones for opposite premises, and of the own rows the one that counts.
    fn multipliers(&self, random: &mut Random, system: &System, at: usize) -> Vec<i32> {
        let mut multipliers = vec![0; system.premise_count()];
        for number in &mut multipliers {
            *number = *random.pick(&[0, 0, 1, 2, 3]);
        }
        for (a, b) in system.opposites() {
            multipliers[a] = random.between(0, 1_000);
            multipliers[b] = multipliers[a];
        }
        let last = multipliers.len() - self.targets.len();
        for other in 0..self.targets.len() {
            multipliers[self.first + other] = i32::from(other == at);
            if self.scene.kind == Kind::Return {
                multipliers[last + other] = i32::from(other == at);
            }
        }
        multipliers
    }

    /// Chooses the own rows and the constant of the target's row so that the sum is as it is to be,
    /// if the limits allow it.
    fn fit(
        &mut self,
        random: &mut Random,
        system: &System,
        at: usize,
        goal: &[i64],
        sum: Sum,
    ) -> Option<Combination> {
        let multipliers = self.multipliers(random, system, at);
        let before = system.sum(&multipliers);
        let divisor = i64::from(sum.divisor);
        let lacking: Vec<i64> = (before[1..].iter().zip(&goal[1..]))
            .map(|(cell, wanted)| divisor * wanted - cell)
            .collect();
        let own = &mut self.source[self.first + at];
        let (columns, fresh) = lacking.split_at(own.coefficients.len());
        add(&mut own.coefficients, columns)?;
        if self.scene.kind == Kind::Return {
            let exit_globals = self.scene.summary_columns(1) - fresh.len();
            let row = &mut self.summary[1 + at];
            add(&mut row.coefficients[exit_globals..], fresh)?;
        }

        let largest = *random.pick(&[50, LARGEST]);
        let constant = random.number(-largest, largest);
        let above = before[0] + constant - i64::from(sum.above);
        let constant = constant - above.rem_euclid(divisor);
        let claimed = above.div_euclid(divisor) + 1 - goal[0];
        // One tighter, and one too low, are within the limits too.
        within(claimed + 1, LARGEST)?;
        within(constant - i64::from(sum.above), LARGEST)?;
        own.constant = within(constant, LARGEST)?;
        self.targets[at].constant = within(claimed, LARGEST)?;
        Some(Combination {
            divisor: sum.divisor,
            multipliers,
        })
    }
}

/// Witnesses for all entailments but one, whose place is taken by any. A disjunct without rows goes
/// first, so that no other entailment from the source depends on the rows.
fn proved(systems: &[System], but: usize) -> Option<Vec<Witness>> {
    let witness = |system: &System| {
        let mut disjuncts = 0..system.disjunct_count();
        match disjuncts.find(|&at| system.goal_rows(at).is_empty()) {
            Some(disjunct) => Some(Witness::Disjunct {
                number: disjunct + 1,
                rows: Vec::new(),
            }),
            None => match system.prove() {
                Attempt::Proved(witness) => Some(witness),
                _ => None,
            },
        }
    };
    let systems = systems.iter().enumerate();
    systems
        .map(|(at, system)| match at == but {
            true => Some(Witness::Contradiction(Vec::new())),
            false => witness(system),
        })
        .collect()
}

/// Up to two rows, and at times a pair of opposite ones, whose multipliers may be as large as any.
fn others(random: &mut Random, columns: usize) -> Disjunct {
    let mut rows: Disjunct = (0..random.below(3))
        .map(|_| varying(random, columns, 9, LARGEST))
        .collect();
    if random.chance(40) {
        let row = varying(random, columns, 1_000, LARGEST);
        rows.extend([opposite(&row), row]);
    }
    rows
}

/// Rows that contradict each case in which `condition operator 0` is false now.
fn known(operator: Operator, condition: &Expression) -> Disjunct {
    let entry = vec![0; condition.coefficients.len()];
    let condition = Row {
        constant: condition.constant,
        coefficients: [&entry[..], &condition.coefficients].concat(),
    };
    let opposite = opposite(&condition);
    let more = |row: &Row| Row {
        constant: row.constant + 1,
        ..row.clone()
    };
    match operator {
        Operator::Any => Vec::new(),
        Operator::Less | Operator::NotEqual => vec![more(&condition)],
        Operator::Greater => vec![more(&opposite)],
        Operator::AtMost => vec![condition],
        Operator::AtLeast => vec![opposite],
        Operator::Equal => vec![condition, opposite],
    }
}

fn opposite(row: &Row) -> Row {
    Row {
        constant: -row.constant,
        coefficients: row.coefficients.iter().map(|cell| -cell).collect(),
    }
}

/// An expression or a row of one or two columns, with numbers up to these.
fn varying(random: &mut Random, columns: usize, coefficient: i32, constant: i64) -> Expression {
    let mut row = Expression::constant(columns, random.number(-constant, constant));
    for _ in 0..1 + random.below(2) {
        let cell = *random.pick(&[-1, 1]) * random.between(1, coefficient);
        row.coefficients[random.below(columns)] = cell;
    }
    row
}

/// Adds to coefficients, if none gets beyond the limit.
fn add(coefficients: &mut [i32], added: &[i64]) -> Option<()> {
    for (cell, added) in coefficients.iter_mut().zip(added) {
        *cell = within(i64::from(*cell) + added, COEFFICIENT)? as i32;
    }
    Some(())
}

/// The number, if it isn't beyond the limit.
fn within(number: i64, limit: i64) -> Option<i64> {
    (number.abs() <= limit).then_some(number)
}
