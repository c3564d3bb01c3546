//! Goals of several disjuncts that are side by side, so that one of them always holds and no sum
//! shows which, at an entailment of each kind.

use super::{tree, Cover, Leaves, Shape, COEFFICIENT};
use crate::build::{
    self, Attempt, Certificate, Disjunct, Edges, Expression, Goal, Next, Operator, Procedure,
    Program, Row, Statement, System, Witness,
};
use crate::generate::constants::LARGEST;
use crate::random::Random;

/// The entailments that there are.
#[derive(Clone, Copy, Debug, PartialEq, Eq, PartialOrd, Ord)]
pub enum Kind {
    Start,
    Skip,
    Assign,
    BranchTrue,
    BranchFalse,
    Assert,
    CallEntry,
    Return,
    Exit,
}

impl Kind {
    pub const ALL: [Kind; 9] = [
        Kind::Start,
        Kind::Skip,
        Kind::Assign,
        Kind::BranchTrue,
        Kind::BranchFalse,
        Kind::Assert,
        Kind::CallEntry,
        Kind::Return,
        Kind::Exit,
    ];
}

/// An accepted certificate with a tree at an entailment of this kind.
#[derive(Clone, Debug)]
pub struct Tree {
    pub kind: Kind,
    pub program: Program,
    pub certificate: Certificate,
    /// The entailment, counted from 0, what it leads to, and whether it is the first that does.
    pub entailment: usize,
    pub goal: Goal,
    pub is_first: bool,
}

impl Tree {
    pub fn into_parts(self) -> (Program, Certificate) {
        (self.program, self.certificate)
    }
}

/// A tree at an entailment of any kind, for two to eight disjuncts.
pub fn covered(random: &mut Random) -> Tree {
    loop {
        let kind = *random.pick(&Kind::ALL);
        let tree = Scene::new(random, kind).and_then(|scene| scene.tree(random));
        if let Some(tree) = tree {
            return tree;
        }
    }
}

/// A tree on one side of a `?` branch, at vertex 1, for two to eight disjuncts.
pub fn chosen(random: &mut Random) -> Tree {
    loop {
        let kind = *random.pick(&[Kind::BranchTrue, Kind::BranchFalse]);
        let scene = Scene::new(random, kind).map(Scene::with_choice);
        if let Some(tree) = scene.and_then(|scene| scene.tree(random)) {
            return tree;
        }
    }
}

/// A sum that branches hold within bounds, and for each of its values, or for parts of them, a
/// disjunct: whether x − 2 h is 0 or 1, for one.
pub fn bounded(random: &mut Random) -> Tree {
    loop {
        if let Some(tree) = within_bounds(random) {
            return tree;
        }
    }
}

/// An assertion that can't fail, or the side of a branch that is never taken, because a multiple of
/// a whole number would have to be no multiple.
pub fn impossible(random: &mut Random) -> Tree {
    loop {
        if let Some(tree) = between_multiples(random) {
            return tree;
        }
    }
}

fn at(statement: usize) -> Next {
    Next::Statement(statement)
}

fn skip(next: Next) -> Statement {
    Statement::Skip { next }
}

/// How many disjuncts a tree of this shape can tell apart.
fn disjuncts(random: &mut Random, shape: Shape) -> usize {
    let most = match shape {
        Shape::Comb(depth) => depth + 1,
        Shape::Full(depth) | Shape::Ragged(depth) => 1 << depth,
    };
    2 + random.below(most.min(8) - 1)
}

/// A program in which a run gets to the source, and what is known there.
struct Scene {
    kind: Kind,
    program: Program,
    /// 0 for the start.
    source: usize,
    goal: Goal,
    /// Rows of the source: columns are as they were at entry.
    known: Disjunct,
    /// Columns of the goal that are equal by that.
    equal: Vec<(usize, usize)>,
}

impl Scene {
    /// Nothing if there are no columns to speak of.
    fn new(random: &mut Random, kind: Kind) -> Option<Scene> {
        let most = *random.pick(&[2, 2, 2, 2, 2, 2, 2, 8]);
        let globals = random.below(most + 1);
        let mut variables = || {
            let locals = random.below(most + 1);
            (locals, random.below(locals + 1))
        };
        let [main, callee] = [variables(), variables()];
        let columns = globals + main.0;
        let in_goal = match kind {
            Kind::CallEntry => globals + callee.0,
            Kind::Exit => globals + main.1,
            _ => columns,
        };
        if columns == 0 || in_goal == 0 {
            return None;
        }
        let assigned = random.below(columns);
        let statements = statements(random, kind, columns, assigned, callee.1);
        let body = |(locals, parameters), statements| Procedure {
            locals,
            parameters,
            statements,
        };
        let mut procedures = vec![body(main, statements)];
        match kind {
            Kind::CallEntry => procedures.push(body(callee, vec![skip(at(0))])),
            Kind::Return => procedures.push(body(callee, vec![skip(Next::Exit)])),
            _ => {}
        }
        let program = Program::new(globals, procedures).lined(random);
        let (source, goal) = match kind {
            Kind::Start => (0, Goal::Path(1)),
            Kind::Exit => (program.exit(0), Goal::Summary(0)),
            _ => (1, Goal::Path(2)),
        };
        let kept: Vec<usize> = (0..columns).filter(|_| random.chance(50)).collect();
        let known = kept.iter().flat_map(|&column| {
            [1, -1]
                .map(|sign| Row::sum(2 * columns, 0, &[(column, -sign), (columns + column, sign)]))
        });
        let known = known.collect();
        let equal = match kind {
            Kind::Start | Kind::CallEntry => (0..in_goal).map(|at| (at, in_goal + at)).collect(),
            Kind::Exit => {
                let kept = kept.into_iter().filter(|column| *column < globals);
                kept.map(|at| (at, globals + main.1 + at)).collect()
            }
            _ => {
                let kept = kept.into_iter().filter(|column| match kind {
                    Kind::Assign => *column != assigned,
                    Kind::Return => *column >= globals,
                    _ => true,
                });
                kept.map(|at| (at, columns + at)).collect()
            }
        };
        Some(Scene {
            kind,
            program,
            source,
            goal,
            known,
            equal,
        })
    }

    /// With `?` for the condition of the branch that its program begins with.
    fn with_choice(mut self) -> Scene {
        let columns = self.program.columns(0);
        if let Statement::Branch {
            operator,
            expression,
            ..
        } = &mut self.program.procedures[0].statements[0]
        {
            (*operator, *expression) = (Operator::Any, Expression::constant(columns, 0));
        }
        self
    }

    fn goal_columns(&self) -> usize {
        match (self.kind, self.goal) {
            (_, Goal::Summary(_)) => {
                2 * self.program.globals + self.program.procedures[0].parameters
            }
            (Kind::CallEntry, _) => 2 * self.program.columns(1),
            _ => 2 * self.program.columns(0),
        }
    }

    /// Edges with these disjuncts at the goal.
    fn edges(&self, random: &mut Random, goals: &[Disjunct]) -> Edges {
        let vertices = self.program.vertices().count();
        let mut edges = Edges {
            path: vec![Vec::new(); vertices],
            summaries: vec![Vec::new(); self.program.procedures.len()],
        };
        if self.kind != Kind::Start {
            edges.path[0].push(self.known.clone());
        }
        match self.kind {
            Kind::Exit => edges.path[self.source - 1].push(self.known.clone()),
            Kind::Return => {
                edges.path[2].push(Disjunct::new());
                edges.path[self.program.exit(1) - 1].push(Disjunct::new());
                edges.summaries[1] = vec![Disjunct::new(); 1 + random.below(2)];
            }
            _ => {}
        }
        disjuncts_of(&mut edges, self.goal).extend_from_slice(goals);
        edges
    }

    fn tree(self, random: &mut Random) -> Option<Tree> {
        let shape = Shape::any(random);
        let borders = borders(random, shape)?;
        let columns = self.goal_columns();
        let form = form(random, columns);
        let mut extras = |random: &mut Random| -> Disjunct {
            let some = self.equal.iter().filter(|_| random.chance(30));
            let some: Vec<&(usize, usize)> = some.take(3).collect();
            let rows = some.into_iter().map(|&(entry, now)| {
                let sign = *random.pick(&[1, -1]);
                let constant = *random.pick(&[0, 0, -1, -LARGEST]);
                Row::sum(columns, constant, &[(entry, -sign), (now, sign)])
            });
            rows.collect()
        };
        let intervals = Intervals::new(random, columns, &form, &borders, None, &mut extras)?;
        let edges = self.edges(random, &intervals.disjuncts);
        let leads = |system: &System| system.source == self.source && system.goal == self.goal;
        finished(
            random,
            (self.kind, self.program.clone(), edges),
            leads,
            |random, system| intervals.cover(random, system),
            shape,
        )
    }
}

/// Main's statements. The first is the source, unless it is the start or the exit.
fn statements(
    random: &mut Random,
    kind: Kind,
    columns: usize,
    assigned: usize,
    parameters: usize,
) -> Vec<Statement> {
    let operator = *random.pick(&Operator::ALL);
    let condition = match operator {
        Operator::Any => Expression::constant(columns, 0),
        _ => expression(random, columns),
    };
    let first = match kind {
        Kind::Start => return vec![skip(at(0))],
        Kind::Exit => return vec![skip(Next::Exit)],
        Kind::Skip => skip(at(1)),
        Kind::Assign => Statement::assign(at(1), assigned, expression(random, columns)),
        Kind::BranchTrue => Statement::branch([at(1), at(0)], operator, condition),
        Kind::BranchFalse => Statement::branch([at(0), at(1)], operator, condition),
        Kind::Assert => {
            let (operator, constant) = *random.pick(&[
                (Operator::Less, -1),
                (Operator::AtMost, 0),
                (Operator::Greater, 1),
                (Operator::AtLeast, 0),
                (Operator::Equal, 0),
                (Operator::NotEqual, 3),
            ]);
            Statement::assert(at(1), operator, Expression::constant(columns, constant))
        }
        Kind::CallEntry | Kind::Return => {
            let actuals = (0..parameters)
                .map(|_| expression(random, columns))
                .collect();
            match kind {
                Kind::Return => Statement::call(at(1), 1, actuals),
                _ => return vec![Statement::call(Next::Exit, 1, actuals)],
            }
        }
    };
    vec![first, skip(at(1))]
}

fn disjuncts_of(edges: &mut Edges, goal: Goal) -> &mut Vec<Disjunct> {
    match goal {
        Goal::Path(vertex) => &mut edges.path[vertex - 1],
        Goal::Summary(procedure) => &mut edges.summaries[procedure],
    }
}

/// One or two columns, at times a constant alone.
fn expression(random: &mut Random, columns: usize) -> Expression {
    let mut expression = Expression::constant(columns, random.between(-50, 50));
    for _ in 0..random.below(3) {
        let column = random.below(columns);
        expression.coefficients[column] = *random.pick(&[1, -1, 2, 3]);
    }
    expression
}

/// Columns and their coefficients.
type Form = Vec<(usize, i32)>;

fn form(random: &mut Random, columns: usize) -> Form {
    let largest = *random.pick(&[1, 1, 3, COEFFICIENT]);
    (0..1 + random.below(3))
        .map(|_| {
            let coefficient = *random.pick(&[-1, 1]) * random.between(1, largest);
            (random.below(columns), coefficient)
        })
        .collect()
}

/// Rising numbers: the largest value of each interval but the last.
fn borders(random: &mut Random, shape: Shape) -> Option<Vec<i64>> {
    let limit = *random.pick(&[5, 5, 1_000, LARGEST - 10]);
    let mut border = random.number(-limit, limit);
    let count = disjuncts(random, shape) - 1;
    let borders = (0..count).map(|_| {
        border += *random.pick(&[1, 1, 2, 5, 100]);
        border
    });
    let borders: Vec<i64> = borders.collect();
    (border < LARGEST).then_some(borders)
}

/// Disjuncts that say in which interval a form is.
struct Intervals {
    disjuncts: Vec<Disjunct>,
    /// The disjuncts of rising intervals, counted from 0.
    order: Vec<usize>,
    /// In each but the last of them the row that says that it is at most the border.
    uppers: Vec<Scaled>,
    /// The factor of the split rows.
    factor: i32,
}

/// Which row it is, by how much it is multiplied and what is taken off it then, which changes
/// nothing for whole numbers.
#[derive(Clone, Copy)]
struct Scaled {
    row: usize,
    factor: i32,
    less: i32,
}

impl Intervals {
    /// Nothing if the limits don't allow the rows. The outer bounds are those that premises show.
    fn new(
        random: &mut Random,
        columns: usize,
        form: &Form,
        borders: &[i64],
        outer: Option<(i64, i64)>,
        extras: &mut dyn FnMut(&mut Random) -> Disjunct,
    ) -> Option<Intervals> {
        // Both the goal's rows and those of splits multiplied would not give each other by a sum.
        let larger = *random.pick(&[2, 3, 7, 100]);
        let [own, factor] = *random.pick(&[[1, 1], [1, 1], [larger, 1], [1, larger]]);
        let opposite: Form = form.iter().map(|&(column, by)| (column, -by)).collect();
        let count = borders.len() + 1;
        let mut order: Vec<usize> = (0..count).collect();
        random.shuffle(&mut order);
        let mut disjuncts = vec![Disjunct::new(); count];
        let mut uppers = Vec::new();
        for (at, &disjunct) in order.iter().enumerate() {
            let above = match at {
                0 => outer.map(|(low, _)| low - 1),
                _ => Some(borders[at - 1]),
            };
            let most = borders.get(at).copied().or(outer.map(|(_, high)| high));
            let mut rows = extras(random);
            if let Some(above) = above {
                let row = Row::sum(columns, above + 1, &opposite);
                rows.push(scaled(&row, own, random.between(0, own - 1))?);
            }
            let less = random.between(0, own - 1);
            let mut place = rows.len();
            if let Some(most) = most {
                rows.push(scaled(&Row::sum(columns, -most, form), own, less)?);
                let other = random.below(rows.len());
                rows.swap(place, other);
                place = other;
            }
            if rows.iter().any(Row::is_constant) {
                return None;
            }
            disjuncts[disjunct] = rows;
            if at + 1 < count {
                uppers.push(Scaled {
                    row: place,
                    factor: own,
                    less,
                });
            }
        }
        Some(Intervals {
            disjuncts,
            order,
            uppers,
            factor,
        })
    }

    /// The rows between the disjuncts over the system's columns. Nothing if the form is a number
    /// there, or if the limits don't allow them.
    fn cover(&self, random: &mut Random, system: &System) -> Option<Cover> {
        let cuts = self
            .uppers
            .iter()
            .zip(&self.order)
            .map(|(upper, &disjunct)| {
                let mut cells = system.goal_rows(disjunct)[upper.row].to_vec();
                cells[0] += i64::from(upper.less);
                for cell in &mut cells {
                    *cell = *cell / i64::from(upper.factor) * i64::from(self.factor);
                }
                cells[0] -= i64::from(random.between(0, self.factor - 1));
                Row::within_limits(&cells).filter(|row| !row.is_constant())
            });
        Some(Cover {
            order: self.order.iter().copied().map(Some).collect(),
            cuts: cuts.collect::<Option<_>>()?,
        })
    }
}

/// The row so many times, and so much less.
fn scaled(row: &Row, factor: i32, less: i32) -> Option<Row> {
    let cells = [row.constant * i64::from(factor) - i64::from(less)];
    let coefficients = row.coefficients.iter();
    let coefficients = coefficients.map(|&cell| i64::from(cell) * i64::from(factor));
    let cells: Vec<i64> = cells.into_iter().chain(coefficients).collect();
    Row::within_limits(&cells)
}

/// Trees for the entailments that lead to the cover, and a witness without splits for each other.
fn finished(
    random: &mut Random,
    (kind, program, edges): (Kind, Program, Edges),
    leads: impl Fn(&System) -> bool,
    cover: impl Fn(&mut Random, &System) -> Option<Cover>,
    shape: Shape,
) -> Option<Tree> {
    let systems = build::systems(&program, &edges)?;
    let mut witnesses: Vec<Witness> = Vec::new();
    let mut leading = Vec::new();
    for (at, system) in systems.iter().enumerate() {
        witnesses.push(if leads(system) {
            leading.push(at);
            let cover = cover(random, system)?;
            tree(random, system, Leaves::Cover(&cover), shape)?
        } else {
            match system.prove() {
                Attempt::Proved(witness) => witness,
                _ => return None,
            }
        });
    }
    let chosen = random.below(leading.len());
    let entailment = leading[chosen];
    Some(Tree {
        kind,
        program,
        certificate: Certificate { edges, witnesses },
        entailment,
        goal: systems[entailment].goal,
        is_first: chosen == 0,
    })
}

/// Main branches at the lower and at the upper bound, and back if one doesn't hold.
fn within_bounds(random: &mut Random) -> Option<Tree> {
    let globals = random.below(3);
    let locals = 1 + random.below(3);
    let columns = globals + locals;
    let shape = Shape::any(random);
    let is_parity = columns > 1 && random.chance(30);
    let (form, borders, outer) = match is_parity {
        true => (vec![(0, 1), (1, -2)], vec![0], (0, 1)),
        false => {
            let borders = borders(random, shape)?;
            let [low, high] = [random.number(1, 4) - 1, random.number(1, 4)];
            let outer = (borders[0] - low, borders[borders.len() - 1] + high);
            (form(random, columns), borders, outer)
        }
    };
    let bound = |sign: i32, number: i64| {
        let terms: Form = form.iter().map(|&(at, by)| (at, sign * by)).collect();
        Expression::sum(columns, i64::from(-sign) * number, &terms)
    };
    let now = |expression: &Expression| Row {
        constant: expression.constant,
        coefficients: [&vec![0; columns][..], &expression.coefficients].concat(),
    };
    let [low, high] = [bound(-1, outer.0), bound(1, outer.1)];
    let branch = |next: usize, condition: &Expression| {
        Statement::branch([at(next), at(0)], Operator::AtMost, condition.clone())
    };
    let main = Procedure {
        locals,
        parameters: random.below(locals + 1),
        statements: vec![branch(1, &low), branch(2, &high), skip(at(3)), skip(at(3))],
    };
    let program = Program::new(globals, vec![main]).lined(random);
    let in_now: Form = form.iter().map(|&(at, by)| (columns + at, by)).collect();
    let none = &mut |_: &mut Random| Disjunct::new();
    let (width, outer) = (2 * columns, Some(outer));
    let intervals = Intervals::new(random, width, &in_now, &borders, outer, none)?;
    let [low, high] = [now(&low), now(&high)];
    if [&low, &high].iter().any(|row| row.is_constant()) || high.constant.abs() > LARGEST {
        return None;
    }
    let edges = Edges {
        path: vec![
            vec![Disjunct::new()],
            vec![vec![low.clone()]],
            vec![vec![low, high]],
            intervals.disjuncts.clone(),
            Vec::new(),
        ],
        summaries: vec![Vec::new()],
    };
    let leads = |system: &System| system.source == 3;
    finished(
        random,
        (Kind::Skip, program, edges),
        leads,
        |random, system| intervals.cover(random, system),
        shape,
    )
}

/// Main asserts that a multiple of a form isn't a number between two multiples, or branches on that
/// it is.
fn between_multiples(random: &mut Random) -> Option<Tree> {
    let globals = random.below(3);
    let locals = 1 + random.below(3);
    let columns = globals + locals;
    let form = form(random, columns);
    let factor = *random.pick(&[2, 2, 3, 7, 100, COEFFICIENT]);
    let border = random.between(-900, 900);
    let less = Row::sum(columns, -border, &form);
    let number = random.between(1, factor - 1);
    let condition = scaled(&less, factor, number)?;
    let is_assert = random.chance(50);
    let (kind, source, goal) = match is_assert {
        true => (
            Kind::Assert,
            Statement::assert(at(0), Operator::NotEqual, condition),
            Goal::Path(0),
        ),
        false => (
            Kind::BranchTrue,
            Statement::branch([at(1), at(0)], Operator::Equal, condition),
            Goal::Path(2),
        ),
    };
    let main = Procedure {
        locals,
        parameters: random.below(locals + 1),
        statements: vec![source, skip(at(1))],
    };
    let program = Program::new(globals, vec![main]).lined(random);
    let edges = Edges {
        path: vec![vec![Disjunct::new()], Vec::new(), Vec::new()],
        summaries: vec![Vec::new()],
    };
    let cut = Row {
        constant: less.constant,
        coefficients: [&vec![0; columns][..], &less.coefficients].concat(),
    };
    let cover = Cover {
        order: vec![None, None],
        cuts: vec![cut],
    };
    if less.is_constant() {
        return None;
    }
    let shape = Shape::any(random);
    finished(
        random,
        (kind, program, edges),
        |system| system.goal == goal,
        |_, _| Some(cover.clone()),
        shape,
    )
}
