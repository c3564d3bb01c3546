//! What is used of a certificate, by a reading of its own: over typed programs and witnesses, and by
//! looking at all entailments again until nothing more is found.

use crate::build::{Certificate, Disjunct, Edges, Next, Program, Sharing, Statement, Witness};
use crate::checker::entailment::cases;
use crate::generate::sparse::{Form, Parts};
use crate::generate::Pair;

/// An entry, vertices and then summaries, and one of its disjuncts, both counted from 0.
pub type Name = (usize, usize);

/// An entailment.
#[derive(Clone, Debug)]
pub struct Step {
    /// Its disjunct, none at the start, and at a return then the summary's.
    pub sources: Vec<Name>,
    /// Which of the cases of a branch or an assert it is, and how many guard rows that has.
    pub case: usize,
    pub guards: usize,
    /// The entry that it leads to; nothing is vertex 0.
    pub target: Option<usize>,
}

/// The entailments of a program whose entries have so many disjuncts.
pub fn steps(program: &Program, counts: &[usize]) -> Vec<Step> {
    let mut steps = vec![Step {
        sources: Vec::new(),
        case: 0,
        guards: 0,
        target: Some(0),
    }];
    for (entry, (procedure, next)) in program.vertices().enumerate() {
        for disjunct in 0..counts[entry] {
            let own = vec![(entry, disjunct)];
            let leads = leads(program, procedure, next).into_iter().enumerate();
            steps.extend(leads.map(|(case, (target, guards))| Step {
                sources: own.clone(),
                case,
                guards,
                target,
            }));
            let Some((summary, back)) = returns(program, procedure, next) else {
                continue;
            };
            steps.extend((0..counts[summary]).map(|disjunct| Step {
                sources: vec![own[0], (summary, disjunct)],
                case: 0,
                guards: 0,
                target: Some(back),
            }));
        }
    }
    steps
}

/// Where a vertex leads but for returns, with the number of guard rows.
fn leads(program: &Program, procedure: usize, next: Next) -> Vec<(Option<usize>, usize)> {
    let entry = |next: Next| Some(program.vertex(procedure, next) - 1);
    let Next::Statement(index) = next else {
        return vec![(Some(summary(program, procedure)), 0)];
    };
    let (operator, sides) = match &program.procedures[procedure].statements[index] {
        Statement::Skip { next } | Statement::Assign { next, .. } => {
            return vec![(entry(*next), 0)];
        }
        Statement::Call { procedure, .. } => return vec![(Some(program.first(*procedure) - 1), 0)],
        Statement::Branch {
            on_true,
            on_false,
            operator,
            ..
        } => (*operator, [entry(*on_true), entry(*on_false)]),
        Statement::Assert { next, operator, .. } => (*operator, [entry(*next), None]),
    };
    let of_side = |operator, target| cases(operator).iter().map(move |rows| (target, rows.len()));
    let [on_true, on_false] = sides;
    of_side(operator, on_true)
        .chain(of_side(operator.opposite(), on_false))
        .collect()
}

/// The entry of a procedure's summary.
fn summary(program: &Program, procedure: usize) -> usize {
    program.statement_count() + program.procedures.len() + procedure
}

/// Of a call the callee's summary and the return point, by their entries.
fn returns(program: &Program, procedure: usize, next: Next) -> Option<(usize, usize)> {
    let Next::Statement(index) = next else {
        return None;
    };
    match &program.procedures[procedure].statements[index] {
        Statement::Call {
            back,
            procedure: callee,
            ..
        } => Some((
            summary(program, *callee),
            program.vertex(procedure, *back) - 1,
        )),
        _ => None,
    }
}

/// How many disjuncts each entry has.
pub fn counts(edges: &Edges) -> Vec<usize> {
    edges.entries().map(Vec::len).collect()
}

/// Which targets count.
#[derive(Clone, Copy, Debug, PartialEq, Eq, PartialOrd, Ord)]
pub enum Reading {
    /// As the request has it. All others are wrong.
    Right,
    /// Of a tree the first leaf, or the last, that names a disjunct.
    FirstLeaf,
    LastLeaf,
    /// A return with its disjunct, whatever the summary's is, or the other way round.
    DisjunctAlone,
    SummaryAlone,
    /// What is found by going once over the entailments in order.
    Once,
    /// Whatever some leaf names.
    Named,
    /// An exit if a kept call leads to its procedure.
    Called,
}

impl Reading {
    pub const WRONG: [Reading; 7] = [
        Reading::FirstLeaf,
        Reading::LastLeaf,
        Reading::DisjunctAlone,
        Reading::SummaryAlone,
        Reading::Once,
        Reading::Named,
        Reading::Called,
    ];
}

/// For each disjunct of each entry whether it is used.
pub type Used = Vec<Vec<bool>>;

/// What is used of a certificate.
pub fn used(program: &Program, certificate: &Certificate, reading: Reading) -> Used {
    let counts = counts(&certificate.edges);
    let steps = steps(program, &counts);
    let vertices = program.statement_count() + program.procedures.len();
    let mut used: Used = counts.iter().map(|count| vec![false; *count]).collect();
    loop {
        let before = used.clone();
        for (step, witness) in steps.iter().zip(&certificate.witnesses) {
            let is_exit = step.target.is_some_and(|target| target >= vertices);
            let is_used = |(entry, disjunct): &Name| used[*entry][*disjunct];
            let counts = match (reading, &step.sources[..]) {
                (Reading::Named, _) => true,
                (Reading::DisjunctAlone, [own, _]) => is_used(own),
                (Reading::SummaryAlone, [_, summary]) => is_used(summary),
                (Reading::Called, [own]) if is_exit => {
                    let summary = step.target.expect("an exit has one");
                    is_used(own) && is_called(&steps, &used, summary)
                }
                (_, sources) => sources.iter().all(is_used),
            };
            for number in named(witness, reading).into_iter().filter(|_| counts) {
                used[step.target.expect("vertex 0 has no disjuncts")][number - 1] = true;
            }
        }
        if used == before || reading == Reading::Once {
            return used;
        }
    }
}

/// Whether a used disjunct calls the procedure with this summary.
fn is_called(steps: &[Step], used: &Used, summary: usize) -> bool {
    steps.iter().any(|step| match step.sources[..] {
        [(entry, disjunct), (of, _)] => of == summary && used[entry][disjunct],
        _ => false,
    })
}

/// The disjuncts that the leaves name, counted from 1.
fn named(witness: &Witness, reading: Reading) -> Vec<usize> {
    let all = all_named(witness);
    match reading {
        Reading::FirstLeaf => all.into_iter().take(1).collect(),
        Reading::LastLeaf => all.into_iter().last().into_iter().collect(),
        _ => all,
    }
}

/// The same of all leaves, in order.
pub fn all_named(witness: &Witness) -> Vec<usize> {
    match witness {
        Witness::Contradiction(_) => Vec::new(),
        Witness::Disjunct { number, .. } => vec![*number],
        Witness::Split { witnesses, .. } => witnesses.iter().flat_map(all_named).collect(),
    }
}

/// The certificate with what is used of it.
pub fn cut_down(program: &Program, certificate: &Certificate, used: &Used) -> Certificate {
    let kept = |entries: &[Vec<Disjunct>], used: &[Vec<bool>]| -> Vec<Vec<Disjunct>> {
        let pairs = entries.iter().zip(used);
        let kept = pairs.map(|(disjuncts, used)| {
            let pairs = disjuncts.iter().zip(used).filter(|(_, used)| **used);
            pairs.map(|(disjunct, _)| disjunct.clone()).collect()
        });
        kept.collect()
    };
    let Edges { path, summaries } = &certificate.edges;
    let (of_path, of_summaries) = used.split_at(path.len());
    let edges = Edges {
        path: kept(path, of_path),
        summaries: kept(summaries, of_summaries),
    };
    let mut witnesses = Vec::new();
    let steps = steps(program, &counts(&certificate.edges));
    for (step, witness) in steps.iter().zip(&certificate.witnesses) {
        let is_used = |(entry, disjunct): &Name| used[*entry][*disjunct];
        if step.sources.iter().all(is_used) {
            let of_target = step.target.map_or(&[][..], |target| &used[target]);
            witnesses.push(renumbered(witness, of_target));
        }
    }
    Certificate { edges, witnesses }
}

/// The witness with the numbers that are left of the target's disjuncts.
fn renumbered(witness: &Witness, used: &[bool]) -> Witness {
    let mut witness = witness.clone();
    for leaf in witness.leaves_mut() {
        if let Witness::Disjunct { number, .. } = leaf {
            *number = used[..*number].iter().filter(|used| **used).count();
        }
    }
    witness
}

/// The dense words of a certificate, each entry at the next free place, also if it is empty.
pub fn in_order(program: &Program, certificate: &Certificate) -> Vec<i32> {
    let pair = Pair {
        program: program.words(Sharing::Apart),
        witness: certificate.words(Sharing::Apart),
    };
    Parts::of(&pair).words(Form::Dense)
}
