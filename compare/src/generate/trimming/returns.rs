//! Calls of one procedure in a circle, and on them one chain of disjuncts. Its returns go on by one
//! summary disjunct, and its end leads to the others.

use super::{Kind, Made, Ring, DISJUNCTS};
use crate::build::{
    Certificate, Disjunct, Edges, Next, Procedure, Program, Row, Statement, Witness,
};

/// So many calls of f, which is a skip, with 8 disjuncts each, and 8 of f's vertices and summary, all
/// without rows. The chain of the calls' disjuncts goes against the order of vertices and disjuncts, by
/// the returns with f's last summary disjunct; the others are found when all of the chain is. Then each
/// has a return for each disjunct of each call. All of it is used.
pub fn late_returns(calls: usize) -> Made {
    let chain = Ring::backwards(calls, DISJUNCTS);
    let path = vec![vec![Disjunct::new(); DISJUNCTS]; calls + 1];
    let main_exit = Vec::new();
    let f_exit = path[0].clone();
    let summaries = vec![Vec::new(), path[0].clone()];
    let edges = Edges {
        path: [path, vec![main_exit, f_exit]].concat(),
        summaries,
    };
    let certificate = Certificate {
        edges,
        witnesses: witnesses(&chain),
    };
    Made {
        kind: Kind::Chains,
        program: program(&chain.order),
        certificate,
    }
}

fn program(order: &[usize]) -> Program {
    let mut calls = vec![Statement::Skip { next: Next::Exit }; order.len()];
    for (at, call) in order.iter().enumerate() {
        let back = order[(at + 1) % order.len()];
        calls[*call] = Statement::call(Next::Statement(back), 1, Vec::new());
    }
    let skip = Statement::Skip { next: Next::Exit };
    let procedures = [calls, vec![skip]].map(|statements| Procedure {
        locals: 0,
        parameters: 0,
        statements,
    });
    Program::new(0, procedures.to_vec())
}

fn witnesses(chain: &Ring) -> Vec<Witness> {
    let mut of_calls = Vec::new();
    for at in 0..chain.chain {
        // The last one leads to the other disjuncts of f, and back to the first of the chain.
        let (entry, next) = match at + 1 == chain.chain {
            true => (names(1..DISJUNCTS), 0),
            false => (name(DISJUNCTS), at + 1),
        };
        let (_, number) = chain.place(next);
        let returns = vec![name(number + 1); DISJUNCTS];
        of_calls.push((chain.place(at), [vec![entry], returns].concat()));
    }
    of_calls.sort_by_key(|(place, _)| *place);
    let start = name(chain.place(0).1 + 1);
    let of_calls = of_calls.into_iter().flat_map(|(_, witnesses)| witnesses);
    let of_f = (1..=DISJUNCTS).map(name);
    let all = [start].into_iter().chain(of_calls);
    all.chain(of_f.clone()).chain(of_f).collect()
}

/// The leaf for a disjunct without rows, counted from 1.
fn name(number: usize) -> Witness {
    Witness::Disjunct {
        number,
        rows: Vec::new(),
    }
}

/// A tree whose leaves name these, each by one split more.
fn names(numbers: std::ops::Range<usize>) -> Witness {
    let mut leaves = numbers.rev().map(name);
    let last = leaves.next().expect("there is one");
    leaves.fold(last, |tree, leaf| {
        Witness::split(Row::constant(0, 0), [leaf, tree])
    })
}
