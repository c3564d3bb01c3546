//! What is left of an accepted dense certificate, by its words alone: a walk over the witnesses as the
//! page for authors of tools has it, and passes over all entailments until nothing more is found.

use super::{Name, Used};
use crate::checker::linear::linear_words;
use crate::generate::program_words::ProgramWords;
use crate::generate::Pair;
use std::ops::Range;

/// The words of the trimmed certificate.
pub fn left_by_words(pair: &Pair) -> Vec<i32> {
    let program = ProgramWords(&pair.program);
    let entries = (1..=program.entries()).map(|entry| program.entry_rows(&pair.witness, entry));
    let walk = Walk {
        rows: entries.collect(),
        words: &pair.witness,
        program,
    };
    let shown = walk.shown();
    let used = walk.used(&shown);
    walk.cut_down(&shown, &used)
}

/// How many guard rows each case of a side has, by the word of the operator.
const TRUE: [&[usize]; 7] = [&[0], &[1], &[1], &[1], &[1], &[2], &[1, 1]];
const FALSE: [&[usize]; 7] = [&[0], &[1], &[1], &[1], &[1], &[1, 1], &[2]];

struct Walk<'a> {
    program: ProgramWords<'a>,
    words: &'a [i32],
    /// Where the rows of each disjunct of each entry stand.
    rows: Vec<Vec<Vec<usize>>>,
}

struct Entailment {
    sources: Vec<Name>,
    premises: usize,
    columns: usize,
    /// An entry counted from 1, or 0 for vertex 0.
    target: usize,
}

struct Shown {
    entailment: Entailment,
    words: Range<usize>,
    leaves: Vec<usize>,
}

impl Walk<'_> {
    fn vertices(&self) -> usize {
        self.program.statements() + self.program.procedures()
    }

    fn entailments(&self) -> Vec<Entailment> {
        let mut entailments = vec![Entailment {
            sources: Vec::new(),
            premises: 0,
            columns: self.program.columns(1),
            target: 1,
        }];
        for vertex in 1..=self.vertices() {
            for disjunct in 0..self.rows[vertex - 1].len() {
                entailments.extend(self.of_disjunct(vertex, disjunct));
            }
        }
        entailments
    }

    fn of_disjunct(&self, vertex: usize, disjunct: usize) -> Vec<Entailment> {
        let procedure = self.program.procedure_of(vertex);
        let row = self.program.row(vertex);
        let to = |target: usize, guards: usize| Entailment {
            sources: vec![(vertex - 1, disjunct)],
            premises: self.rows[vertex - 1][disjunct].len() + guards,
            columns: 2 * self.program.columns(procedure),
            target,
        };
        let sides = |operator: i32, [on_true, on_false]: [i32; 2]| -> Vec<Entailment> {
            let [first, second] = [TRUE, FALSE].map(|side| side[operator as usize].iter());
            let first = first.map(|guards| to(on_true as usize, *guards));
            first
                .chain(second.map(|guards| to(on_false as usize, *guards)))
                .collect()
        };
        match self.program.0[ProgramWords::kind(vertex)] {
            1 | 2 => vec![to(row[1] as usize, 0)],
            3 => sides(row[3], [row[1], row[2]]),
            4 => sides(row[2], [row[1], 0]),
            5 => self.of_call(row[1] as usize, row[2] as usize, &to),
            _ => vec![to(self.vertices() + procedure, 0)],
        }
    }

    /// The entry of a call, and its returns.
    fn of_call(
        &self,
        back: usize,
        callee: usize,
        to: &dyn Fn(usize, usize) -> Entailment,
    ) -> Vec<Entailment> {
        let first = self.program.exit_row(callee)[0] as usize;
        let summary = self.vertices() + callee - 1;
        let mut entry = to(first, 0);
        entry.columns += self.program.others(callee);
        let mut entailments = vec![entry];
        for (disjunct, rows) in self.rows[summary].iter().enumerate() {
            let mut entailment = to(back, rows.len());
            entailment.sources.push((summary, disjunct));
            entailment.columns += self.program.globals();
            entailments.push(entailment);
        }
        entailments
    }

    fn shown(&self) -> Vec<Shown> {
        let mut place = self.words.len() - self.words[2] as usize;
        let shown = self.entailments().into_iter().map(|entailment| {
            let (start, mut leaves) = (place, Vec::new());
            place = self.end(place, entailment.premises, &entailment, &mut leaves);
            Shown {
                entailment,
                words: start..place,
                leaves,
            }
        });
        shown.collect()
    }

    /// Where a witness with so many premises ends. The places of its leaves are added.
    fn end(
        &self,
        place: usize,
        premises: usize,
        entailment: &Entailment,
        leaves: &mut Vec<usize>,
    ) -> usize {
        let number = self.words[place];
        if number == -1 {
            let first = place + 3 + entailment.columns;
            let second = self.end(first, premises + 1, entailment, leaves);
            return self.end(second, premises + 1, entailment, leaves);
        }
        leaves.push(place);
        match number {
            0 => place + 1 + premises,
            _ => {
                let target = &self.rows[entailment.target - 1];
                place + 1 + target[number as usize - 1].len() * (1 + premises)
            }
        }
    }

    fn used(&self, shown: &[Shown]) -> Used {
        let mut used: Used = self.rows.iter().map(|own| vec![false; own.len()]).collect();
        loop {
            let before = used.clone();
            for one in shown {
                let counts = one.is_used(&used);
                let numbers = one.leaves.iter().map(|leaf| self.words[*leaf] as usize);
                for number in numbers.filter(|number| counts && *number > 0) {
                    used[one.entailment.target - 1][number - 1] = true;
                }
            }
            if used == before {
                return used;
            }
        }
    }

    fn cut_down(&self, shown: &[Shown], used: &Used) -> Vec<i32> {
        let (mut counts, mut places, mut rows) = (Vec::new(), Vec::new(), Vec::new());
        for (entry, disjuncts) in self.rows.iter().enumerate() {
            let width = linear_words(self.program.entry_columns(entry + 1));
            counts.push(used[entry].iter().filter(|used| **used).count() as i32);
            places.push(rows.len() as i32);
            for (disjunct, _) in disjuncts
                .iter()
                .zip(&used[entry])
                .filter(|(_, used)| **used)
            {
                rows.push(disjunct.len() as i32);
                rows.extend(disjunct.iter().flat_map(|at| &self.words[*at..at + width]));
            }
        }
        let mut witness_words = Vec::new();
        for one in shown.iter().filter(|one| one.is_used(used)) {
            let mut own = self.words[one.words.clone()].to_vec();
            for leaf in &one.leaves {
                let number = &mut own[leaf - one.words.start];
                if *number > 0 {
                    let of_target = &used[one.entailment.target - 1][..*number as usize];
                    *number = of_target.iter().filter(|used| **used).count() as i32;
                }
            }
            witness_words.extend(own);
        }
        let sizes = vec![1, rows.len() as i32, witness_words.len() as i32];
        [sizes, counts, places, rows, witness_words].concat()
    }
}

impl Shown {
    fn is_used(&self, used: &Used) -> bool {
        let mut sources = self.entailment.sources.iter();
        sources.all(|(entry, disjunct)| used[*entry][*disjunct])
    }
}
