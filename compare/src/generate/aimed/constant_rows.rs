//! Damage aimed at 15: constant rows, alone and beside damage aimed at 5.

use super::{refused, Aim, Spot};
use crate::build::{
    Certificate, Combination, Edges, Next, Procedure, Program, Row, Sharing, Statement, Witness,
};
use crate::checker::linear::{linear_words, CONSTANT_WORDS};
use crate::checker::Answer;
use crate::generate::constants::{BEYOND, LARGEST};
use crate::generate::program_words::ProgramWords;
use crate::generate::{large, Pair};
use crate::random::Random;

/// The words of a disjunct's rows.
pub(super) type Rows = Vec<Vec<i32>>;

const CONSTANTS: [i64; 7] = [0, 1, -1, 1_000_000, -1_000_000, LARGEST, -LARGEST];

impl Aim<'_> {
    pub(super) fn constant_rows(&mut self) {
        let given = ProgramWords(&self.pair.program);
        let vertices = given.statements() + given.procedures();
        let entries = self.entries_with_rows().into_iter();
        let (path, summaries): (Vec<usize>, Vec<usize>) =
            entries.partition(|entry| *entry <= vertices);
        for spot in Spot::ALL {
            self.zeroed(spot, &path);
            self.zeroed(spot, &summaries);
            self.second(spot);
            self.beside_a_wrong_row(spot);
        }
        self.two_entries();
        self.shared_words();
        self.without_columns();
    }

    pub(super) fn entries_with_rows(&self) -> Vec<usize> {
        let given = ProgramWords(&self.pair.program);
        let has_rows = |entry: &usize| {
            let disjuncts = given.entry_rows(&self.pair.witness, *entry);
            disjuncts.iter().any(|rows| !rows.is_empty())
        };
        (1..=given.entries()).filter(has_rows).collect()
    }

    /// The words of an entry's rows, by disjuncts.
    pub(super) fn own_rows(&self, entry: usize) -> Vec<Rows> {
        let given = &self.pair.witness;
        let width = linear_words(self.entry_columns(entry));
        let row_words = |place: &usize| given[*place..place + width].to_vec();
        let places = ProgramWords(&self.pair.program).entry_rows(given, entry);
        let disjuncts = places.iter();
        disjuncts
            .map(|rows| rows.iter().map(row_words).collect())
            .collect()
    }

    fn entry_columns(&self, entry: usize) -> usize {
        ProgramWords(&self.pair.program).entry_columns(entry)
    }

    /// The coefficients all 0, and at times another constant.
    fn constant_row(&mut self, columns: usize) -> Vec<i32> {
        let constant = *self.random.pick(&CONSTANTS);
        Row::constant(columns, constant).words().collect()
    }

    /// The witness input with disjuncts of their own, at the end of the rows, for these entries.
    pub(super) fn with_disjuncts(&self, entries: &[usize], disjuncts: &[Rows]) -> Vec<i32> {
        let all = ProgramWords(&self.pair.program).entries();
        let mut witness = self.pair.witness.clone();
        let end = 3 + 2 * all + witness[1] as usize;
        for entry in entries {
            witness[2 + entry] = disjuncts.len() as i32;
            witness[2 + all + entry] = witness[1];
        }
        let mut words = Vec::new();
        for rows in disjuncts {
            words.push(rows.len() as i32);
            words.extend(rows.concat());
        }
        witness[1] += words.len() as i32;
        witness.splice(end..end, words);
        witness
    }

    /// One of the entry's own rows.
    fn zeroed(&mut self, spot: Spot, entries: &[usize]) {
        let Some(number) = spot.number(self.random, entries.len()) else {
            return;
        };
        let entry = entries[number - 1];
        let columns = self.entry_columns(entry);
        let mut disjuncts = self.own_rows(entry);
        let mut rows: Vec<&mut Vec<i32>> = disjuncts.iter_mut().flatten().collect();
        let at = self.random.below(rows.len());
        rows[at][CONSTANT_WORDS..].fill(0);
        if self.random.chance(50) {
            *rows[at] = self.constant_row(columns);
        }
        let witness = self.with_disjuncts(&[entry], &disjuncts);
        self.push_witness(witness, spot, refused(15, 2 + entry));
    }

    /// Only the second row of a disjunct, or only the second disjunct; without columns any row.
    fn second(&mut self, spot: Spot) {
        let entries = ProgramWords(&self.pair.program).entries();
        let Some(entry) = spot.number(self.random, entries) else {
            return;
        };
        let columns = self.entry_columns(entry);
        let constant = self.constant_row(columns);
        let disjuncts = match (self.random.below(3), columns) {
            (_, 0) => vec![vec![constant]],
            (0, _) => vec![vec![last_column(columns), constant]],
            (1, _) => vec![vec![last_column(columns)], vec![constant]],
            _ => vec![Rows::new(), vec![last_column(columns), constant]],
        };
        let witness = self.with_disjuncts(&[entry], &disjuncts);
        self.push_witness(witness, spot, refused(15, 2 + entry));
    }

    /// 5 of an entry comes before its 15, wherever in the entry the two are.
    fn beside_a_wrong_row(&mut self, spot: Spot) {
        let entries = ProgramWords(&self.pair.program).entries();
        let Some(entry) = spot.number(self.random, entries) else {
            return;
        };
        let columns = self.entry_columns(entry);
        let mut wrong = last_column(columns);
        match self.random.below(2) {
            0 if columns > 0 => wrong[1 + columns] = *self.random.pick(&[1_001, -1_001]),
            _ => wrong[..CONSTANT_WORDS].copy_from_slice(&self.random.pick(&BEYOND)[..]),
        }
        let constant = self.constant_row(columns);
        let disjuncts = match self.random.below(5) {
            0 => vec![vec![constant, wrong]],
            1 => vec![vec![wrong, constant]],
            2 => vec![vec![constant], vec![wrong]],
            3 => vec![vec![wrong], vec![constant]],
            _ => vec![vec![constant]; 9],
        };
        let witness = self.with_disjuncts(&[entry], &disjuncts);
        self.push_witness(witness, spot, refused(5, 2 + entry));
    }

    /// 15 of an entry comes before 5 of a later one, and after 5 of an earlier one.
    fn two_entries(&mut self) {
        let [earlier, later] = self.two();
        for (entry, wrong) in [(earlier, later), (later, earlier)] {
            let constant = self.constant_row(self.entry_columns(entry));
            let mut witness = self.with_disjuncts(&[entry], &[vec![constant]]);
            witness[2 + wrong] = *self.random.pick(&[-1, 9, i32::MIN, i32::MAX]);
            let number = if entry == earlier { 15 } else { 5 };
            self.push_witness(witness, Spot::First, refused(number, 2 + earlier));
        }
    }

    /// Two entries at one place. With equal columns the earlier is refused; else the one with fewer
    /// columns, for which the last column of the other isn't there.
    fn shared_words(&mut self) {
        let [earlier, later] = self.two();
        let columns = [earlier, later].map(|entry| self.entry_columns(entry));
        let shared = match columns[0] == columns[1] {
            true => self.constant_row(columns[0]),
            false => last_column(columns[0].max(columns[1])),
        };
        let (entry, spot) = match columns[0] <= columns[1] {
            true => (earlier, Spot::First),
            false => (later, Spot::Last),
        };
        let witness = self.with_disjuncts(&[earlier, later], &[vec![shared]]);
        self.push_witness(witness, spot, refused(15, 2 + entry));
    }

    /// Two entries, the earlier first.
    fn two(&mut self) -> [usize; 2] {
        let entries = ProgramWords(&self.pair.program).entries();
        let later = 2 + self.random.below(entries - 1);
        [1 + self.random.below(later - 1), later]
    }

    /// A program without variables, where no row can speak of anything.
    fn without_columns(&mut self) {
        let procedures = 1 + self.random.below(3);
        let statements = procedures + self.random.below(3);
        let pool = 2 * statements + 3 * procedures;
        let pair = large::sized(statements, procedures, 0, 0, pool);
        let mut aim = Aim {
            random: self.random,
            pair: &pair,
            aimed: Vec::new(),
        };
        for spot in Spot::ALL {
            aim.second(spot);
        }
        let aimed = aim.aimed;
        self.aimed.extend(aimed);
    }
}

/// A row with constant 0 that speaks of its last column alone, if there are columns.
fn last_column(columns: usize) -> Vec<i32> {
    let terms: Vec<(usize, i32)> = columns
        .checked_sub(1)
        .map(|last| (last, 1))
        .into_iter()
        .collect();
    Row::sum(columns, 0, &terms).words().collect()
}

/// A certificate whose rows each speak of one column alone, and the same with 0 there in one of
/// them.
///
/// Main's two skips are their own successors. Nothing leads to the second and to the exit, so that
/// their rows may say anything.
pub fn one_column(random: &mut Random) -> [(Pair, Answer); 2] {
    let globals = random.below(9);
    let locals = 1 + random.below(8);
    let parameters = random.below(locals);
    let columns = globals + locals;
    let circle = |at| Statement::Skip {
        next: Next::Statement(at),
    };
    let main = Procedure {
        locals,
        parameters,
        statements: vec![circle(0), circle(1)],
    };
    let program = Program::new(globals, vec![main]).lined(random);
    let entry_or_now = *random.pick(&[0, columns, columns]);
    let local = *random.pick(&[locals - 1, parameters]);
    let column = entry_or_now + globals + local;
    let weight = *random.pick(&[1, -1, 1_000, -1_000]);
    let constant = *random.pick(&[0, 0, -1, -LARGEST]);
    let row = Row::sum(2 * columns, constant, &[(column, weight)]);
    let summary_columns = 2 * globals + parameters;
    let summary: Vec<Vec<Row>> = match summary_columns {
        0 => Vec::new(),
        _ => {
            let constant = *random.pick(&CONSTANTS);
            let terms = [(summary_columns - 1, weight)];
            vec![vec![Row::sum(summary_columns, constant, &terms)]]
        }
    };
    let edges = Edges {
        path: vec![vec![Vec::new()], vec![vec![row]], Vec::new()],
        summaries: vec![summary],
    };
    let mut constant = edges.clone();
    let (row, entry) = match random.chance(50) && summary_columns > 0 {
        true => (&mut constant.summaries[0][0][0], 4),
        false => (&mut constant.path[1][0][0], 2),
    };
    row.coefficients.fill(0);
    let by_rows = |rows| Witness::Disjunct { number: 1, rows };
    let same = Combination {
        divisor: 1,
        multipliers: vec![1],
    };
    let witnesses = vec![
        by_rows(Vec::new()),
        by_rows(Vec::new()),
        by_rows(vec![same]),
    ];
    let [accepted, damaged] = [edges, constant].map(|edges| {
        let certificate = Certificate {
            edges,
            witnesses: witnesses.clone(),
        };
        Pair {
            program: program.words(Sharing::Apart),
            witness: certificate.words(Sharing::Apart),
        }
    });
    [
        (accepted, Answer::Safe(3)),
        (damaged, refused(15, 2 + entry)),
    ]
}
