//! Damage aimed at the tests of a sparse certificate: 5, 25 and 15, alone and beside each other.

use super::{refused, Aim, Aimed, Spot};
use crate::checker::row::Form;
use crate::generate::constants::BEYOND;
use crate::generate::large;
use crate::generate::sparse::{Disjunct, Entry, Parts, Place, Row};
use crate::random::Random;

/// What is wrong with an entry.
#[derive(Clone, Copy, Debug, PartialEq, Eq)]
pub enum Fault {
    /// 5: how many disjuncts it has, where they stand, and how many rows one of them has.
    DisjunctCount,
    PastRows,
    RowCount,
    /// 5: a row's constant, its count, a column, or a coefficient.
    Constant,
    Count,
    Column,
    Coefficient,
    /// 25: a row's columns, or a coefficient.
    Falling,
    Repeated,
    Zero,
    /// 25: words before it, its words behind those of others, or those of an equal entry.
    Gap,
    Elsewhere,
    Shared,
    /// 25: the place of an entry without disjuncts.
    EmptyPlace,
    /// 15: a row without coefficients.
    Constants,
}

impl Fault {
    pub const ALL: [Fault; 15] = [
        Fault::DisjunctCount,
        Fault::PastRows,
        Fault::RowCount,
        Fault::Constant,
        Fault::Count,
        Fault::Column,
        Fault::Coefficient,
        Fault::Falling,
        Fault::Repeated,
        Fault::Zero,
        Fault::Gap,
        Fault::Elsewhere,
        Fault::Shared,
        Fault::EmptyPlace,
        Fault::Constants,
    ];

    fn number(self) -> u64 {
        match self {
            Fault::Constants => 15,
            fault if fault.case().starts_with("25") => 25,
            _ => 5,
        }
    }

    fn case(self) -> &'static str {
        match self {
            Fault::DisjunctCount => "5 a disjunct count",
            Fault::PastRows => "5 a place past the rows",
            Fault::RowCount => "5 a row count",
            Fault::Constant => "5 a constant in a sparse row",
            Fault::Count => "5 a count",
            Fault::Column => "5 a column",
            Fault::Coefficient => "5 a coefficient in a sparse row",
            Fault::Falling => "25 a falling column",
            Fault::Repeated => "25 a repeated column",
            Fault::Zero => "25 a zero coefficient",
            Fault::Gap => "25 a word before an entry",
            Fault::Elsewhere => "25 an entry behind others",
            Fault::Shared => "25 an entry at an equal one's words",
            Fault::EmptyPlace => "25 the place of an empty entry",
            Fault::Constants => "15 a row without coefficients",
        }
    }

    /// Whether one of the entries, counted from 0, can have it. Where its place is wrong, its own
    /// words aren't read.
    fn fits(self, parts: &Parts, at: usize) -> bool {
        let entry = &parts.entries[at];
        if entry.place.is_some() {
            return self == Fault::DisjunctCount;
        }
        let has = |fits: fn(&Row) -> bool| entry.rows().any(fits);
        match self {
            Fault::DisjunctCount => true,
            Fault::EmptyPlace => entry.disjuncts.is_empty(),
            Fault::PastRows | Fault::RowCount | Fault::Gap => !entry.disjuncts.is_empty(),
            Fault::Elsewhere => !entry.disjuncts.is_empty() && !full_behind(parts, at).is_empty(),
            Fault::Shared => !entry.disjuncts.is_empty() && equal(parts, at).is_some(),
            Fault::Falling => has(|row| row.terms.len() >= 2),
            Fault::Repeated => entry.rows().any(|row| can_repeat(row, entry.columns)),
            _ => has(|row| !row.terms.is_empty()),
        }
    }

    /// Gives it to an entry that can have it.
    fn apply(self, random: &mut Random, parts: &mut Parts, at: usize) {
        let shared = equal(parts, at).map(|other| parts.start(Form::Sparse, other));
        let start = parts.start(Form::Sparse, at) as i32;
        let entry = &mut parts.entries[at];
        match self {
            Fault::DisjunctCount => {
                entry.count = Some(*random.pick(&[-1, 9, i32::MIN, i32::MAX]));
            }
            Fault::PastRows => {
                let places = [Place::At(-1), Place::At(i32::MIN), Place::At(i32::MAX)];
                let past = [Place::Past(0), Place::Past(1)];
                entry.place = Some(*random.pick(&[&places[..], &past].concat()));
            }
            Fault::RowCount => {
                let disjunct = random.below(entry.disjuncts.len());
                let wrong = *random.pick(&[-1, 33, i32::MIN, i32::MAX]);
                entry.disjuncts[disjunct].count = Some(wrong);
            }
            Fault::Gap => {
                let words = 1 + random.below(3);
                entry.before = (0..words).map(|_| random.between(-1, 1)).collect();
            }
            Fault::Elsewhere => move_behind(random, parts, at),
            Fault::Shared => entry.place = shared.map(|place| Place::At(place as i32)),
            Fault::EmptyPlace => {
                let mut places = vec![
                    Place::Off(1),
                    Place::Off(-1),
                    Place::At(-1),
                    Place::At(i32::MIN),
                    Place::At(i32::MAX),
                ];
                if start > 0 {
                    places.push(Place::At(0));
                }
                entry.place = Some(*random.pick(&places));
            }
            _ => self.apply_to_row(random, entry),
        }
    }

    fn apply_to_row(self, random: &mut Random, entry: &mut Entry) {
        let columns = entry.columns;
        let mut rows = entry.rows_mut();
        rows.retain(|row| match self {
            Fault::Falling => row.terms.len() >= 2,
            Fault::Repeated => can_repeat(row, columns),
            _ => !row.terms.is_empty(),
        });
        let at = somewhere(random, rows.len());
        let row = &mut *rows[at];
        let term = somewhere(random, row.terms.len());
        let all = columns as i32;
        match self {
            Fault::Constant => row.spelling = *random.pick(&BEYOND),
            Fault::Count if random.chance(30) => {
                // All columns, and one of them once more or one that there is not.
                let more = *random.pick(&[0, all - 1, all]);
                row.terms = (0..all).chain([more]).map(|column| (column, 1)).collect();
            }
            Fault::Count => row.count = Some(*random.pick(&[-1, all + 1, i32::MIN, i32::MAX])),
            Fault::Column => {
                let wrong = [-1, all, all, all + 1, i32::MIN, i32::MAX];
                row.terms[term].0 = *random.pick(&wrong);
            }
            Fault::Coefficient => {
                row.terms[term].1 = *random.pick(&[1_001, -1_001, i32::MIN, i32::MAX]);
            }
            Fault::Falling => {
                let term = somewhere(random, row.terms.len() - 1);
                match random.chance(50) {
                    true => row.terms.swap(term, term + 1),
                    false => {
                        let (earlier, later) = (row.terms[term].0, row.terms[term + 1].0);
                        row.terms[term].0 = later;
                        row.terms[term + 1].0 = earlier;
                    }
                }
            }
            Fault::Repeated => repeat(random, row, columns),
            Fault::Zero => zero(random, row, term, all),
            _ => row.terms.clear(),
        }
    }
}

/// Whether a row has a column that can be there twice without being one too many.
fn can_repeat(row: &Row, columns: usize) -> bool {
    row.terms.len() >= 2 || (row.terms.len() == 1 && columns >= 2)
}

/// A column of a row once more, in place of the next or beside it.
fn repeat(random: &mut Random, row: &mut Row, columns: usize) {
    let count = row.terms.len();
    if count < columns && (count < 2 || random.chance(50)) {
        let term = somewhere(random, count);
        let (column, coefficient) = row.terms[term];
        let again = *random.pick(&[coefficient, -coefficient, 1]);
        row.terms.insert(term + 1, (column, again));
    } else {
        let term = somewhere(random, count - 1);
        row.terms[term + 1].0 = row.terms[term].0;
    }
}

/// A coefficient set to 0; or a column more, with 0.
fn zero(random: &mut Random, row: &mut Row, term: usize, columns: i32) {
    let unused: Vec<i32> = (0..columns)
        .filter(|column| row.terms.iter().all(|(used, _)| used != column))
        .collect();
    if unused.is_empty() || random.chance(50) {
        row.terms[term].1 = 0;
    } else {
        row.terms.push((*random.pick(&unused), 0));
        row.terms.sort();
    }
}

/// The later entries, counted from 0, that have words.
fn full_behind(parts: &Parts, at: usize) -> Vec<usize> {
    let later = at + 1..parts.entries.len();
    later
        .filter(|at| !parts.entries[*at].disjuncts.is_empty())
        .collect()
}

/// The words of an entry behind those of all others, or exchanged with those of a later one.
fn move_behind(random: &mut Random, parts: &mut Parts, at: usize) {
    if random.chance(30) {
        parts.order.retain(|entry| *entry != at);
        parts.order.push(at);
    } else {
        let later = full_behind(parts, at);
        let other = later[somewhere(random, later.len())];
        let places = [at, other].map(|entry| parts.order.iter().position(|at| *at == entry));
        if let [Some(place), Some(other)] = places {
            parts.order.swap(place, other);
        }
    }
}

/// An earlier entry, counted from 0, with the same words and columns.
fn equal(parts: &Parts, at: usize) -> Option<usize> {
    let same = |other: &Entry| {
        let entry = &parts.entries[at];
        other.columns == entry.columns && other.disjuncts == entry.disjuncts
    };
    parts.entries[..at].iter().position(same)
}

/// The faults with this number.
fn faults(number: u64) -> impl Iterator<Item = Fault> {
    let faults = Fault::ALL.into_iter();
    faults.filter(move |fault| fault.number() == number)
}

/// Whether an entry can have a fault with this number.
fn is_able(parts: &Parts, at: usize, number: u64) -> bool {
    faults(number).any(|fault| fault.fits(parts, at))
}

/// The entries, counted from 0, that can have a fault with this number.
fn able(parts: &Parts, number: u64) -> Vec<usize> {
    let entries = 0..parts.entries.len();
    entries.filter(|at| is_able(parts, *at, number)).collect()
}

/// The first, the last or any of so many, counted from 0.
fn somewhere(random: &mut Random, count: usize) -> usize {
    match random.below(3) {
        0 => 0,
        1 => count - 1,
        _ => random.below(count),
    }
}

/// An accepted certificate in sparse form, damaged for each of the numbers 1 to 8, 15 and 25.
pub fn sparse(random: &mut Random, program: &[i32], parts: &Parts) -> Vec<Aimed> {
    let pair = parts.pair(program, Form::Sparse);
    let mut aim = Aim {
        random,
        pair: &pair,
        aimed: Vec::new(),
    };
    aim.program_sizes();
    aim.certificate_sizes();
    for spot in Spot::ALL {
        aim.exit(spot);
        aim.statement(spot);
        aim.entailment(spot);
        aim.cut_off(parts, spot);
        aim.one_off(parts, spot);
        for fault in Fault::ALL {
            aim.fault(parts, spot, fault);
        }
    }
    aim.left_words();
    aim.two_faults(parts);
    aim.two_faulty_entries(parts);
    aim.row_words_left(parts);
    aim.rows_without_columns();
    aim.aimed
}

impl Aim<'_> {
    fn push_parts(&mut self, case: &'static str, parts: &Parts, spot: Spot, answer: (u64, usize)) {
        let (number, place) = answer;
        let witness = parts.words(Form::Sparse);
        self.push_case(case, witness, spot, refused(number, place));
    }

    fn fault(&mut self, parts: &Parts, spot: Spot, fault: Fault) {
        let fitting = |at: &usize| fault.fits(parts, *at);
        let entries: Vec<usize> = (0..parts.entries.len()).filter(fitting).collect();
        let Some(number) = spot.number(self.random, entries.len()) else {
            return;
        };
        let at = entries[number - 1];
        let mut parts = parts.clone();
        fault.apply(self.random, &mut parts, at);
        self.push_parts(fault.case(), &parts, spot, (fault.number(), 3 + at));
    }

    /// The row words end inside an entry.
    fn cut_off(&mut self, parts: &Parts, spot: Spot) {
        let entries =
            (0..parts.entries.len()).filter(|at| !parts.entries[*at].disjuncts.is_empty());
        let entries: Vec<usize> = entries.collect();
        let Some(number) = spot.number(self.random, entries.len()) else {
            return;
        };
        let at = entries[number - 1];
        let [start, end] = [at, at + 1].map(|at| parts.start(Form::Sparse, at));
        let keep = start + somewhere(self.random, end - start);
        let first = 3 + 2 * parts.entries.len();
        let mut witness = self.pair.witness.clone();
        let rest = witness[1] as usize - keep;
        witness[1] = keep as i32;
        match self.random.chance(50) {
            true => drop(witness.drain(first + keep..first + keep + rest)),
            // The rest of the row words counted as witness words.
            false => witness[2] += rest as i32,
        }
        self.push_case("5 cut off", witness, spot, refused(5, 3 + at));
    }

    /// Three entries whose words are 0 0 0, and the place of the middle one is another's.
    fn one_off(&mut self, parts: &Parts, spot: Spot) {
        let Some(at) = spot.number(self.random, parts.entries.len() - 2) else {
            return;
        };
        let mut parts = parts.clone();
        for entry in &mut parts.entries[at - 1..=at + 1] {
            entry.disjuncts = vec![Disjunct {
                count: None,
                rows: Vec::new(),
            }];
        }
        parts.entries[at].place = Some(Place::Off(*self.random.pick(&[1, -1])));
        self.push_parts("25 a place one off", &parts, spot, (25, 3 + at));
    }

    /// Two faults of one entry: 5 before 25 before 15.
    fn two_faults(&mut self, parts: &Parts) {
        let orders = [
            ("5 beside 25", 25, 5),
            ("5 beside 15", 15, 5),
            ("25 beside 15", 15, 25),
        ];
        for (case, later, earlier) in orders {
            let mut entries = able(parts, later);
            entries.retain(|at| is_able(parts, *at, earlier));
            if entries.is_empty() {
                continue;
            }
            let at = *self.random.pick(&entries);
            // What is tested first is done last, so that it is surely there.
            if let Some(parts) = self.with_faults(parts, [(at, later), (at, earlier)]) {
                self.push_parts(case, &parts, Spot::First, (earlier, 3 + at));
            }
        }
    }

    /// The parts with a fault of each number at its entry, if the entries can have such.
    fn with_faults<const N: usize>(
        &mut self,
        parts: &Parts,
        faults: [(usize, u64); N],
    ) -> Option<Parts> {
        let mut parts = parts.clone();
        for (at, number) in faults {
            let fault = self.some_fault(&parts, at, number)?;
            fault.apply(self.random, &mut parts, at);
        }
        Some(parts)
    }

    /// A fault with this number that the entry can have.
    fn some_fault(&mut self, parts: &Parts, at: usize, number: u64) -> Option<Fault> {
        let faults: Vec<Fault> = faults(number)
            .filter(|fault| fault.fits(parts, at))
            .collect();
        (!faults.is_empty()).then(|| *self.random.pick(&faults))
    }

    /// Whatever a later entry is refused with comes after all of an earlier one.
    fn two_faulty_entries(&mut self, parts: &Parts) {
        let cases = [
            ("5 before a later 5", 5, 5),
            ("5 before a later 25", 5, 25),
            ("5 before a later 15", 5, 15),
            ("25 before a later 5", 25, 5),
            ("25 before a later 25", 25, 25),
            ("25 before a later 15", 25, 15),
            ("15 before a later 5", 15, 5),
            ("15 before a later 25", 15, 25),
            ("15 before a later 15", 15, 15),
        ];
        for (case, first, second) in cases {
            let (mut earlier, mut later) = (able(parts, first), able(parts, second));
            later.retain(|at| earlier.first().is_some_and(|first| first < at));
            if later.is_empty() {
                continue;
            }
            let later = *self.random.pick(&later);
            earlier.retain(|at| *at < later);
            let earlier = *self.random.pick(&earlier);
            let faults = [(later, second), (earlier, first)];
            if let Some(parts) = self.with_faults(parts, faults) {
                self.push_parts(case, &parts, Spot::First, (first, 3 + earlier));
            }
        }
    }

    /// Row words that no entry uses, alone, before 6 to 8, and behind what an entry is refused with.
    fn row_words_left(&mut self, parts: &Parts) {
        let mut parts = parts.clone();
        let left = *self.random.pick(&[1, 1, 2, 9]);
        let words = [0, 0, 1, -1, i32::MIN, i32::MAX];
        parts.left = (0..left).map(|_| *self.random.pick(&words)).collect();
        self.push_parts("25 a row word left", &parts, Spot::Last, (25, 1));

        // The first witness word counted as a row word.
        let mut moved = parts.clone();
        moved.left = vec![moved.witness_words.remove(0)];
        let case = "25 a row word left, the total as it was";
        self.push_parts(case, &moved, Spot::Last, (25, 1));

        let mut unread = parts.clone();
        match self.random.below(4) {
            0 => unread.witness_words[0] = i32::MAX,
            1 => unread.witness_words.clear(),
            2 => unread.witness_words.push(0),
            _ => unread.witness_words.fill(0),
        }
        let case = "25 a row word left, before 6 to 8";
        self.push_parts(case, &unread, Spot::Last, (25, 1));

        let mut empty = parts.clone();
        empty
            .entries
            .iter_mut()
            .for_each(|entry| entry.disjuncts.clear());
        let case = "25 a row word left, no rows";
        self.push_parts(case, &empty, Spot::Last, (25, 1));

        for (case, number) in [
            ("5 before a row word left", 5),
            ("25 before a row word left", 25),
            ("15 before a row word left", 15),
        ] {
            let entries = able(&parts, number);
            if entries.is_empty() {
                continue;
            }
            let at = *self.random.pick(&entries);
            if let Some(parts) = self.with_faults(&parts, [(at, number)]) {
                self.push_parts(case, &parts, Spot::First, (number, 3 + at));
            }
        }
    }

    /// A program without variables, where a row's count can only be 0.
    fn rows_without_columns(&mut self) {
        let procedures = 1 + self.random.below(3);
        let statements = procedures + self.random.below(3);
        let pool = 2 * statements + 3 * procedures;
        let pair = large::sized(statements, procedures, 0, 0, pool);
        let parts = Parts::of(&pair);
        for spot in Spot::ALL {
            let Some(number) = spot.number(self.random, parts.entries.len()) else {
                continue;
            };
            for (terms, case, refused) in [
                (Vec::new(), "15 a row without columns", 15),
                (vec![(0, 1)], "5 a count without columns", 5),
            ] {
                let mut parts = parts.clone();
                let rows = vec![Row::new([0, 0], terms)];
                parts.entries[number - 1].disjuncts = vec![Disjunct { count: None, rows }];
                self.push_parts(case, &parts, spot, (refused, 2 + number));
                let last = self.aimed.last_mut().expect("just added");
                last.input.program = pair.program.clone();
            }
        }
    }
}
