//! The accepted pairs have all that a program and a certificate can have, and the accepted traces all
//! calls.

use compare::checker::{witness_layout, Answer};
use compare::generate::certificates;
use compare::generate::program_words::ProgramWords;
use compare::generate::trace_words::TraceWords;
use compare::generate::traces;
use compare::random::Random;
use std::collections::BTreeSet;

#[derive(Debug, Default)]
struct Seen {
    kinds: [u64; 6],
    /// By the operator's word.
    branches: [u64; 7],
    asserts: [u64; 7],
    /// By the number of actuals.
    calls: [u64; 9],
    /// By the number of the callee's other locals.
    calls_by_others: [u64; 9],
    programs_by_mains_others: [u64; 9],
    /// Statements without a line, and at the first and the last there can be.
    without_line: u64,
    first_line: u64,
    last_line: u64,
    /// Statements at the row of an earlier one, which has a line; and at another row with the same.
    shared_rows: u64,
    same_lines: u64,
    calls_of_itself: u64,
    calls_of_main: u64,
    assigns_to_globals: u64,
    assigns_to_parameters: u64,
    /// Entries by the number of their disjuncts.
    path_entries: [u64; 9],
    summary_entries: [u64; 9],
    /// Disjuncts without rows, and with 32.
    without_rows: u64,
    most_rows: u64,
    /// Rows of one column alone; none is constant.
    of_one_column: u64,
    shared_places: u64,
    contradictions: u64,
    by_disjunct: [u64; 9],
}

impl Seen {
    fn program(&mut self, given: &ProgramWords) {
        self.programs_by_mains_others[given.others(1)] += 1;
        self.lines(given);
        for vertex in 1..=given.statements() {
            let procedure = given.procedure_of(vertex);
            // Behind the line.
            let row = &given.statement_row(vertex)[1..];
            let kind = given.0[ProgramWords::kind(vertex)] as usize;
            self.kinds[kind] += 1;
            match kind {
                2 => {
                    let column = row[1] as usize;
                    let parameters = given.exit_row(procedure)[2] as usize;
                    match column.checked_sub(given.globals()) {
                        None => self.assigns_to_globals += 1,
                        Some(local) if local < parameters => self.assigns_to_parameters += 1,
                        Some(_) => {}
                    }
                }
                3 => self.branches[row[2] as usize] += 1,
                4 => self.asserts[row[1] as usize] += 1,
                5 => {
                    let callee = row[1] as usize;
                    self.calls[given.exit_row(callee)[2] as usize] += 1;
                    self.calls_by_others[given.others(callee)] += 1;
                    self.calls_of_itself += u64::from(callee == procedure);
                    self.calls_of_main += u64::from(callee == 1);
                }
                _ => {}
            }
        }
    }

    fn lines(&mut self, given: &ProgramWords) {
        let mut places = BTreeSet::new();
        let mut lines = BTreeSet::new();
        for vertex in 1..=given.statements() {
            let line = given.statement_row(vertex)[0];
            let is_new_place = places.insert(given.0[given.place(vertex)]);
            let is_new_line = lines.insert(line);
            match line {
                0 => self.without_line += 1,
                _ if !is_new_place => self.shared_rows += 1,
                _ => self.same_lines += u64::from(!is_new_line),
            }
            self.first_line += u64::from(line == 1);
            self.last_line += u64::from(line == 1_000_000);
        }
    }

    fn certificate(&mut self, given: &ProgramWords, certificate: &[i32]) {
        let entries = given.entries();
        let vertices = given.statements() + given.procedures();
        let mut places = Vec::new();
        for entry in 1..=entries {
            let count = certificate[2 + entry] as usize;
            match entry <= vertices {
                true => self.path_entries[count] += 1,
                false => self.summary_entries[count] += 1,
            }
            if count == 0 {
                continue;
            }
            let place = certificate[2 + entries + entry] as usize;
            self.shared_places += u64::from(places.contains(&place));
            places.push(place);
            let columns = given.entry_columns(entry);
            for rows in given.entry_rows(certificate, entry) {
                self.without_rows += u64::from(rows.is_empty());
                self.most_rows += u64::from(rows.len() == 32);
                for row in rows {
                    let coefficients = &certificate[row + 2..row + 2 + columns];
                    let present = coefficients.iter().filter(|cell| **cell != 0).count();
                    assert_ne!(present, 0, "{certificate:?}");
                    self.of_one_column += u64::from(present == 1);
                }
            }
        }
    }
}

const PAIRS: usize = 4_000;

#[test]
fn accepted_pairs() {
    let random = &mut Random::new(41);
    let mut seen = Seen::default();
    let mut entailments = 0;
    for _ in 0..PAIRS {
        let pair = certificates::accepted(random);
        let given = ProgramWords(&pair.program);
        seen.program(&given);
        seen.certificate(&given, &pair.witness);
        let layout = witness_layout(&pair.program, &pair.witness).expect("accepted");
        entailments += layout.len();
        for entailment in layout {
            match pair.witness[entailment.words().start] as usize {
                0 => seen.contradictions += 1,
                disjunct => seen.by_disjunct[disjunct] += 1,
            }
        }
    }
    println!("{entailments} entailments of {PAIRS} pairs: {seen:?}");
    assert!(seen.kinds[1..].iter().all(|count| *count >= 100));
    assert!(seen.branches.iter().all(|count| *count >= 100));
    assert!(seen.asserts[1..].iter().all(|count| *count >= 100));
    assert!(seen.calls.iter().all(|count| *count >= 10));
    assert!(seen.calls_by_others.iter().all(|count| *count >= 10));
    assert!(seen
        .programs_by_mains_others
        .iter()
        .all(|count| *count >= 10));
    assert!(seen.path_entries.iter().all(|count| *count >= 10));
    assert!(seen.summary_entries.iter().all(|count| *count >= 1));
    assert!(seen.by_disjunct[1..].iter().all(|count| *count >= 1));
    let least = [
        seen.without_line,
        seen.first_line,
        seen.last_line,
        seen.shared_rows,
        seen.same_lines,
        seen.calls_of_itself,
        seen.calls_of_main,
        seen.assigns_to_globals,
        seen.assigns_to_parameters,
        seen.without_rows,
        seen.of_one_column,
        seen.shared_places,
        seen.contradictions,
    ];
    assert!(least.iter().all(|count| *count >= 100));
    assert!(seen.most_rows >= 10);
}

/// Calls in accepted traces, by the number of the callee's other locals.
#[derive(Debug, Default)]
struct Calls {
    all: [u64; 9],
    of_main: [u64; 9],
    of_itself: [u64; 9],
    returns: [u64; 9],
    /// Traces by the number of main's other locals.
    traces: [u64; 9],
}

impl Calls {
    fn trace(&mut self, given: &ProgramWords, words: &TraceWords) {
        self.traces[given.others(1)] += 1;
        let vertices = words.vertices[..words.steps()].iter();
        for vertex in vertices.map(|&vertex| vertex as usize) {
            let procedure = given.procedure_of(vertex);
            match given.0[ProgramWords::kind(vertex)] {
                5 => {
                    let callee = given.statement_row(vertex)[2] as usize;
                    let others = given.others(callee);
                    self.all[others] += 1;
                    self.of_main[others] += u64::from(callee == 1);
                    self.of_itself[others] += u64::from(callee == procedure);
                }
                6 => self.returns[given.others(procedure)] += 1,
                _ => {}
            }
        }
    }
}

#[test]
fn accepted_traces() {
    let random = &mut Random::new(42);
    let mut calls = Calls::default();
    for _ in 0..20_000 {
        let trace = traces::trace(random);
        if let Answer::Trace(_) = trace.answer {
            let words = TraceWords::of(&trace.pair);
            calls.trace(&ProgramWords(&trace.pair.program), &words);
        }
    }
    println!("calls in accepted traces: {calls:?}");
    let Calls {
        all,
        of_main,
        of_itself,
        returns,
        traces,
    } = calls;
    for counts in [all, of_main, of_itself, returns, traces] {
        assert!(counts.iter().all(|count| *count >= 10));
    }
}
