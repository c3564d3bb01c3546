//! Damage aimed at 14 and at 9 of an entry value, alone and beside other damage.

use super::{refused, refused_at, Aim, Spot};
use crate::build::Sharing;
use crate::checker::Answer;
use crate::generate::interpreter::other_local;
use crate::generate::program_words::ProgramWords;
use crate::generate::trace_words::TraceWords;
use crate::generate::traces::{climb, Trace};
use crate::generate::Pair;
use crate::random::Random;

/// Most entry values of a trace.
pub(super) const ENTRY_VALUES: usize = 32_768;

const BEYOND: [i32; 4] = [1_000_000_001, -1_000_000_001, i32::MIN, i32::MAX];

impl Aim<'_> {
    /// An accepted trace, damaged for each cause.
    pub(super) fn entry_values(&mut self, trace: &Trace) {
        for spot in Spot::ALL {
            self.missing(spot, trace);
            self.entry_value(spot);
            self.left_over_behind_damage(spot);
        }
        self.left_over(trace);
        self.starts_and_entry_values();
        self.old_marks();
        // These are long.
        if self.random.chance(2) {
            self.most_entry_values();
        }
    }

    /// How many entry values the calls before one take.
    fn taken_before(trace: &Trace, call: usize) -> usize {
        trace.takes[..call].iter().map(|(_, taken)| taken).sum()
    }

    /// A call that takes entry values finds none, or some and not all; it is also the last vertex,
    /// which should be 0.
    fn missing(&mut self, spot: Spot, trace: &Trace) {
        let Some(number) = spot.number(self.random, trace.takes.len()) else {
            return;
        };
        let (at, needed) = trace.takes[number - 1];
        let before = Aim::taken_before(trace, number - 1);
        let mut left = vec![("14 missing, none left", 0)];
        if needed > 1 {
            let some = 1 + self.random.below(needed - 1);
            left.push(("14 missing, some left", some));
        }
        for (case, left) in left {
            let mut words = TraceWords::of(self.pair);
            words.entry_values.truncate(before + left);
            let place = words.vertex_place(at);
            self.push_case(case, words.words(), spot, refused(14, place));
            words.vertices.truncate(at + 1);
            let answer = refused_at(10, place, self.left_line(&words, at));
            let case = "10 of the last vertex, values missing";
            self.push_case(case, words.words(), Spot::Last, answer);
        }
    }

    fn more(&mut self, words: &mut TraceWords, count: usize) {
        let more = (0..count).map(|_| other_local(self.random));
        words.entry_values.extend(more);
    }

    /// One entry value too many, or several; with any buffer.
    fn left_over(&mut self, trace: &Trace) {
        let several = 2 + self.random.below(9);
        for count in [1, several] {
            let mut words = TraceWords::of(self.pair);
            let taken = words.entry_values.len();
            self.more(&mut words, count);
            let answer = refused(14, words.entry_place(taken));
            let (case, spot) = match (taken, count) {
                (0, 1) => ("14 left over, one of one", Spot::First),
                (0, _) => ("14 left over, all of several", Spot::First),
                (_, 1) => ("14 left over, the last", Spot::Last),
                _ => ("14 left over, the last ones", Spot::Middle),
            };
            self.push_case(case, words.words(), spot, answer);
            if let Some(longest) = trace.values.len().checked_sub(1) {
                let length = self.random.below(longest + 1);
                self.push_case("14 before 13", words.words(), spot, answer);
                self.shorten_buffer(length);
            }
        }
    }

    /// A wrong vertex comes before entry values that are left.
    fn left_over_behind_damage(&mut self, spot: Spot) {
        let mut words = TraceWords::of(self.pair);
        let Some(number) = spot.number(self.random, words.vertices.len()) else {
            return;
        };
        let count = 1 + self.random.below(3);
        self.more(&mut words, count);
        words.vertices[number - 1] = *self.random.pick(&[-1, i32::MIN, i32::MAX, 2_000]);
        let line = self.left_line(&words, number - 1);
        let answer = refused_at(10, words.vertex_place(number - 1), line);
        self.push_case("10 before 14 left over", words.words(), spot, answer);
    }

    /// An entry value beyond its limit, which a call takes or none does. Those behind it may be
    /// beyond too, and vertices may be wrong.
    fn entry_value(&mut self, spot: Spot) {
        let mut words = TraceWords::of(self.pair);
        let taken = words.entry_values.len();
        let unused = *self.random.pick(&[0, 0, 1, 4]);
        self.more(&mut words, unused);
        let all = words.entry_values.len();
        let Some(number) = spot.number(self.random, all) else {
            return;
        };
        let last = *self.random.pick(&[number, all]);
        for value in &mut words.entry_values[number - 1..last] {
            *value = *self.random.pick(&BEYOND);
        }
        if self.random.chance(30) {
            let at = self.random.below(words.vertices.len());
            words.vertices[at] = -1;
        }
        let case = match number <= taken {
            true => "9 at an entry value that a call takes",
            false => "9 at an entry value that no call takes",
        };
        let answer = refused(9, words.entry_place(number - 1));
        self.push_case(case, words.words(), spot, answer);
    }

    /// A start value beyond its limit comes before an entry value.
    fn starts_and_entry_values(&mut self) {
        let mut words = TraceWords::of(self.pair);
        self.more(&mut words, 1);
        let Some(at) = words.starts.len().checked_sub(1) else {
            return;
        };
        let at = self.random.below(at + 1);
        words.starts[at] = *self.random.pick(&BEYOND);
        words.entry_values[0] = *self.random.pick(&BEYOND);
        let given = ProgramWords(&self.pair.program);
        let case = match at < words.starts.len() - given.others(1) {
            true => "9 at a start value, before an entry value",
            false => "9 at an other local's start value, before an entry value",
        };
        self.push_case(case, words.words(), Spot::First, refused(9, 3 + at));
    }

    /// The mark that traces had before, with these words and with the words of that time.
    fn old_marks(&mut self) {
        let mut marked = self.pair.witness.clone();
        marked[0] = 2;
        let words = TraceWords::of(self.pair);
        let given = ProgramWords(&self.pair.program);
        let known = words.starts.len() - given.others(1);
        let old = [
            &[2, words.steps() as i32],
            &words.starts[..known],
            &words.vertices,
        ]
        .concat();
        for witness in [marked, old] {
            self.push_case("mark 2", witness, Spot::First, refused(4, 0));
        }
    }

    /// E at its limit, one below and one beyond, and below 0; the total is right.
    fn most_entry_values(&mut self) {
        for count in [ENTRY_VALUES - 1, ENTRY_VALUES, ENTRY_VALUES + 1] {
            let mut words = TraceWords::of(self.pair);
            let taken = words.entry_values.len();
            words.entry_values.resize(count, 7);
            let (case, answer) = match count > ENTRY_VALUES {
                true => ("E 32,769", refused(4, 0)),
                false => ("E 32,768 or 32,767", refused(14, words.entry_place(taken))),
            };
            self.push_case(case, words.words(), Spot::First, answer);
        }
        let mut words = TraceWords::of(self.pair);
        words.entry_values.clear();
        let mut witness = words.words();
        witness[2] = -1;
        witness.pop();
        self.push_case("E -1", witness, Spot::First, refused(4, 0));
    }

    /// A trace that is refused with 11 or 12 at a call that takes entry values, which are missing:
    /// 12 comes before 14, and 14 before 11. Cut there, 10 comes before all.
    pub(super) fn missing_at_limit(&mut self, trace: &Trace, number: u64, at: usize) {
        let call = trace.takes.iter().position(|(vertex, _)| *vertex == at);
        let Some(call) = call else {
            return;
        };
        let before = Aim::taken_before(trace, call);
        let mut words = TraceWords::of(self.pair);
        let left = self.random.below(trace.takes[call].1);
        words.entry_values.truncate(before + left);
        let place = words.vertex_place(at);
        let line = self.left_line(&words, at);
        let (case, answer) = match number {
            12 => ("12 before 14", refused_at(12, place, line)),
            _ => ("14 before 11", refused(14, place)),
        };
        self.push_case(case, words.words(), Spot::Middle, answer);
        words.vertices.truncate(at + 1);
        let answer = refused_at(10, place, line);
        let case = "10 of the last vertex, values missing";
        self.push_case(case, words.words(), Spot::Last, answer);
    }
}

/// A trace with several faults, in the order in which they are tested.
pub struct Clash {
    pub pair: Pair,
    pub faults: Vec<Fault>,
}

#[derive(Clone, Copy, Debug, PartialEq, Eq, PartialOrd, Ord)]
pub struct Fault {
    /// The vertex, counted from 0; none for a fault that is found before any vertex.
    pub at: Option<usize>,
    /// Which test of a vertex it is, or which word.
    rank: usize,
    pub number: u64,
    place: usize,
    line: i32,
}

impl Clash {
    pub fn answer(&self) -> Answer {
        let first = self.faults[0];
        refused_at(first.number, first.place, first.line)
    }
}

/// The tests of a vertex, in their order.
const TESTS: [u64; 4] = [10, 12, 14, 11];

/// Main(x) calls f(1,000 x + ..), f(b) calls f(b + 1), and each vertex is arrived at by a call: one
/// is no step, one opens the 65th call, one lacks entry values and one passes the value limit, or
/// some of these. Some of the words are beyond their limits at times.
pub fn clashing(random: &mut Random) -> Clash {
    let steps = 60 + random.below(12);
    let mut at = || random.chance(70).then(|| 60 + random.below(9));
    let [wrong, missing, beyond] = [at(), at(), at()];
    let sign = *random.pick(&[1, -1]);
    let added = beyond.map_or(-1_000, |at| 2 - at as i32);
    let others = 1 + random.below(7);
    let mains_others = random.below(3);
    let [constant, step] = [sign * added, sign].map(i64::from);
    let program = climb([constant, 1_000], step, [mains_others, others]).lined(random);
    let entry_values = match missing {
        Some(at) => others * (at - 1) + random.below(others),
        None => others * steps + *random.pick(&[0, 1, 9]),
    };
    let mut words = TraceWords {
        starts: vec![0; program.columns(0)],
        vertices: [vec![1], vec![2; steps]].concat(),
        entry_values: (0..entry_values).map(|_| other_local(random)).collect(),
    };
    words.starts[0] = sign * 1_000_000_000;
    // The last vertex is 0, to which no step leads, or isn't 0.
    words.vertices[steps] = *random.pick(&[0, 2]);
    let wrong = wrong.filter(|at| *at < steps).unwrap_or(steps);
    if wrong < steps {
        words.vertices[wrong] = *random.pick(&[0, 1, 3, 4, 9, -1, i32::MAX]);
    }
    let faults = TESTS
        .into_iter()
        .zip([Some(wrong), Some(64), missing, beyond]);
    let faults = faults.enumerate().filter_map(|(rank, (number, at))| {
        let at = at.filter(|at| *at <= steps)?;
        Some(Fault {
            at: Some(at),
            rank,
            number,
            place: words.vertex_place(at),
            // All steps before it are right, and leave f's call.
            line: match number {
                14 => 0,
                _ => program.line(2),
            },
        })
    });
    let mut faults: Vec<Fault> = faults.collect();
    let witness = beyond_limits(random, words, &mut faults);
    faults.sort_unstable();
    let pair = Pair {
        program: program.words(Sharing::Shared),
        witness,
    };
    Clash { pair, faults }
}

/// The words, at times with a start value or an entry value beyond its limit, or the old mark.
fn beyond_limits(random: &mut Random, mut words: TraceWords, faults: &mut Vec<Fault>) -> Vec<i32> {
    let mut add = |rank, number, place| {
        faults.push(Fault {
            at: None,
            rank,
            number,
            place,
            line: 0,
        })
    };
    if random.chance(10) {
        let at = random.below(words.starts.len());
        words.starts[at] = *random.pick(&BEYOND);
        add(1, 9, 3 + at);
    }
    if random.chance(10) {
        let at = random.below(words.entry_values.len());
        words.entry_values[at] = *random.pick(&BEYOND);
        add(2, 9, words.entry_place(at));
    }
    let mut witness = words.words();
    if random.chance(5) {
        witness[0] = 2;
        add(0, 4, 0);
    }
    witness
}
