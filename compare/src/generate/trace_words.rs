//! The parts of a trace's words.

use super::program_words::ProgramWords;
use super::Pair;

/// Well-formed trace words without their mark and sizes.
#[derive(Clone, Debug)]
pub struct TraceWords {
    pub starts: Vec<i32>,
    pub vertices: Vec<i32>,
    pub entry_values: Vec<i32>,
}

impl TraceWords {
    pub fn of(pair: &Pair) -> TraceWords {
        let starts = 3 + ProgramWords(&pair.program).starts();
        let vertices = starts + pair.witness[1] as usize + 1;
        TraceWords {
            starts: pair.witness[3..starts].to_vec(),
            vertices: pair.witness[starts..vertices].to_vec(),
            entry_values: pair.witness[vertices..].to_vec(),
        }
    }

    /// The words, with sizes to match.
    pub fn words(&self) -> Vec<i32> {
        let sizes = [3, self.steps() as i32, self.entry_values.len() as i32];
        [&sizes[..], &self.starts, &self.vertices, &self.entry_values].concat()
    }

    pub fn steps(&self) -> usize {
        self.vertices.len() - 1
    }

    /// The place of a vertex word, counted from 0.
    pub fn vertex_place(&self, at: usize) -> usize {
        3 + self.starts.len() + at
    }

    /// The place of an entry value, counted from 0.
    pub fn entry_place(&self, at: usize) -> usize {
        self.vertex_place(self.vertices.len()) + at
    }
}
