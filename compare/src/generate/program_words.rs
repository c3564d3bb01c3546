//! Program words by vertex and procedure numbers.

use crate::checker::linear::linear_words;

/// Well-formed program words, looked at by vertex and procedure numbers.
pub struct ProgramWords<'a>(pub &'a [i32]);

impl ProgramWords<'_> {
    pub fn statements(&self) -> usize {
        self.0[0] as usize
    }

    pub fn procedures(&self) -> usize {
        self.0[1] as usize
    }

    pub fn globals(&self) -> usize {
        self.0[2] as usize
    }

    pub fn pool_size(&self) -> i32 {
        self.0[3]
    }

    pub fn entries(&self) -> usize {
        self.statements() + 2 * self.procedures()
    }

    /// Start values of a trace.
    pub fn starts(&self) -> usize {
        self.columns(1)
    }

    /// Locals of a procedure that are no parameters.
    pub fn others(&self, procedure: usize) -> usize {
        let [_, locals, parameters] = self.exit_row(procedure);
        (locals - parameters) as usize
    }

    /// Whether some procedure has other locals.
    pub fn has_others(&self) -> bool {
        (1..=self.procedures()).any(|procedure| self.others(procedure) > 0)
    }

    /// Place of a vertex's kind word.
    pub fn kind(vertex: usize) -> usize {
        3 + vertex
    }

    /// The vertex whose kind word stands at a place.
    pub fn vertex(kind: usize) -> usize {
        kind - 3
    }

    /// Place of a vertex's row place word.
    pub fn place(&self, vertex: usize) -> usize {
        3 + self.statements() + self.procedures() + vertex
    }

    pub fn row(&self, vertex: usize) -> &[i32] {
        let pool = 4 + 2 * (self.statements() + self.procedures());
        &self.0[pool + self.0[self.place(vertex)] as usize..]
    }

    /// First statement, L and F.
    pub fn exit_row(&self, procedure: usize) -> [i32; 3] {
        let row = self.row(self.statements() + procedure);
        [row[0], row[1], row[2]]
    }

    pub fn procedure_of(&self, vertex: usize) -> usize {
        match vertex.checked_sub(self.statements() + 1) {
            Some(before) => before + 1,
            None => (1..=self.procedures())
                .rfind(|&procedure| self.exit_row(procedure)[0] as usize <= vertex)
                .expect("main begins at 1"),
        }
    }

    pub fn columns(&self, procedure: usize) -> usize {
        self.globals() + self.exit_row(procedure)[1] as usize
    }

    pub fn entry_columns(&self, entry: usize) -> usize {
        let vertices = self.statements() + self.procedures();
        match entry.checked_sub(vertices) {
            None | Some(0) => 2 * self.columns(self.procedure_of(entry)),
            Some(procedure) => 2 * self.globals() + self.exit_row(procedure)[2] as usize,
        }
    }

    /// Where the rows of an entry stand in well-formed certificate words, disjunct by disjunct.
    pub fn entry_rows(&self, certificate: &[i32], entry: usize) -> Vec<Vec<usize>> {
        let entries = self.entries();
        let length = linear_words(self.entry_columns(entry));
        let count = certificate[2 + entry] as usize;
        if count == 0 {
            return Vec::new();
        }
        let mut at = 3 + 2 * entries + certificate[2 + entries + entry] as usize;
        let disjuncts = (0..count).map(|_| {
            let first = at + 1;
            let rows = certificate[at] as usize;
            at = first + rows * length;
            (0..rows).map(|row| first + row * length).collect()
        });
        disjuncts.collect()
    }

    /// The words of the constants of an entry's rows, as far as the rows can be read.
    pub fn entry_constants(&self, certificate: &[i32], entry: usize) -> Vec<[i32; 2]> {
        let entries = self.entries();
        let width = linear_words(self.entry_columns(entry));
        let (count, place) = (certificate[2 + entry], certificate[2 + entries + entry]);
        let end = 3 + 2 * entries + certificate[1] as usize;
        let first = usize::try_from(place).map_or(end, |place| 3 + 2 * entries + place);
        let mut rest = certificate.get(first..end).unwrap_or(&[]);
        let mut constants = Vec::new();
        for _ in 0..count.clamp(0, 8) {
            let rows = rest.split_off_first().copied().unwrap_or(0);
            for _ in 0..rows.clamp(0, 32) {
                let row = rest.split_off(..width).unwrap_or(&[]);
                constants.extend(row.first_chunk());
            }
        }
        constants
    }

    /// Where the expressions of a statement of a known kind begin in its row.
    pub fn expressions(&self, vertex: usize) -> Vec<usize> {
        let width = linear_words(self.columns(self.procedure_of(vertex)));
        let length = self.row_length(vertex).unwrap_or(0);
        match self.0[ProgramWords::kind(vertex)] {
            2 | 4 => vec![3],
            3 => vec![4],
            5 => (3..length).step_by(width).collect(),
            _ => Vec::new(),
        }
    }

    /// The words of the constants of a statement, if all of its row lies in the pool.
    pub fn constants(&self, vertex: usize) -> Vec<[i32; 2]> {
        if self.first_word(vertex).is_none() || self.is_cut_off(vertex) {
            return Vec::new();
        }
        let row = self.row(vertex);
        let expressions = self.expressions(vertex).into_iter();
        expressions.map(|at| [row[at], row[at + 1]]).collect()
    }

    /// The line of a statement, and 0 for an exit and for a vertex that there is not.
    pub fn line(&self, vertex: i32) -> i32 {
        match usize::try_from(vertex) {
            Ok(vertex) if (1..=self.statements()).contains(&vertex) => self.row(vertex)[0],
            _ => 0,
        }
    }

    /// The row of a statement, its line first.
    pub fn statement_row(&self, vertex: usize) -> Vec<i32> {
        let length = self.row_length(vertex).expect("a statement's kind");
        self.row(vertex)[..length].to_vec()
    }

    /// The first word of a row that may be wrong, if it lies in the pool.
    pub fn first_word(&self, vertex: usize) -> Option<i32> {
        let place = self.0[self.place(vertex)];
        let is_there = (0..self.pool_size()).contains(&place);
        is_there.then(|| self.row(vertex)[0])
    }

    /// Whether a statement of a known kind has its row's first word in the pool and others past it,
    /// in words whose exits at least are right.
    pub fn is_cut_off(&self, vertex: usize) -> bool {
        if self.first_word(vertex).is_none() {
            return false;
        }
        let length = self.row_length(vertex);
        length.is_some_and(|length| self.row(vertex).len() < length)
    }

    /// How long the row of a statement of a known kind is, its line counted; that of a call is as
    /// long as its callee says, or three words if there is no callee.
    fn row_length(&self, vertex: usize) -> Option<usize> {
        let expression = linear_words(self.columns(self.procedure_of(vertex)));
        Some(match self.0[ProgramWords::kind(vertex)] {
            1 => 2,
            2 | 4 => 3 + expression,
            3 => 4 + expression,
            5 => match self.row(vertex).get(2) {
                Some(&callee) if (1..=self.procedures() as i32).contains(&callee) => {
                    3 + self.exit_row(callee as usize)[2] as usize * expression
                }
                _ => 3,
            },
            _ => return None,
        })
    }

    pub fn with_word(&self, place: usize, word: i32) -> Vec<i32> {
        let mut words = self.0.to_vec();
        words[place] = word;
        words
    }

    /// The vertex's row replaced by one at the end of the pool, so that no other row changes.
    pub fn with_row(&self, vertex: usize, row: &[i32]) -> Vec<i32> {
        let mut words = self.with_word(self.place(vertex), self.pool_size());
        words[3] += row.len() as i32;
        words.extend(row);
        words
    }
}
