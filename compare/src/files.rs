//! What document 01's file program reads and prints, and folders to run it in.

use crate::checker::Answer;
use crate::compare::Outcome;
use std::path::{Path, PathBuf};
use std::process::{Command, Output};
use std::sync::atomic::{AtomicUsize, Ordering};
use std::{env, fs, io, process};

/// The most bytes of a file.
pub const LONGEST: usize = 65_536;

/// The names of the two files.
pub const PROGRAM: &str = "plan.lin";
pub const WITNESS: &str = "plan.wit";

/// Mark of a cell of the result buffer that no check has touched; no value can be this number.
pub const MARK: i64 = i64::MIN + 7;

/// The program's result buffer, which is never too short, each cell marked.
pub fn marked_buffer() -> Vec<i64> {
    vec![MARK; 16]
}

/// The line for an answer and the result buffer after it, which was marked before.
pub fn line((answer, buffer): &Outcome) -> String {
    let mut line = answer.to_string();
    if let Answer::Trace(_) = answer {
        for value in buffer.iter().take_while(|cell| **cell != MARK) {
            line += &format!(" {value}");
        }
    }
    line
}

/// The words of a file; none if it is absent, too long or not in whole words.
pub fn read_words(path: &Path) -> Vec<i32> {
    let bytes = fs::read(path).unwrap_or_default();
    if bytes.len() > LONGEST || !bytes.len().is_multiple_of(4) {
        return Vec::new();
    }
    let words = bytes.chunks_exact(4);
    words
        .map(|word| i32::from_le_bytes([word[0], word[1], word[2], word[3]]))
        .collect()
}

/// The bytes of a file with these words.
pub fn bytes(words: &[i32]) -> Vec<u8> {
    words.iter().flat_map(|word| word.to_le_bytes()).collect()
}

/// A file of the repository.
pub fn in_repository(path: &str) -> PathBuf {
    Path::new(env!("CARGO_MANIFEST_DIR")).join("..").join(path)
}

/// The proved program, which `scripts/build check_plan` writes.
pub fn program() -> PathBuf {
    in_repository("target/bin/check_plan")
}

/// A new folder among the system's temporary ones, removed in the end.
pub struct Folder(PathBuf);

impl Folder {
    pub fn new() -> io::Result<Folder> {
        static MADE: AtomicUsize = AtomicUsize::new(0);
        let number = MADE.fetch_add(1, Ordering::Relaxed);
        let path = env::temp_dir().join(format!("leukarion-{}-{number}", process::id()));
        fs::create_dir(&path)?;
        Ok(Folder(path))
    }

    pub fn file(&self, name: &str) -> PathBuf {
        self.0.join(name)
    }

    /// Writes both files.
    pub fn write(&self, program: &[u8], witness: &[u8]) -> io::Result<()> {
        fs::write(self.file(PROGRAM), program)?;
        fs::write(self.file(WITNESS), witness)
    }

    /// Runs a command in the folder.
    pub fn run(&self, command: &mut Command) -> io::Result<Output> {
        command.current_dir(&self.0).output()
    }
}

impl Drop for Folder {
    fn drop(&mut self) {
        // What is left behind is a temporary folder.
        let _ = fs::remove_dir_all(&self.0);
    }
}
