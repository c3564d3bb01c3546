//! The two files of a folder, and why a file counts as one without words.

use crate::files::{marked_buffer, LONGEST, PROGRAM, WITNESS};
use crate::generate::Input;
use std::fs::File;
use std::io::{ErrorKind, Read};
use std::path::Path;

/// The words of both files, and what is wrong with a file as such.
pub struct Plan {
    pub program: Vec<i32>,
    pub witness: Vec<i32>,
    pub program_fault: Option<String>,
    pub witness_fault: Option<String>,
}

impl Plan {
    pub fn read(folder: &Path) -> Plan {
        let (program, program_fault) = parts(words(folder, PROGRAM));
        let (witness, witness_fault) = parts(words(folder, WITNESS));
        Plan {
            program,
            witness,
            program_fault,
            witness_fault,
        }
    }

    pub fn new(program: Vec<i32>, witness: Vec<i32>) -> Plan {
        Plan {
            program,
            witness,
            program_fault: None,
            witness_fault: None,
        }
    }

    /// What a checker gets.
    pub fn input(&self) -> Input {
        Input {
            program: self.program.clone(),
            witness: self.witness.clone(),
            buffer: marked_buffer(),
        }
    }
}

fn parts(read: Result<Vec<i32>, String>) -> (Vec<i32>, Option<String>) {
    match read {
        Ok(words) => (words, None),
        Err(fault) => (Vec::new(), Some(fault)),
    }
}

fn words(folder: &Path, name: &str) -> Result<Vec<i32>, String> {
    let mut bytes = Vec::new();
    File::open(folder.join(name))
        .and_then(|file| file.take(LONGEST as u64 + 1).read_to_end(&mut bytes))
        .map_err(|error| match error.kind() {
            ErrorKind::NotFound => format!("There is no file {name} in the folder."),
            _ => format!("The file {name} can't be read: {error}."),
        })?;
    let length = bytes.len();
    if length > LONGEST {
        return Err(format!("The file {name} has more than 65,536 bytes."));
    }
    if !length.is_multiple_of(4) {
        return Err(format!(
            "The file {name} has {length} bytes, which isn't a multiple of 4: its words aren't whole."
        ));
    }
    let words = bytes.chunks_exact(4);
    Ok(words
        .map(|word| i32::from_le_bytes([word[0], word[1], word[2], word[3]]))
        .collect())
}
