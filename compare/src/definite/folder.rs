//! A new folder with the two files of a plan: whole, or not there.

use crate::files::{bytes, PROGRAM, WITNESS};
use crate::generate::Pair;
use std::ffi::OsString;
use std::fs::{self, File};
use std::io::{self, ErrorKind, Write};
use std::path::{Path, PathBuf};

/// A folder that was made here. It is removed with its two files, unless it is kept.
pub struct NewFolder {
    path: PathBuf,
    is_kept: bool,
}

impl NewFolder {
    /// A part of the folder of this name: a folder beside it, `NAME.part0` to `NAME.part9`.
    pub fn part_of(name: &Path) -> io::Result<NewFolder> {
        for digit in 0..10 {
            let mut path = OsString::from(name);
            path.push(format!(".part{digit}"));
            match fs::create_dir(&path) {
                Err(error) if error.kind() == ErrorKind::AlreadyExists => {}
                made => {
                    return made.map(|()| NewFolder {
                        path: path.into(),
                        is_kept: false,
                    })
                }
            }
        }
        let text =
            "ten parts are left there, .part0 to .part9, of runs that were ended; remove them";
        Err(io::Error::new(ErrorKind::AlreadyExists, text))
    }

    pub fn path(&self) -> &Path {
        &self.path
    }

    pub fn write(&self, pair: &Pair) -> io::Result<()> {
        for (name, words) in [(PROGRAM, &pair.program), (WITNESS, &pair.witness)] {
            let mut file = File::create_new(self.path.join(name))?;
            file.write_all(&bytes(words))?;
            file.sync_all()?;
        }
        Ok(())
    }

    /// Gives it a name that no file and no folder with something in it has.
    pub fn rename(&mut self, name: &Path) -> io::Result<()> {
        fs::rename(&self.path, name)?;
        self.path = name.into();
        Ok(())
    }

    pub fn keep(mut self) {
        self.is_kept = true;
    }
}

impl Drop for NewFolder {
    fn drop(&mut self) {
        if self.is_kept {
            return;
        }
        // What others put there stays, and with it the folder.
        for name in [PROGRAM, WITNESS] {
            let _ = fs::remove_file(self.path.join(name));
        }
        let _ = fs::remove_dir(&self.path);
    }
}
