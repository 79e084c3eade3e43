//! The file of an arena.
use crate::problem::Problem;
use btt::{AlignedBytes, MAX_ARENA};
use std::ffi::OsStr;
use std::fs::{File, OpenOptions};
use std::io::{self, Read};

/// A file that is not read yet.
pub struct Opened<'a> {
    name: &'a OsStr,
    file: File,
}

/// What went wrong with a file.
pub fn trouble(name: &OsStr, error: io::Error) -> Problem {
    Problem::File(format!("{}: {error}", name.to_string_lossy()))
}

impl Opened<'_> {
    /// Opens a file that is to be written.
    pub fn to_write(name: &OsStr) -> Result<Opened<'_>, Problem> {
        let file = OpenOptions::new().read(true).write(true).open(name).map_err(|error| trouble(name, error))?;
        Ok(Opened { name, file })
    }

    /// Waits until no other btt has the file, keeps others off while the file is open, and reads it.
    pub fn locked(self) -> Result<(AlignedBytes, File), Problem> {
        let bytes = self.file.lock().and_then(|()| contents(&self.file));
        Ok((bytes.map_err(|error| trouble(self.name, error))?, self.file))
    }
}

/// The bytes of a file while no other btt writes to it.
pub fn load(name: &OsStr) -> Result<AlignedBytes, Problem> {
    let bytes = File::open(name).and_then(|file| file.lock_shared().and_then(|()| contents(&file)));
    bytes.map_err(|error| trouble(name, error))
}

/// The bytes of a file. Of one that is longer than any arena just enough is read for the library to refuse it.
fn contents(file: &File) -> io::Result<AlignedBytes> {
    let mut bytes = Vec::new();
    file.take(MAX_ARENA as u64 + 1).read_to_end(&mut bytes)?;
    Ok(AlignedBytes::from(&bytes[..]))
}
