//! Making the file of an arena.
use crate::arguments::{Make, Room};
use crate::file::trouble;
use crate::problem::Problem;
use crate::{lent, output};
use btt::{internal_size, AlignedBytes, Answer, Geometry, Identifiers, MAX_ARENA, MAX_LANES};
use std::ffi::OsStr;
use std::fs::{self, File, OpenOptions};
use std::io::{self, ErrorKind, Write};
use std::path::{Path, PathBuf};
use std::process;

/// Makes an arena in memory, puts it into a file, and says what it made.
pub fn make(name: &OsStr, asked: &Make) -> Result<(), Problem> {
    let geometry = figures(asked)?;
    // Where no arena is made of the figures, the library says why: it is given no bytes.
    let length = geometry.made_length().unwrap_or(0);
    let mut bytes = AlignedBytes::zeroed(length as usize);
    let done = lent(&mut bytes).make(geometry, Identifiers { own: &asked.own, parent: &asked.parent });
    done.map_err(|answer| refused(geometry, answer))?;
    let (Geometry { size, sectors, lanes }, shown) = (geometry, name.to_string_lossy());
    if let Placed::Unsynced(error) = placed(name, &bytes, asked.force, sync_folder)? {
        // The file is made all the same; where standard error is closed there is no one left to tell.
        let _ = writeln!(io::stderr(), "btt: {shown} is made, but a power cut may take its name away again: its folder: {error}");
    }
    let said = format!("made {shown}: {sectors} sectors of {size} bytes, {lanes} lanes, {length} bytes in all\n");
    output::print(said.as_bytes()).map_err(|problem| Problem::File(format!("{shown} is made, but {problem}")))
}

/// What is to be told of figures of which the library makes no arena: a size that no sector has, or a number of lanes that no arena has,
/// is named.
fn refused(geometry: Geometry, answer: Answer) -> Problem {
    match (answer, internal_size(geometry.size)) {
        (Answer::ForbiddenFigure, None) => Problem::Size(geometry.size),
        (Answer::ForbiddenFigure, _) if !(1..=MAX_LANES as u32).contains(&geometry.lanes) => Problem::Lanes(geometry.lanes),
        _ => Problem::Refused(answer),
    }
}

/// The figures that are asked for.
fn figures(asked: &Make) -> Result<Geometry, Problem> {
    let Make { size, lanes, .. } = *asked;
    let bytes = match asked.room {
        Room::Sectors(sectors) => return Ok(Geometry { size, sectors, lanes }),
        Room::Bytes(bytes) => bytes,
    };
    let smallest = Geometry { size, sectors: lanes, lanes };
    let Some(least) = smallest.made_length() else {
        // Size or lanes are forbidden, in the smallest arena too, and the library says so.
        return Ok(smallest);
    };
    let most = MAX_ARENA as u64;
    let fitting = Geometry::fitting(bytes, size, lanes).filter(|_| bytes <= most);
    fitting.ok_or_else(|| {
        Problem::Room(format!(
            "no arena of {lanes} lanes and sectors of {size} bytes is made for {bytes} bytes, but for {least} to {most}"
        ))
    })
}

/// A file that has its name.
#[derive(Debug)]
enum Placed {
    /// The name is on the disk.
    Synced,
    /// The name may not be on the disk yet, for this went wrong.
    Unsynced(io::Error),
}

/// Writes bytes to a new file beside, and gives that its name when it is on the disk: the file is never there in part.
fn placed(name: &OsStr, bytes: &[u8], force: bool, sync: fn(&Path) -> io::Result<()>) -> Result<Placed, Problem> {
    let path = Path::new(name);
    if path.file_name().is_none() {
        return Err(Problem::File(format!("{} is no name of a file", path.display())));
    }
    let found = fs::symlink_metadata(path);
    let replaceable = found.as_ref().is_ok_and(|found| found.is_file());
    if force && found.is_ok() && !replaceable {
        return Err(Problem::File(format!("{} is not a regular file, and nothing else is replaced", path.display())));
    }
    let (beside, mut file) = new_file(path).map_err(|error| trouble(name, error))?;
    let written = file.write_all(bytes).and_then(|()| file.sync_all());
    let done = written.and_then(|()| named(&beside, path, force));
    if done.is_err() || !force {
        // Only a renaming took the name beside away. That it cannot be removed is not the trouble to tell.
        let _ = fs::remove_file(&beside);
    }
    match done {
        Ok(()) => Ok(sync(path).map_or_else(Placed::Unsynced, |()| Placed::Synced)),
        Err(error) if error.kind() == ErrorKind::AlreadyExists => {
            let hint = if replaceable { "; --force replaces it" } else { "" };
            Err(Problem::File(format!("{} is there already{hint}", path.display())))
        }
        Err(error) => Err(trouble(name, error)),
    }
}

/// Gives a file its name. A link fails where the name is taken, also at the last moment; a renaming takes it.
fn named(beside: &Path, path: &Path, force: bool) -> io::Result<()> {
    if force {
        fs::rename(beside, path)
    } else {
        fs::hard_link(beside, path)
    }
}

/// A new file in the folder of another, with a name of its own that no file has.
fn new_file(path: &Path) -> io::Result<(PathBuf, File)> {
    let mut number = 0;
    loop {
        let beside = path.with_file_name(format!(".btt-{}-{number}.new", process::id()));
        match OpenOptions::new().write(true).create_new(true).open(&beside) {
            Err(error) if error.kind() == ErrorKind::AlreadyExists => number += 1,
            opened => return Ok((beside, opened?)),
        }
    }
}

/// Comes back when the names in a file's folder are on the disk.
fn sync_folder(path: &Path) -> io::Result<()> {
    let folder = match path.parent() {
        Some(folder) if folder != Path::new("") => folder,
        _ => Path::new("."),
    };
    File::open(folder)?.sync_all()
}

#[cfg(test)]
#[path = "making_tests.rs"]
mod tests;
