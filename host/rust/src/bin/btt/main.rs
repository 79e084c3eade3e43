//! The command btt: makes an arena of a block translation table in a file, reports on it, reads and writes its sectors, and replays
//! run logs on it.
mod arguments;
mod file;
mod layouts;
mod making;
mod output;
mod problem;
mod storing;
mod text;

use arguments::{Arguments, Command};
use btt::{AlignedBytes, Arena, Layout, OpenArena, MAX_SECTOR};
use output::print;
use problem::Problem;
use std::env;
use std::ffi::OsStr;
use std::io::{self, Read, Write};
use std::process::ExitCode;

fn main() -> ExitCode {
    let done = arguments::parse(env::args_os().skip(1)).and_then(run);
    match done {
        Ok(()) => ExitCode::SUCCESS,
        Err(problem) => {
            // Where standard error is closed there is no one left to tell.
            let _ = writeln!(io::stderr(), "btt: {problem}");
            problem.exit_code()
        }
    }
}

fn run(arguments: Arguments) -> Result<(), Problem> {
    if !matches!(arguments.command, Command::Write { .. }) {
        output::must_be_open()?;
    }
    let Arguments { command, file, layout } = arguments;
    match command {
        Command::Help => print(arguments::HELP.as_bytes()),
        Command::Version => print(concat!("btt ", env!("CARGO_PKG_VERSION"), "\n").as_bytes()),
        Command::Make(asked) => making::make(&file, &asked),
        Command::Report => told(&file, layout, text::report),
        Command::Dump => told(&file, layout, text::dump),
        Command::Read { sector } => read(&file, layout, sector),
        Command::Write { sector } => write(&file, layout, sector),
        Command::Replay { log } => replay(&file, &log),
    }
}

/// An arena in memory. The bytes are aligned, so the one check of the wrapper holds.
fn lent(bytes: &mut AlignedBytes) -> Arena<'_> {
    Arena::new(bytes).expect("aligned bytes are aligned")
}

/// Prints what is to be told of the arena in a file; the file is not changed.
fn told(file: &OsStr, layout: Layout, tell: fn(&mut AlignedBytes, Layout) -> text::Told) -> Result<(), Problem> {
    let mut bytes = file::load(file)?;
    let (text, outcome) = tell(&mut bytes, layout);
    print(text.as_bytes())?;
    outcome.map_err(|answer| layouts::refused(&mut bytes, layout, answer))
}

/// Prints what a run log answers on the arena in a file, which a replay opens in its one layout; neither file is changed.
fn replay(file: &OsStr, log: &OsStr) -> Result<(), Problem> {
    let (mut bytes, log) = (file::load(file)?, file::load(log)?);
    let (text, outcome) = text::replay(&mut bytes, &log);
    print(text.as_bytes())?;
    Ok(outcome?)
}

/// Prints a sector; what opening mends it mends in memory, and the file is not changed.
fn read(file: &OsStr, layout: Layout, sector: u32) -> Result<(), Problem> {
    let mut bytes = file::load(file)?;
    layouts::must_open(&mut bytes, layout)?;
    let opened = OpenArena::open_in(layout, lent(&mut bytes))?;
    let mut buffer = vec![0; opened.sector_size()];
    opened.read_sector(sector, &mut buffer)?;
    print(&buffer)
}

/// Writes a sector from standard input. The lock is taken only when the input is there.
fn write(file: &OsStr, layout: Layout, sector: u32) -> Result<(), Problem> {
    let file = file::Opened::to_write(file)?;
    let mut buffer = Vec::new();
    // A byte more than the longest sector has is enough for the library to refuse it.
    let input = io::stdin().take(MAX_SECTOR as u64 + 1).read_to_end(&mut buffer);
    input.map_err(|error| Problem::File(format!("standard input: {error}")))?;
    let (mut bytes, mut medium) = file.locked()?;
    layouts::must_open(&mut bytes, layout)?;
    storing::write(&mut bytes, &mut medium, layout, sector, &buffer)
}
