//! Replaying a run log.
use crate::{open, start, step};
use btt::{Answer, Handle, Lane, Replay, MAX_LANES, MAX_LOG};

/// The layout of every arena that a log is run on.
const LAYOUT: u32 = 16;

/// A record of a log.
enum Record {
    Start { lane: u32, sector: u32 },
    Step { lane: u32 },
    Cut,
}

/// The record with which a log begins and what follows it, if it is whole and of a known kind.
fn first(log: &[u8]) -> Option<(Record, &[u8])> {
    match log {
        [10, 0, 1, 0, a, b, c, d, e, f, rest @ ..] => {
            let (lane, sector) = (u16::from_le_bytes([*a, *b]), u32::from_le_bytes([*c, *d, *e, *f]));
            Some((Record::Start { lane: lane.into(), sector }, rest))
        }
        [6, 0, 2, 0, a, b, rest @ ..] => Some((Record::Step { lane: u16::from_le_bytes([*a, *b]).into() }, rest)),
        [4, 0, 3, 0, rest @ ..] => Some((Record::Cut, rest)),
        _ => None,
    }
}

/// The sector buffer that the record of that number lends.
fn lent(number: usize, size: u32) -> Vec<u8> {
    (0..size / 4).flat_map(|k| (number as u32 + k).to_le_bytes()).collect()
}

/// The arena and the work buffer of a replay, and the latest handle with its table.
struct Run<'a> {
    arena: &'a mut [u8],
    work: &'a mut [u8],
    handle: Handle,
    table: [Lane; MAX_LANES],
}

impl Run<'_> {
    fn open(&mut self) -> Result<(), Answer> {
        let opened = open(self.arena, self.work, LAYOUT, &mut self.table);
        self.handle = opened.map_or(Handle::default(), |opened| opened.handle);
        opened.map(|_| ())
    }

    /// Runs the record of that number.
    fn run(&mut self, number: usize, record: Record) -> Result<(), Answer> {
        match record {
            Record::Start { lane, sector } => start(self.arena, &self.handle, &mut self.table, lane, sector),
            Record::Step { lane } => step(self.arena, &self.handle, &mut self.table, lane, &lent(number, self.handle.size)),
            Record::Cut => self.open(),
        }
    }
}

/// Opens an arena and runs a log on it.
#[inline(never)]
pub fn replay(arena: &mut [u8], work: &mut [u8], log: &[u8]) -> Result<Replay, Answer> {
    let mut run = Run { arena, work, handle: Handle::default(), table: [Lane::default(); MAX_LANES] };
    run.open()?;
    let mut replay = Replay { answers: Vec::new(), stopped: None };
    if log.len() > MAX_LOG {
        replay.stopped = Some(0);
        return Ok(replay);
    }
    let mut left = log;
    while !left.is_empty() {
        let Some((record, rest)) = first(left) else {
            replay.stopped = Some((log.len() - left.len()) as u64);
            break;
        };
        let answer = run.run(replay.answers.len(), record);
        replay.answers.push(answer);
        left = rest;
    }
    Ok(replay)
}
