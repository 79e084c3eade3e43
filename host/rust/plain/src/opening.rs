//! Opening an arena.
use crate::bytes::{put_word, word, words};
use crate::format::{
    bad_word, block_of, counting, figures_allowed, figures_of, flags_of, half_at, header_allowed, layout_allowed, length_allowed,
    map_at, mapped, newer, padding, sloppy_word, successor,
};
use crate::require;
use btt::{Answer, Handle, Lane, Opened, INFO_SIZE, MAX_LANES};

/// Where the info block that counts is, in an arena of any length.
#[inline(never)]
pub fn info_block(arena: &[u8]) -> Option<usize> {
    length_allowed(arena.len()).then(|| counting(arena)).flatten()
}

/// A lane's newer half.
#[derive(Clone, Copy, Default)]
struct Newer {
    half: u32,
    sector: u32,
    old: u32,
    new: u32,
    sequence: u32,
    pending: bool,
}

impl Newer {
    /// Rule 6.
    fn of_lane(arena: &[u8], figures: &Handle, lane: u32) -> Result<Newer, Answer> {
        let [first, second] = [0, 1].map(|half| word(arena, half_at(figures, lane, half) + 12));
        let half = newer(first, second).ok_or(Answer::LostLane)?;
        let [sector, old, new, sequence] = [0, 4, 8, 12].map(|at| word(arena, half_at(figures, lane, half) + at));
        require(sector < figures.sectors && old < figures.blocks && new < figures.blocks, Answer::LostLane)?;
        let found = block_of(sector, word(arena, map_at(figures, sector)));
        Ok(Newer { half, sector, old, new, sequence, pending: found == old })
    }

    /// The record of an idle lane with this newer half.
    fn record(&self) -> Lane {
        Lane { block: self.old, half: 1 - self.half, sequence: successor(self.sequence), ..Lane::default() }
    }
}

/// Rule 16 of the layout, and rules 1 to 4.
fn judge_info(arena: &[u8], layout: u32) -> Result<Handle, Answer> {
    require(layout_allowed(layout), Answer::BadHandle)?;
    require(length_allowed(arena.len()), Answer::WrongLength)?;
    let at = counting(arena).ok_or(Answer::NoInfoBlock)?;
    let block = &arena[at..at + INFO_SIZE];
    let figures = Handle { layout, ..figures_of(block, arena.len()) };
    require(header_allowed(block) && figures_allowed(&figures, arena.len()), Answer::ForbiddenFigure)?;
    require(flags_of(block) == 0, Answer::FlagsSet)?;
    Ok(figures)
}

/// Rule 7 over all map words, and then rule 18 over them and all lanes.
fn judge_words(arena: &[u8], figures: &Handle, map: &[u8]) -> Result<(), Answer> {
    let mut sloppy = false;
    for word in words(map) {
        require(!bad_word(figures, word), Answer::BadMapWord)?;
        sloppy |= sloppy_word(word);
    }
    sloppy |= (0..figures.lanes).any(|lane| padding(arena, figures, lane).into_iter().flatten().any(|byte| *byte != 0));
    require(!sloppy, Answer::Sloppy)
}

/// Rule 8. A pending lane's old is in the map as found and its new in the mended map, so that its new is marked in the place of its old.
/// It is kept out of line so that its loop has the registers to itself.
#[inline(never)]
fn each_block_once(map: &[u8], lanes: &[Newer], marks: &mut [u8]) -> bool {
    let mut once = true;
    let mut mark = |block: u32| {
        once &= marks[block as usize] == 0;
        marks[block as usize] = 1;
    };
    for (sector, word) in (0..).zip(words(map)) {
        mark(block_of(sector, word));
    }
    for lane in lanes {
        mark(if lane.pending { lane.new } else { lane.old });
    }
    let written = |sector: u32, lanes: &[Newer]| lanes.iter().any(|lane| lane.pending && lane.sector == sector);
    once && !lanes.iter().enumerate().any(|(i, lane)| lane.pending && written(lane.sector, &lanes[..i]))
}

/// Rules 6, 7, 18 and 8; the newer halves are put into the places lent for them.
fn judge_map(arena: &[u8], figures: &Handle, lanes: &mut [Newer], marks: &mut [u8]) -> Result<(), Answer> {
    for (number, lane) in (0..).zip(&mut *lanes) {
        *lane = Newer::of_lane(arena, figures, number)?;
    }
    let map = &arena[figures.map as usize..][..4 * figures.sectors as usize];
    judge_words(arena, figures, map)?;
    marks.fill(0);
    require(each_block_once(map, lanes, marks), Answer::NotValid)
}

/// Room for the newer halves of every lane.
type Halves = [Newer; MAX_LANES];

/// Judges an arena, and a table of so many records; nothing is stored to it. Gives the figures, and the newer half of each lane.
fn judge<'h>(
    arena: &[u8],
    work: &mut [u8],
    layout: u32,
    records: usize,
    halves: &'h mut Halves,
) -> Result<(Handle, &'h [Newer]), Answer> {
    let figures = judge_info(arena, layout)?;
    let marks = work.get_mut(..figures.blocks as usize).ok_or(Answer::ShortWorkBuffer)?;
    let lanes = &mut halves[..figures.lanes as usize];
    let outcome = require(lanes.len() <= records, Answer::ShortTable).and_then(|()| judge_map(arena, &figures, lanes, marks));
    marks.fill(0);
    outcome.map(|()| (figures, &*lanes))
}

/// Stores the map words that the first k pending lanes lack, and counts all the pending lanes.
fn mend(arena: &mut [u8], figures: &Handle, lanes: &[Newer], k: u32) -> u32 {
    let mut pending = 0;
    for lane in lanes.iter().filter(|lane| lane.pending) {
        if pending < k {
            put_word(arena, map_at(figures, lane.sector), mapped(lane.new));
        }
        pending += 1;
    }
    pending
}

/// Opens an arena in a layout: its handle, and how many lanes were pending. Of the table the lanes' records are set.
#[inline(never)]
pub fn open(arena: &mut [u8], work: &mut [u8], layout: u32, table: &mut [Lane]) -> Result<Opened, Answer> {
    let mut halves = [Newer::default(); MAX_LANES];
    let (handle, lanes) = judge(arena, work, layout, table.len(), &mut halves)?;
    let mended = mend(arena, &handle, lanes, u32::MAX);
    for (record, lane) in table.iter_mut().zip(lanes) {
        *record = lane.record();
    }
    Ok(Opened { handle, mended })
}

/// An opening that stops after k stores: how many lanes were pending. Of the table only the length counts.
#[inline(never)]
pub fn cut_open(arena: &mut [u8], work: &mut [u8], layout: u32, table: &[Lane], k: u32) -> Result<u32, Answer> {
    let mut halves = [Newer::default(); MAX_LANES];
    let (figures, lanes) = judge(arena, work, layout, table.len(), &mut halves)?;
    Ok(mend(arena, &figures, lanes, k))
}
