//! A write to the file of an arena, store by store.
use crate::lent;
use crate::problem::Problem;
use btt::{AlignedBytes, Answer, Handle, Lane, Layout, OpenArena, MAX_BLOCKS, MAX_LANES};
use std::fs::File;
use std::io;
use std::os::unix::fs::FileExt;

/// Where stores go.
pub trait Medium {
    /// Stores four bytes at an offset.
    fn store(&mut self, offset: u64, word: [u8; 4]) -> io::Result<()>;

    /// Comes back when every store so far will withstand a power cut.
    fn sync(&mut self) -> io::Result<()>;
}

impl Medium for File {
    fn store(&mut self, offset: u64, word: [u8; 4]) -> io::Result<()> {
        self.write_all_at(&word, offset)
    }

    fn sync(&mut self) -> io::Result<()> {
        self.sync_data()
    }
}

fn failed(error: io::Error) -> Problem {
    Problem::File(format!("the write was cut short, which leaves the sector old or new, and whole: {error}"))
}

/// Writes a sector of the arena that the bytes hold and the medium has, mending first what opening mends. A refusal stores nothing.
pub fn write(
    bytes: &mut AlignedBytes,
    medium: &mut impl Medium,
    layout: Layout,
    sector: u32,
    buffer: &[u8],
) -> Result<(), Problem> {
    let mut copy = bytes.clone();
    let mut tried = OpenArena::open_in(layout, lent(&mut copy))?;
    tried.write_sector(sector, buffer)?;
    mend(bytes, medium, layout, tried.handle())?;
    let mut opened = OpenArena::open_in(layout, lent(bytes))?;
    let last = opened.handle().steps();
    // Being killed keeps the stores that were made, in their order, so the order is enough there. When the power goes, a disk may
    // have written any of the stores since the last synchronising. Data words and the first three words of a half may be there or not
    // as long as the sequence word is not, for nothing reads them; so all of them are on the disk before it. The map word gives away
    // the old block, which only a newer half in the flog lets opening find, so the sequence word is on the disk before that. And the
    // last is on the disk before the command says that the sector is written.
    opened.write_sector_by_steps(sector, buffer, |store| {
        medium.store(store.offset, store.word).map_err(failed)?;
        if store.number >= last - 2 {
            medium.sync().map_err(failed)?;
        }
        Ok(())
    })
}

/// Makes the stores by which opening mends the arena, one after another, by openings that are cut after the first of those left. All of
/// them go to the map, and they are on the disk before a write takes one of the blocks that they give away.
fn mend(bytes: &mut AlignedBytes, medium: &mut impl Medium, layout: Layout, handle: &Handle) -> Result<(), Problem> {
    let map = handle.map as usize..handle.flog as usize;
    let pending = cut_open(bytes, layout, 0)?;
    for _ in 0..pending {
        let before = bytes[map.clone()].to_vec();
        cut_open(bytes, layout, 1)?;
        for (offset, word) in changed(&before, &bytes[map.clone()]) {
            medium.store(handle.map + offset, word).map_err(failed)?;
        }
    }
    if pending > 0 {
        medium.sync().map_err(failed)?;
    }
    Ok(())
}

fn cut_open(bytes: &mut AlignedBytes, layout: Layout, k: u32) -> Result<u32, Answer> {
    lent(bytes).cut_open_in(layout, &mut vec![0; MAX_BLOCKS], &[Lane::default(); MAX_LANES], k)
}

/// The words that differ, with their offsets.
fn changed(before: &[u8], after: &[u8]) -> Vec<(u64, [u8; 4])> {
    let words = before.as_chunks().0.iter().zip(after.as_chunks().0).zip(0..);
    words.filter(|((old, new), _)| old != new).map(|((_, new), i)| (4 * i, *new)).collect()
}

#[cfg(test)]
#[path = "storing_tests.rs"]
mod tests;
