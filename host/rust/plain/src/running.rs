//! The calls with a handle: reading a sector, and writing one store by store or whole.
use crate::bytes::{put_word, word};
use crate::format::{
    bad_word, block_at, block_of, figures_allowed, half_at, layout_allowed, length_allowed, map_at, mapped, sloppy_word,
    successor,
};
use crate::require;
use btt::{Answer, Handle, Lane};

/// Whether a lane's record is in range.
fn record_allowed(handle: &Handle, record: &Lane) -> bool {
    record.busy <= 1
        && record.block < handle.blocks
        && record.old < handle.blocks
        && record.half < 2
        && (1..=3).contains(&record.sequence)
        && record.sector < handle.sectors
        && record.made < handle.size / 4 + 5
}

/// The records of the lanes, if handle and table are allowed: 16 of the handle, 21, 16 of the records.
fn records<'t>(handle: &Handle, table: &'t [Lane], length: usize) -> Result<&'t [Lane], Answer> {
    let figures = length_allowed(length) && handle.length == length as u64 && figures_allowed(handle, length);
    require(figures && layout_allowed(handle.layout), Answer::BadHandle)?;
    let records = table.get(..handle.lanes as usize).ok_or(Answer::ShortTable)?;
    require(records.iter().all(|record| record_allowed(handle, record)), Answer::BadHandle)?;
    Ok(records)
}

/// A sector's map word: rules 7 and 18.
fn map_word(arena: &[u8], handle: &Handle, sector: u32) -> Result<u32, Answer> {
    let found = word(arena, map_at(handle, sector));
    require(!bad_word(handle, found), Answer::BadMapWord)?;
    require(!sloppy_word(found), Answer::Sloppy)?;
    Ok(found)
}

/// Reads a sector.
#[inline(never)]
pub fn read(arena: &[u8], handle: &Handle, table: &[Lane], sector: u32, buffer: &mut [u8]) -> Result<(), Answer> {
    records(handle, table, arena.len())?;
    require(sector < handle.sectors, Answer::NoSuchSector)?;
    require(buffer.len() == handle.size as usize, Answer::WrongBuffer)?;
    let word = map_word(arena, handle, sector)?;
    // Bit 31 is Zero and bit 30 Error: one alone reads zeroes, or is a bad sector; both are data.
    match word >> 30 {
        3 => buffer.copy_from_slice(&arena[block_at(handle, block_of(sector, word))..][..handle.size as usize]),
        1 => return Err(Answer::BadSector),
        _ => buffer.fill(0),
    }
    Ok(())
}

/// The old block of a write that may start: 16, 21, 16, 11, 12, 9, 10, 13, 7, 18.
fn judge_start(arena: &[u8], handle: &Handle, table: &[Lane], lane: u32, sector: u32, fits: bool) -> Result<u32, Answer> {
    let records = records(handle, table, arena.len())?;
    let record = records.get(lane as usize).ok_or(Answer::NoSuchLane)?;
    require(record.busy == 0, Answer::LaneBusy)?;
    require(sector < handle.sectors, Answer::NoSuchSector)?;
    require(fits, Answer::WrongBuffer)?;
    require(!records.iter().any(|other| other.busy == 1 && other.sector == sector), Answer::SectorBusy)?;
    Ok(block_of(sector, map_word(arena, handle, sector)?))
}

/// Starts a write; nothing is stored.
#[inline(never)]
pub fn start(arena: &[u8], handle: &Handle, table: &mut [Lane], lane: u32, sector: u32) -> Result<(), Answer> {
    let old = judge_start(arena, handle, table, lane, sector, true)?;
    let record = &mut table[lane as usize];
    *record = Lane { busy: 1, sector, old, made: 0, ..*record };
    Ok(())
}

/// A lane's record.
#[inline(never)]
pub fn lane(arena: &[u8], handle: &Handle, table: &[Lane], lane: u32) -> Result<Lane, Answer> {
    records(handle, table, arena.len())?.get(lane as usize).copied().ok_or(Answer::NoSuchLane)
}

/// The record of a lane with a write in flight: 16, 21, 16, 11, 14.
fn in_flight(arena: &[u8], handle: &Handle, table: &[Lane], lane: u32) -> Result<Lane, Answer> {
    let record = *records(handle, table, arena.len())?.get(lane as usize).ok_or(Answer::NoSuchLane)?;
    require(record.busy == 1, Answer::LaneIdle)?;
    Ok(record)
}

/// Where the next store of a write in flight goes, and what it stores; of a data word only where.
fn next(handle: &Handle, lane: u32, record: &Lane) -> (usize, Option<u32>) {
    let half = half_at(handle, lane, record.half);
    match record.made.checked_sub(handle.size / 4) {
        None => (block_at(handle, record.block) + 4 * record.made as usize, None),
        Some(0) => (half, Some(record.sector)),
        Some(1) => (half + 4, Some(record.old)),
        Some(2) => (half + 8, Some(record.block)),
        Some(3) => (half + 12, Some(record.sequence)),
        Some(_) => (map_at(handle, record.sector), Some(mapped(record.block))),
    }
}

/// The byte offset of a lane's next store.
#[inline(never)]
pub fn next_store(arena: &[u8], handle: &Handle, table: &[Lane], lane: u32) -> Result<u64, Answer> {
    let record = in_flight(arena, handle, table, lane)?;
    Ok(next(handle, lane, &record).0 as u64)
}

/// The record after a write's last store.
fn finished(record: &Lane, old: u32) -> Lane {
    Lane { block: old, half: 1 - record.half, sequence: successor(record.sequence), ..Lane::default() }
}

/// Makes the next store of a lane's write.
#[inline(never)]
pub fn step(arena: &mut [u8], handle: &Handle, table: &mut [Lane], lane: u32, buffer: &[u8]) -> Result<(), Answer> {
    let record = in_flight(arena, handle, table, lane)?;
    require(buffer.len() == handle.size as usize, Answer::WrongBuffer)?;
    let (at, value) = next(handle, lane, &record);
    put_word(arena, at, value.unwrap_or_else(|| word(buffer, 4 * record.made as usize)));
    let made = record.made + 1;
    let done = made == handle.size / 4 + 5;
    table[lane as usize] = if done { finished(&record, record.old) } else { Lane { made, ..record } };
    Ok(())
}

/// Makes a whole write.
#[inline(never)]
pub fn write(arena: &mut [u8], handle: &Handle, table: &mut [Lane], lane: u32, sector: u32, buffer: &[u8]) -> Result<(), Answer> {
    let old = judge_start(arena, handle, table, lane, sector, buffer.len() == handle.size as usize)?;
    let record = table[lane as usize];
    let half = half_at(handle, lane, record.half);
    arena[block_at(handle, record.block)..][..buffer.len()].copy_from_slice(buffer);
    put_word(arena, half, sector);
    put_word(arena, half + 4, old);
    put_word(arena, half + 8, record.block);
    put_word(arena, half + 12, record.sequence);
    put_word(arena, map_at(handle, sector), mapped(record.block));
    table[lane as usize] = finished(&record, old);
    Ok(())
}
