//! The proved library through its C interface, as host/rust declares it.
use crate::calls::{Calls, LAYOUT};
use btt::sys::{btt_info_block, btt_open, btt_read, btt_start, btt_step, btt_write};
use btt::{Handle, Lane};

// In each call the references are valid for their lengths and lie apart, which is all that btt.h asks of memory.

pub struct Library;

impl Calls for Library {
    fn info_block(arena: &[u8]) -> (u64, u64) {
        let (mut offset, mut length) = (0, 0);
        unsafe { btt_info_block(arena.as_ptr(), arena.len(), &mut offset, &mut length) };
        (offset, length)
    }

    fn open(arena: &mut [u8], work: &mut [u8], table: &mut [Lane], handle: &mut Handle, mended: &mut u32) -> u32 {
        let (records, count) = (table.as_mut_ptr(), table.len());
        unsafe {
            btt_open(arena.as_mut_ptr(), arena.len(), work.as_mut_ptr(), work.len(), LAYOUT, records, count, handle, mended)
        }
    }

    fn read(arena: &[u8], handle: &Handle, table: &[Lane], sector: u32, buffer: &mut [u8]) -> u32 {
        let (records, count) = (table.as_ptr(), table.len());
        unsafe { btt_read(arena.as_ptr(), arena.len(), handle, records, count, sector, buffer.as_mut_ptr(), buffer.len()) }
    }

    fn start(arena: &[u8], handle: &Handle, table: &mut [Lane], lane: u32, sector: u32) -> u32 {
        unsafe { btt_start(arena.as_ptr(), arena.len(), handle, table.as_mut_ptr(), table.len(), lane, sector) }
    }

    fn step(arena: &mut [u8], handle: &Handle, table: &mut [Lane], lane: u32, buffer: &[u8]) -> u32 {
        let (records, count) = (table.as_mut_ptr(), table.len());
        unsafe { btt_step(arena.as_mut_ptr(), arena.len(), handle, records, count, lane, buffer.as_ptr(), buffer.len()) }
    }

    fn write(arena: &mut [u8], handle: &Handle, table: &mut [Lane], lane: u32, sector: u32, buffer: &[u8]) -> u32 {
        let (records, count) = (table.as_mut_ptr(), table.len());
        unsafe { btt_write(arena.as_mut_ptr(), arena.len(), handle, records, count, lane, sector, buffer.as_ptr(), buffer.len()) }
    }
}
