//! The calls that are timed, each giving its answer's number, so that the library and the plain program are driven by the same loops.
use btt::{Answer, Handle, Lane, INFO_SIZE};

/// The layout in which the arenas are opened.
pub const LAYOUT: u32 = 16;

pub trait Calls {
    fn info_block(arena: &[u8]) -> (u64, u64);
    fn open(arena: &mut [u8], work: &mut [u8], table: &mut [Lane], handle: &mut Handle, mended: &mut u32) -> u32;
    fn read(arena: &[u8], handle: &Handle, table: &[Lane], sector: u32, buffer: &mut [u8]) -> u32;
    fn start(arena: &[u8], handle: &Handle, table: &mut [Lane], lane: u32, sector: u32) -> u32;
    fn step(arena: &mut [u8], handle: &Handle, table: &mut [Lane], lane: u32, buffer: &[u8]) -> u32;
    fn write(arena: &mut [u8], handle: &Handle, table: &mut [Lane], lane: u32, sector: u32, buffer: &[u8]) -> u32;
}

pub struct Plain;

fn number(result: Result<(), Answer>) -> u32 {
    result.map_or_else(Answer::number, |()| 0)
}

impl Calls for Plain {
    fn info_block(arena: &[u8]) -> (u64, u64) {
        plain::info_block(arena).map_or((0, 0), |at| (at as u64, INFO_SIZE as u64))
    }

    fn open(arena: &mut [u8], work: &mut [u8], table: &mut [Lane], handle: &mut Handle, mended: &mut u32) -> u32 {
        let opened = plain::open(arena, work, LAYOUT, table);
        (*handle, *mended) = opened.map_or((Handle::default(), 0), |opened| (opened.handle, opened.mended));
        number(opened.map(|_| ()))
    }

    fn read(arena: &[u8], handle: &Handle, table: &[Lane], sector: u32, buffer: &mut [u8]) -> u32 {
        number(plain::read(arena, handle, table, sector, buffer))
    }

    fn start(arena: &[u8], handle: &Handle, table: &mut [Lane], lane: u32, sector: u32) -> u32 {
        number(plain::start(arena, handle, table, lane, sector))
    }

    fn step(arena: &mut [u8], handle: &Handle, table: &mut [Lane], lane: u32, buffer: &[u8]) -> u32 {
        number(plain::step(arena, handle, table, lane, buffer))
    }

    fn write(arena: &mut [u8], handle: &Handle, table: &mut [Lane], lane: u32, sector: u32, buffer: &[u8]) -> u32 {
        number(plain::write(arena, handle, table, lane, sector, buffer))
    }
}
