//! Making an arena.
use crate::bytes::put_word;
use crate::format::{block_at, half_at, info_block_of, internal_of, length_allowed, sizes_allowed};
use crate::require;
use btt::{Answer, Geometry, Handle, Identifiers, ID_SIZE, INFO_SIZE};

/// The figures that making works out for an allowed size: each part at the least multiple of 4,096 that fits. Where the blocks do not fit
/// their field, the length is not allowed. They are of no layout, for making writes first halves only.
pub fn made_figures(geometry: Geometry) -> Handle {
    let Geometry { size, sectors, lanes } = geometry;
    let blocks = u64::from(sectors) + u64::from(lanes);
    let internal = internal_of(size);
    let data = 4096;
    let map = data + (blocks * u64::from(internal)).next_multiple_of(4096);
    let flog = map + (4 * u64::from(sectors)).next_multiple_of(4096);
    let copy = flog + (64 * u64::from(lanes)).next_multiple_of(4096);
    let length = copy + 4096;
    let blocks = blocks as u32;
    Handle { length, data, map, flog, copy, size, sectors, internal, blocks, lanes, ..Handle::default() }
}

/// Makes an arena.
#[inline(never)]
pub fn make(arena: &mut [u8], geometry: Geometry, identifiers: Identifiers) -> Result<(), Answer> {
    require(sizes_allowed(geometry.size, geometry.sectors, geometry.lanes), Answer::ForbiddenFigure)?;
    let figures = made_figures(geometry);
    require(length_allowed(arena.len()) && figures.length == arena.len() as u64, Answer::WrongLength)?;
    require(identifiers.own.len() == ID_SIZE && identifiers.parent.len() == ID_SIZE, Answer::WrongBuffer)?;
    let block = info_block_of(&figures, identifiers);
    arena[..INFO_SIZE].copy_from_slice(&block);
    arena[block_at(&figures, figures.blocks)..].fill(0);
    for lane in 0..figures.lanes {
        let free = figures.sectors + lane;
        for (i, value) in [lane, free, free, 1].into_iter().enumerate() {
            put_word(arena, half_at(&figures, lane, 0) + 4 * i, value);
        }
    }
    arena[figures.copy as usize..].copy_from_slice(&block);
    Ok(())
}
