//! What the tests share: the library and the plain program side by side, random arenas, and a place to run the command in.
#![allow(dead_code)]
pub mod arenas;
pub mod both;
pub mod chance;
pub mod folder;
pub mod logs;
pub mod place;
pub mod raw;

use btt::{AlignedBytes, Answer, Geometry, Handle, Identifiers, Lane, INFO_SIZE, MAX_BLOCKS, MAX_LANES};

/// The figures of the worked cases, and the length of their arena.
pub const GEOMETRY: Geometry = Geometry { size: 512, sectors: 60, lanes: 4 };
pub const LENGTH: usize = 49_152;

/// The bytes of a work buffer that serves every random arena.
pub const ROOM: usize = 640;

/// The bytes of a sector, and numbers that are none or are those of a block.
pub const SIZES: [u32; 5] = [512, 520, 528, 4096, 4104];
pub const NO_SIZES: [u32; 16] = [0, 1, 64, 511, 513, 519, 521, 532, 576, 640, 1024, 4095, 4100, 4160, 0x1_0208, u32::MAX];

/// The layouts, and numbers that are none.
pub const LAYOUTS: [u32; 2] = [16, 32];
pub const NO_LAYOUTS: [u32; 10] = [0, 1, 15, 17, 31, 33, 48, 64, u32::MAX, 0x1_0010];

/// The layout that is not this one.
pub fn other(layout: u32) -> u32 {
    LAYOUTS.into_iter().find(|other| *other != layout).unwrap()
}

/// So many records, no two alike and none in range.
pub fn rubbish(records: usize) -> Vec<Lane> {
    let record = |i: u32| {
        let word = |k: u32| 0xA5A5_0000 + 7 * i + k;
        let [busy, block, half, sequence, sector, old, made] = [0, 1, 2, 3, 4, 5, 6].map(word);
        Lane { busy, block, half, sequence, sector, old, made }
    };
    (0..records as u32).map(record).collect()
}

/// The number of a result.
pub fn number<T>(result: &Result<T, Answer>) -> u32 {
    result.as_ref().err().map_or(0, |answer| answer.number())
}

/// An arena as the plain program makes it, with identifiers of zeroes.
pub fn made(geometry: Geometry) -> AlignedBytes {
    let mut arena = AlignedBytes::zeroed(plain::made_figures(geometry).length as usize);
    plain::make(&mut arena, geometry, Identifiers::ZEROES).unwrap();
    arena
}

/// The figures of the info block that counts.
pub fn figures(arena: &[u8]) -> Option<Handle> {
    plain::info_block(arena).map(|at| plain::figures_of(&arena[at..at + INFO_SIZE], arena.len()))
}

/// How many lanes of a valid arena are pending, by the plain program; the arena is not changed.
pub fn pending(arena: &[u8], layout: u32) -> Result<u32, Answer> {
    plain::cut_open(&mut arena.to_vec(), &mut vec![0; MAX_BLOCKS], layout, &[Lane::default(); MAX_LANES], 0)
}
