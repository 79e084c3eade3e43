//! Arenas of 16 MiB in memory, each at an address that is a multiple of 4,096.
use crate::calls::Calls;
use crate::library::Library;
use btt::{Arena, Geometry, Handle, Identifiers, Lane, MAX_SECTOR, MIN_ARENA};
use std::ops::{Deref, DerefMut};
use std::slice;

pub const LENGTH: usize = 16_777_216;
const SHORTEST: Geometry = Geometry { size: 512, sectors: 1, lanes: 1 };

/// The most sectors of a size that 16 MiB hold with so many lanes.
pub fn longest(size: u32, lanes: u32) -> Geometry {
    Geometry::fitting(LENGTH as u64, size, lanes).expect("a size and a number of lanes that are allowed")
}

#[repr(C, align(4096))]
#[derive(Clone, Copy)]
struct Page([u8; 4096]);

/// Whole pages of bytes.
#[derive(Clone)]
pub struct Pages(Vec<Page>);

impl Pages {
    pub fn zeroes(length: usize) -> Pages {
        Pages(vec![Page([0; 4096]); length.div_ceil(4096)])
    }
}

impl Deref for Pages {
    type Target = [u8];

    fn deref(&self) -> &[u8] {
        // A page is 4,096 bytes with nothing between them.
        unsafe { slice::from_raw_parts(self.0.as_ptr().cast(), 4096 * self.0.len()) }
    }
}

impl DerefMut for Pages {
    fn deref_mut(&mut self) -> &mut [u8] {
        unsafe { slice::from_raw_parts_mut(self.0.as_mut_ptr().cast(), 4096 * self.0.len()) }
    }
}

/// A sector's worth of bytes that differ from sector to sector and from turn to turn.
pub fn sector_bytes(size: u32, seed: u32) -> Pages {
    let mut bytes = Pages::zeroes(MAX_SECTOR);
    let mut state = seed.wrapping_mul(0x9E37_79B9) | 1;
    for word in bytes[..size as usize].chunks_exact_mut(4) {
        state ^= state << 13;
        state ^= state >> 17;
        state ^= state << 5;
        word.copy_from_slice(&state.to_le_bytes());
    }
    bytes
}

/// An arena as making leaves it.
pub fn fresh(geometry: Geometry) -> Pages {
    let mut arena = Pages::zeroes(LENGTH);
    Arena::new(&mut arena).expect("a page is aligned").make(geometry, Identifiers::ZEROES).expect("making");
    arena
}

/// As many of the shortest arenas, each with an info block of its own.
pub fn shortest(count: u32) -> Vec<Pages> {
    let made = |number: u32| {
        let mut arena = Pages::zeroes(MIN_ARENA);
        let (own, parent) = ([number.to_le_bytes(); 4].concat(), [7; 16]);
        let identifiers = Identifiers { own: &own, parent: &parent };
        Arena::new(&mut arena).expect("a page is aligned").make(SHORTEST, identifiers).expect("making");
        arena
    };
    (0..count).map(made).collect()
}

/// An arena whose sectors are all written once, its lanes in turn.
pub fn written(geometry: Geometry) -> Pages {
    let mut arena = fresh(geometry);
    let Geometry { size, sectors, lanes } = geometry;
    let (mut handle, mut table) = (Handle::default(), vec![Lane::default(); lanes as usize]);
    let mut work = vec![0; (sectors + lanes) as usize];
    let mut answers = Library::open(&mut arena, &mut work, &mut table, &mut handle, &mut 0);
    for sector in 0..sectors {
        let bytes = sector_bytes(size, sector);
        answers |= Library::write(&mut arena, &handle, &mut table, sector % lanes, sector, &bytes[..size as usize]);
    }
    assert_eq!(answers, 0, "writing every sector");
    arena
}
