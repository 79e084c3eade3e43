//! Sectors that a power cut cannot tear, on persistent memory: one arena of a block translation table (BTT) in bytes that the caller
//! lends.
//!
//! A sector that is overwritten in place is torn when the power goes in the middle: a part of it is old and a part new. A block
//! translation table writes the new bytes to a free block, notes in a flog what it is about to do, and then turns one word of a map.
//! Whenever the power goes, the sector is the old one or the new one, whole.
//!
//! This crate is a safe wrapper of a library that is proved: every call answers for every input, an arena behaves as a plain row of
//! sectors, and a power cut at any store, or at any store of the opening after it, tears no sector. What is proved, and what is
//! assumed, stands in docs/PROOFS.md of the repository, and the format with its rules in docs/FORMAT.md. The wrapper itself is not
//! proved; it checks one thing, that the arena's address is a multiple of 4, and Rust's borrows see to the rest that the library
//! asks: slices that lie apart, and no one else that stores.
//!
//! ```
//! use btt::{AlignedBytes, Arena, Geometry, Identifiers, OpenArena};
//!
//! # fn main() -> Result<(), Box<dyn std::error::Error>> {
//! let geometry = Geometry { size: 512, sectors: 60, lanes: 4 };
//! let mut memory = AlignedBytes::zeroed(geometry.made_length().ok_or("no arena is made of that")? as usize);
//! let mut arena = Arena::new(&mut memory)?;
//! arena.make(geometry, Identifiers::ZEROES)?;
//!
//! let mut opened = OpenArena::open(arena)?;
//! opened.write_sector(7, &[1; 512])?;
//! # let mut sector = [0; 512];
//! # opened.read_sector(7, &mut sector)?;
//! # assert_eq!(sector, [1; 512]);
//! # Ok(())
//! # }
//! ```
//!
//! [`OpenArena`] is enough for most. Below it are the calls: [`Arena`] and, for those that only read, [`ArenaRef`], with a [`Handle`]
//! that opening gives and a table of [`Lane`]s that opening sets, both of which the host keeps. A refusal is an [`Answer`] with its number.
//! Nothing is kept between calls and nothing is allocated below [`OpenArena`] and [`AlignedBytes`], but in [`Arena::replay`], which runs a
//! log of calls again.
//!
//! # Power cuts
//!
//! A power cut keeps the first stores whole, however many, and no later one, and loses handle and table. Cut a write anywhere and open
//! the arena again:
//!
//! ```
//! use btt::{AlignedBytes, Arena, Geometry, Identifiers, Lane};
//!
//! # fn main() -> Result<(), Box<dyn std::error::Error>> {
//! # let mut memory = AlignedBytes::zeroed(49_152);
//! let mut arena = Arena::new(&mut memory)?;
//! arena.make(Geometry { size: 512, sectors: 60, lanes: 4 }, Identifiers::ZEROES)?;
//! let mut table = [Lane::default(); 4];
//! let handle = arena.open(&mut [0; 64], &mut table)?.handle;
//! arena.start(&handle, &mut table, 0, 7)?;
//! for _ in 0..132 {
//!     arena.step(&handle, &mut table, 0, &[1; 512])?;
//! }
//!
//! // The sequence word, store 132 of 133, is in: the write counts, and opening stores the map word that it lacks.
//! let mut table = [Lane::default(); 4];
//! let opened = arena.open(&mut [0; 64], &mut table)?;
//! assert_eq!(opened.mended, 1);
//! let mut sector = [0; 512];
//! arena.read(&opened.handle, &table, 7, &mut sector)?;
//! assert_eq!(sector, [1; 512]);
//! # Ok(())
//! # }
//! ```
//!
//! # Stores that reach the medium
//!
//! The promise is about stores that reach the medium whole, four aligned bytes. A processor's cache writes its lines back in any order.
//! What is needed of the order is little: a write's sequence word after all of its stores before it, its map word after that, and both
//! before the next write's on the same lane or to the same sector. On a module of persistent memory a host does one of these:
//!
//! - **Map the module uncached or write-through.** Stores then leave the processor in program order, for a memory controller whose
//!   queue such platforms save at a power cut (ADR). Whole writes
//!   ([`Arena::write`], [`OpenArena::write_sector`]) and [`Arena::open`] need this, or the next, since nothing can be done between
//!   their stores. They also rest on the compiled library storing the sequence word after the words before it, and then the map word,
//!   which a step does not. A write-combining mapping does not keep the order.
//! - **Use a platform whose caches are saved at a power cut** (eADR). On x86-64 stores become visible in program order, and what is
//!   visible is kept.
//! - **Flush and fence three times in a write**, on an ordinary write-back mapping: [`OpenArena::write_sector_persisting`] calls the host
//!   with the bytes to be written back (`clwb`, `clflushopt` or `clflush`) before it fences (`sfence`): the block and the lane's words
//!   before the sequence word is stored, the sequence word before the map word, and the map word. That a cut may keep any of the stores
//!   before the sequence word is proved. [`OpenArena::write_sector_by_steps`] calls the host after each step instead.
//!
//! On a file each store is one write of four bytes at its offset, in order, which withstands a killed process; to withstand a power
//! cut as well the file is synchronised before the sequence word, after it and after the map word. The command `btt write` does so.
//!
//! The arena must be the module's own bytes (a mapping lent to [`Arena::new`]), or the host passes on each store to the medium itself.
//!
//! # Opening
//!
//! Opening mends by one store to the map for each pending lane. Where every store needs a flush, call [`Arena::cut_open`] with 1 as
//! often as its first answer counts lanes, and flush the map and fence after each call; [`Arena::open`] then finds nothing to mend and
//! stores nothing.
//!
//! # Lanes
//!
//! An arena has 1 to 256 lanes ([`MAX_LANES`]), and as many writes can be in flight at once. What is remembered of a lane is its [`Lane`],
//! a record of 28 bytes. The records stand in a table, a slice that the caller lends to every call; it needs one for each lane, and those
//! past the lanes are any values and stay so. An accepted start, step or whole write changes the record of its own lane, an accepted
//! opening sets the records of all lanes, and nothing else changes the table. [`OpenArena`] has a table of its own, or
//! [takes one](OpenArena::open_with).
//!
//! # Sizes
//!
//! A sector is of 512, 520, 528, 4,096 or 4,104 bytes, so that a host may keep 8 or 16 bytes of its own, such as a check, beside the data.
//! The block that holds a sector has the size rounded up to a multiple of 64, the internal size: 512, 576, 576, 4,096 or 4,160 bytes
//! ([`SIZES`], [`internal_size`]). Sector buffers and the number of a write's stores go by the size; the places of the blocks and the
//! arena's length go by the internal size. What a block has beyond its sector is never stored to.
//!
//! # Layouts
//!
//! A lane keeps two halves of a pair in the flog. Most arenas have the second at byte 16 of the lane's 64 bytes, some at byte 32, and
//! nothing in an arena says which: it is a [`Layout`]. [`OpenArena::open`], [`Arena::open`] and [`Arena::cut_open`] take the usual one,
//! and `open_in` and `cut_open_in` beside them the one that they are told. Every later call takes it from the handle.
//!
//! # Building
//!
//! The build script runs `rt lib` in the repository's `crates/btt`, which proves the library and writes its archive. With
//! `BTT_STATICLIB_DIR` set it links the archive `libbtt.a` of that folder instead. The archive is for x86-64.
#![deny(missing_docs)]
#![deny(unsafe_op_in_unsafe_fn)]
#![warn(clippy::undocumented_unsafe_blocks)]

#[cfg(not(target_endian = "little"))]
compile_error!("a handle is little-endian");

mod aligned;
mod answer;
mod arena;
mod geometry;
mod handle;
mod layout;
mod open_arena;
mod replay;
pub mod sys;
mod table;
mod view;

pub use aligned::AlignedBytes;
pub use answer::Answer;
pub use arena::{Arena, Opened};
pub use geometry::{
    internal_size, Geometry, Identifiers, ID_SIZE, INFO_SIZE, MAX_ARENA, MAX_BLOCKS, MAX_SECTOR, MIN_ARENA, SIZES,
};
pub use handle::{Handle, HANDLE_SIZE};
pub use layout::{Layout, UnknownLayout};
pub use open_arena::{OpenArena, Store};
pub use replay::{Replay, MAX_LOG, MAX_RECORDS};
pub use table::{Lane, Table, LANE_SIZE, MAX_LANES};
pub use view::{ArenaRef, Misaligned};
