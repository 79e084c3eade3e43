//! The functions of the library as C sees them, without any wrapping. The rest of this crate is safe to call and offers the same.
//!
//! What a caller keeps in every call: a pointer is valid for the length that is given after it, or null with length 0; no two of the
//! slices, the handle and the numbers of a call share a byte; the addresses of the arena and of the table are multiples of 4; and no other
//! thread changes what a call was given, or reads what the call may change, until it is back. A table's length counts records, all other
//! lengths bytes. Each function gives 0 or the number of an [`Answer`](crate::Answer).
use crate::{Handle, Lane};

extern "C" {
    /// Makes an arena: see [`Arena::make`](crate::Arena::make).
    pub fn btt_make(
        arena: *mut u8,
        arena_length: usize,
        size: u32,
        sectors: u32,
        lanes: u32,
        first_id: *const u8,
        first_id_length: usize,
        second_id: *const u8,
        second_id_length: usize,
    ) -> u32;

    /// Where the info block that counts is, 0 and 0 if none does: see [`ArenaRef::info_block`](crate::ArenaRef::info_block).
    pub fn btt_info_block(arena: *const u8, arena_length: usize, offset: *mut u64, length: *mut u64);

    /// Opens an arena: see [`Arena::open_in`](crate::Arena::open_in). Any number may be given as the layout: one that is neither 16 nor 32
    /// is answered with 16, before all else. A refusal makes the count 0 and the handle all zeroes, and leaves the table.
    pub fn btt_open(
        arena: *mut u8,
        arena_length: usize,
        work: *mut u8,
        work_length: usize,
        layout: u32,
        table: *mut Lane,
        table_length: usize,
        handle: *mut Handle,
        mended: *mut u32,
    ) -> u32;

    /// An opening that stops after k stores: see [`Arena::cut_open_in`](crate::Arena::cut_open_in). It takes any layout as `btt_open` does,
    /// and a refusal makes the count 0.
    pub fn btt_cut_open(
        arena: *mut u8,
        arena_length: usize,
        work: *mut u8,
        work_length: usize,
        layout: u32,
        table: *const Lane,
        table_length: usize,
        k: u32,
        mended: *mut u32,
    ) -> u32;

    /// Reads a sector: see [`ArenaRef::read`](crate::ArenaRef::read).
    pub fn btt_read(
        arena: *const u8,
        arena_length: usize,
        handle: *const Handle,
        table: *const Lane,
        table_length: usize,
        sector: u32,
        buffer: *mut u8,
        buffer_length: usize,
    ) -> u32;

    /// Starts a write: see [`ArenaRef::start`](crate::ArenaRef::start).
    pub fn btt_start(
        arena: *const u8,
        arena_length: usize,
        handle: *const Handle,
        table: *mut Lane,
        table_length: usize,
        lane: u32,
        sector: u32,
    ) -> u32;

    /// Makes the next store of a write: see [`Arena::step`](crate::Arena::step).
    pub fn btt_step(
        arena: *mut u8,
        arena_length: usize,
        handle: *const Handle,
        table: *mut Lane,
        table_length: usize,
        lane: u32,
        buffer: *const u8,
        buffer_length: usize,
    ) -> u32;

    /// A whole write: see [`Arena::write`](crate::Arena::write).
    pub fn btt_write(
        arena: *mut u8,
        arena_length: usize,
        handle: *const Handle,
        table: *mut Lane,
        table_length: usize,
        lane: u32,
        sector: u32,
        buffer: *const u8,
        buffer_length: usize,
    ) -> u32;

    /// A lane's record: see [`ArenaRef::lane`](crate::ArenaRef::lane). A refusal leaves the record.
    pub fn btt_lane_record(
        arena: *const u8,
        arena_length: usize,
        handle: *const Handle,
        table: *const Lane,
        table_length: usize,
        lane: u32,
        record: *mut Lane,
    ) -> u32;

    /// Where a lane's next step stores: see [`ArenaRef::next_store`](crate::ArenaRef::next_store). A refusal leaves the offset.
    pub fn btt_next_store(
        arena: *const u8,
        arena_length: usize,
        handle: *const Handle,
        table: *const Lane,
        table_length: usize,
        lane: u32,
        offset: *mut u64,
    ) -> u32;

    /// Replays a run log, with a table of its own: see [`Arena::replay`](crate::Arena::replay). The number is that of the opening, else 20 if
    /// a record ended the replay, else 0. The answers get a byte for each record that ran, as many as fit; the two numbers are how many
    /// ran, and the byte offset at which the record begins that ended the replay, 0 if none did.
    pub fn btt_replay(
        arena: *mut u8,
        arena_length: usize,
        work: *mut u8,
        work_length: usize,
        log: *const u8,
        log_length: usize,
        answers: *mut u8,
        answers_length: usize,
        records: *mut u64,
        stopped: *mut u64,
    ) -> u32;
}
