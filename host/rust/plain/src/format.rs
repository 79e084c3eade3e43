//! What stands in an arena: the info block and its figures, map words, and the halves of the flog. A handle serves for the figures.
use crate::bytes::{long, put_long, put_word, word, words};
use btt::{Handle, Identifiers, INFO_SIZE, MAX_ARENA, MAX_LANES, MIN_ARENA};

const SIGNATURE: &[u8; 16] = b"BTT_ARENA_INFO\0\0";
const BLOCK_BITS: u32 = 0x3FFF_FFFF;

/// The map word of a sector whose bytes are in a block.
pub fn mapped(block: u32) -> u32 {
    0xC000_0000 | block
}

/// The checksum of an info block, its own field counted as zero.
fn checksum(block: &[u8]) -> u64 {
    let (mut low, mut high) = (0u32, 0u32);
    for word in words(&block[..INFO_SIZE - 8]) {
        low = low.wrapping_add(word);
        high = high.wrapping_add(low);
    }
    for _ in 0..2 {
        high = high.wrapping_add(low);
    }
    u64::from(high) << 32 | u64::from(low)
}

/// Puts the right checksum into an info block.
pub fn seal(block: &mut [u8]) {
    let sum = checksum(block);
    put_long(block, INFO_SIZE - 8, sum);
}

fn is_sound(block: &[u8]) -> bool {
    block.starts_with(SIGNATURE) && long(block, INFO_SIZE - 8) == checksum(block)
}

/// Whether an arena may be so long.
pub fn length_allowed(length: usize) -> bool {
    length.is_multiple_of(4096) && (MIN_ARENA..=MAX_ARENA).contains(&length)
}

/// Where the info block that counts is, in an arena of an allowed length.
pub fn counting(arena: &[u8]) -> Option<usize> {
    [0, arena.len() - INFO_SIZE].into_iter().find(|&at| is_sound(&arena[at..at + INFO_SIZE]))
}

/// The figures of an info block, for an arena of that length; it does not say the layout.
pub fn figures_of(block: &[u8], length: usize) -> Handle {
    Handle {
        length: length as u64,
        data: long(block, 88),
        map: long(block, 96),
        flog: long(block, 104),
        copy: long(block, 112),
        size: word(block, 56),
        sectors: word(block, 60),
        internal: word(block, 64),
        blocks: word(block, 68),
        lanes: word(block, 72),
        ..Handle::default()
    }
}

/// The info block of these figures; both identifiers are 16 bytes.
pub fn info_block_of(figures: &Handle, identifiers: Identifiers) -> [u8; INFO_SIZE] {
    let mut block = [0; INFO_SIZE];
    block[..16].copy_from_slice(SIGNATURE);
    block[16..32].copy_from_slice(identifiers.own);
    block[32..48].copy_from_slice(identifiers.parent);
    let Handle { data, map, flog, copy, size, sectors, internal, blocks, lanes, .. } = *figures;
    for (i, value) in [0, 2, size, sectors, internal, blocks, lanes, INFO_SIZE as u32].into_iter().enumerate() {
        put_word(&mut block, 48 + 4 * i, value);
    }
    for (i, start) in [0, data, map, flog, copy].into_iter().enumerate() {
        put_long(&mut block, 80 + 8 * i, start);
    }
    seal(&mut block);
    block
}

/// Whether the fields of an info block that a handle does not keep are allowed, flags apart.
pub fn header_allowed(block: &[u8]) -> bool {
    word(block, 52) == 2 && word(block, 76) == INFO_SIZE as u32 && long(block, 80) == 0
}

pub fn flags_of(block: &[u8]) -> u32 {
    word(block, 48)
}

/// The bytes of a block for sectors of an allowed size.
pub fn internal_of(size: u32) -> u32 {
    size.next_multiple_of(64)
}

/// Whether an arena is made of these.
pub fn sizes_allowed(size: u32, sectors: u32, lanes: u32) -> bool {
    matches!(size, 512 | 520 | 528 | 4096 | 4104) && (1..=MAX_LANES as u32).contains(&lanes) && sectors >= lanes
}

/// Whether the figures are allowed in an arena of that length.
pub fn figures_allowed(f: &Handle, length: usize) -> bool {
    let fits = |start: u64, bytes: u64, next: u64| start.checked_add(bytes).is_some_and(|end| end <= next);
    sizes_allowed(f.size, f.sectors, f.lanes)
        && f.internal == internal_of(f.size)
        && u64::from(f.blocks) == u64::from(f.sectors) + u64::from(f.lanes)
        && [f.data, f.map, f.flog, f.copy].iter().all(|start| start % 4096 == 0)
        && f.data >= 4096
        && fits(f.data, u64::from(f.blocks) * u64::from(f.internal), f.map)
        && fits(f.map, 4 * u64::from(f.sectors), f.flog)
        && fits(f.flog, 64 * u64::from(f.lanes), f.copy)
        && f.copy.checked_add(4096) == Some(length as u64)
}

/// The byte at which a block starts.
pub fn block_at(f: &Handle, block: u32) -> usize {
    f.data as usize + block as usize * f.internal as usize
}

/// The byte at which a sector's map word stands.
pub fn map_at(f: &Handle, sector: u32) -> usize {
    f.map as usize + 4 * sector as usize
}

/// Whether the second half of a lane's pair may stand so many bytes after the first.
pub fn layout_allowed(layout: u32) -> bool {
    matches!(layout, 16 | 32)
}

/// The byte at which a half of a lane's pair stands.
pub fn half_at(f: &Handle, lane: u32, half: u32) -> usize {
    f.flog as usize + 64 * lane as usize + (f.layout * half) as usize
}

/// The padding of a lane, which is those of its 64 bytes that are in neither half: what is between the halves, and what is after them.
pub fn padding<'a>(arena: &'a [u8], f: &Handle, lane: u32) -> [&'a [u8]; 2] {
    let lane = &arena[f.flog as usize + 64 * lane as usize..][..64];
    let second = f.layout as usize;
    [&lane[16..second], &lane[second + 16..]]
}

/// The block that a sector's map word stands for.
pub fn block_of(sector: u32, word: u32) -> u32 {
    if word >> 30 == 0 {
        sector
    } else {
        word & BLOCK_BITS
    }
}

/// Whether a map word names a block past the last.
pub fn bad_word(f: &Handle, word: u32) -> bool {
    word >> 30 != 0 && word & BLOCK_BITS >= f.blocks
}

/// Whether a map word has neither flag and yet is not 0.
pub fn sloppy_word(word: u32) -> bool {
    word >> 30 == 0 && word != 0
}

/// The sequence number after one of 1 to 3.
pub fn successor(sequence: u32) -> u32 {
    match sequence {
        1 => 2,
        2 => 3,
        _ => 1,
    }
}

/// Which of two halves with these sequence numbers is the newer.
pub fn newer(first: u32, second: u32) -> Option<u32> {
    match (first, second) {
        (1..=3, 0) => Some(0),
        (0, 1..=3) => Some(1),
        (1..=3, 1..=3) if first == second => None,
        (1..=3, 1..=3) => Some(u32::from(successor(first) == second)),
        _ => None,
    }
}
