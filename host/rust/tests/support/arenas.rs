//! Random arenas: made ones, valid ones with their parts anywhere, of every sector size, in both layouts of the flog, and damaged ones.
use super::chance::Chance;
use super::{LAYOUTS, NO_SIZES, SIZES};
use btt::{Geometry, Handle, Identifiers, MAX_LANES};
use plain::{figures_of, info_block, info_block_of, made_figures, put_long, put_word, seal, word};

/// Figures of an arena that is mostly small, with gaps before the parts now and then.
pub fn figures(chance: &mut Chance) -> Handle {
    let size = if chance.once_in(4) { chance.pick(&SIZES[3..]) } else { chance.pick(&SIZES[..3]) };
    // Many lanes make a long arena, and long blocks a longer one, so they are rare.
    let most = if chance.once_in(if size < 4096 { 12 } else { 60 }) { MAX_LANES } else { 16 };
    let lanes = 1 + chance.below(most) as u32;
    let sectors = lanes + chance.below(40) as u32;
    let mut figures = made_figures(Geometry { size, sectors, lanes });
    let mut gaps = 0;
    for start in [&mut figures.data, &mut figures.map, &mut figures.flog, &mut figures.copy] {
        gaps += if chance.once_in(3) { 4096 * chance.below(3) as u64 } else { 0 };
        *start += gaps;
    }
    figures.length += gaps;
    figures
}

/// A map word for a sector that has this block.
fn map_word(chance: &mut Chance, sector: usize, block: usize) -> u32 {
    let flags = 1 + chance.below(3) as u32;
    if sector == block && !chance.once_in(4) {
        return 0;
    }
    flags << 30 | block as u32
}

/// A layout.
pub fn layout(chance: &mut Chance) -> u32 {
    chance.pick(&LAYOUTS)
}

/// The bytes of a lane's 64 that are in neither half.
pub fn padding(layout: u32) -> impl Iterator<Item = usize> {
    let second = layout as usize..layout as usize + 16;
    (16..64).filter(move |at| !second.contains(at))
}

/// An arena that is valid in a layout, whose lanes are pending now and then; bytes of no part are random.
pub fn valid(chance: &mut Chance, layout: u32) -> Vec<u8> {
    let f = figures(chance);
    let mut arena = chance.bytes(f.length as usize);
    let blocks = spread(chance, &f);
    let (mapped, free) = blocks.split_at(f.sectors as usize);
    for (sector, block) in mapped.iter().enumerate() {
        let value = map_word(chance, sector, *block);
        put_word(&mut arena, f.map as usize + 4 * sector, value);
    }
    let mut sectors: Vec<usize> = (0..mapped.len()).collect();
    chance.shuffle(&mut sectors);
    for (lane, old) in free.iter().enumerate() {
        let sector = sectors[lane];
        let mut new = chance.below(blocks.len());
        if chance.once_in(3) {
            new = mapped[sector];
            let found = map_word(chance, sector, *old);
            put_word(&mut arena, f.map as usize + 4 * sector, found);
        }
        put_lane(chance, &mut arena[f.flog as usize + 64 * lane..][..64], layout, [sector, *old, new]);
    }
    put_info_blocks(chance, &mut arena, &f);
    arena
}

/// The blocks of the sectors and then those of the lanes: every block once, many where they were made.
fn spread(chance: &mut Chance, f: &Handle) -> Vec<usize> {
    let mut blocks: Vec<usize> = (0..f.blocks as usize).collect();
    match chance.below(3) {
        0 => chance.shuffle(&mut blocks),
        1 => {
            for _ in 0..chance.below(8) {
                let pair = (chance.below(blocks.len()), chance.below(blocks.len()));
                blocks.swap(pair.0, pair.1);
            }
        }
        _ => {}
    }
    blocks
}

/// The flog pair of a lane whose newer half is of these numbers.
fn put_lane(chance: &mut Chance, pair: &mut [u8], layout: u32, half: [usize; 3]) {
    let which = chance.below(2);
    let [newer, other] = [which, 1 - which].map(|half| layout as usize * half);
    let sequence = 1 + chance.below(3) as u32;
    let older = if chance.once_in(3) { 0 } else { [3, 1, 2][sequence as usize - 1] };
    for (i, value) in half.into_iter().enumerate() {
        put_word(pair, newer + 4 * i, value as u32);
    }
    put_word(pair, newer + 12, sequence);
    put_word(pair, other + 12, older);
    padding(layout).for_each(|at| pair[at] = 0);
}

/// Both info blocks, one of them spoilt now and then.
fn put_info_blocks(chance: &mut Chance, arena: &mut [u8], f: &Handle) {
    let mut block = info_block_of(f, Identifiers { own: &chance.bytes(16), parent: &chance.bytes(16) });
    if chance.once_in(2) {
        chance.fill(&mut block[120..4088]);
        seal(&mut block);
    }
    let copy = arena.len() - 4096;
    let spoilt = chance.below(6);
    if spoilt != 0 {
        arena[..4096].copy_from_slice(&block);
    }
    if spoilt != 1 {
        arena[copy..].copy_from_slice(&block);
    }
}

/// Numbers at which rules turn.
fn telling(chance: &mut Chance, f: &Handle) -> u32 {
    let edges =
        [0, 1, 2, 3, 4, 5, 16, 256, 257, f.size, f.internal, f.sectors, f.blocks, f.lanes, u32::MAX, 1 << 30, 1 << 31, 3 << 30];
    let edge = if chance.once_in(10) { chance.pick(&SIZES) } else { chance.pick(&edges) };
    match chance.below(4) {
        0 => chance.word(),
        1 => edge.wrapping_sub(1),
        2 => edge.wrapping_add(chance.pick(&[0, 1, 1 << 30, 2 << 30, 3 << 30])),
        _ => edge,
    }
}

/// Makes a map word sloppy, or the padding of a lane in the layout of these figures; gives the sector, if it was a word.
pub fn slop(chance: &mut Chance, arena: &mut [u8], f: &Handle) -> Option<u32> {
    if chance.once_in(2) {
        let padding: Vec<usize> = padding(f.layout).collect();
        let place = f.flog as usize + 64 * chance.below(f.lanes as usize) + chance.pick(&padding);
        arena[place] = 1 << chance.below(8);
        return None;
    }
    let sector = chance.below(f.sectors as usize) as u32;
    let low = [sector, f.blocks.wrapping_sub(1), f.blocks, 1 << chance.below(30), chance.word()];
    let word = chance.pick(&low) & 0x3FFF_FFFF;
    put_word(arena, f.map as usize + 4 * sector as usize, word.max(1));
    Some(sector)
}

/// Damages an arena of a layout at one or two places.
pub fn damage(chance: &mut Chance, arena: &mut Vec<u8>, layout: u32) {
    for _ in 0..1 + chance.below(2) {
        let Some(at) = info_block(arena) else {
            return;
        };
        let f = Handle { layout, ..figures_of(&arena[at..at + 4096], arena.len()) };
        let inside =
            |start: u64, unit: u64, count: u32| count > 0 && start.saturating_add(unit * u64::from(count)) <= arena.len() as u64;
        let value = telling(chance, &f);
        match chance.below(9) {
            0 => damage_info(chance, &mut arena[at..at + 4096], value),
            1 | 2 if inside(f.map, 4, f.sectors) => {
                let sector = chance.below(f.sectors as usize);
                put_word(arena, f.map as usize + 4 * sector, value);
            }
            3..=5 if inside(f.flog, 64, f.lanes) => {
                let half = 64 * chance.below(f.lanes as usize) + layout as usize * chance.below(2);
                put_word(arena, f.flog as usize + half + 4 * chance.below(4), value);
            }
            6 => {
                let place = chance.below(arena.len());
                arena[place] ^= 1 << chance.below(8);
            }
            7 if chance.once_in(4) => {
                let length =
                    chance.pick(&[0, 1, 4095, 4096, 16384, 20480, arena.len() - 4096, arena.len() + 4096, arena.len() + 1]);
                arena.resize(length, 0);
            }
            8 if inside(f.map, 4, f.sectors) && inside(f.flog, 64, f.lanes) => {
                slop(chance, arena, &f);
            }
            _ => arena[at..at + 120].copy_within(chance.below(100)..100, 20),
        }
    }
}

/// The bytes of a sector and of a block, often a pair that there is.
fn pair(chance: &mut Chance) -> (u32, u32) {
    let sizes = if chance.once_in(3) { &NO_SIZES[..] } else { &SIZES };
    let size = chance.pick(sizes);
    let rounded = size.saturating_add(63) / 64 * 64;
    (size, chance.pick(&[rounded, rounded, rounded, size, 512, 576, 4096, 4160]))
}

/// Changes a field of an info block, or the two sizes, and puts the checksum right in most cases.
fn damage_info(chance: &mut Chance, block: &mut [u8], value: u32) {
    let field = chance.below(20);
    match field {
        0..=7 => put_word(block, 48 + 4 * field, value),
        8..=12 => {
            let at = 80 + 8 * (field - 8);
            let start = u64::from(word(block, at));
            let far =
                [start + 4096, start.wrapping_sub(4096), start + 1, 0, 4096, 1 << 32, 0u64.wrapping_sub(4096), u64::from(value)];
            put_long(block, at, chance.pick(&far));
        }
        13 => block[chance.below(16)] ^= 1,
        14 => {
            let (size, internal) = pair(chance);
            put_word(block, 56, size);
            put_word(block, 64, internal);
        }
        _ => put_word(block, 52, chance.pick(&[0, 1, 2, 3, 0x1_0002, 0x2_0000])),
    }
    if !chance.once_in(5) {
        seal(block);
    }
}
