//! The library against the plain program on many arenas, long and short, valid and damaged, of every sector size and both layouts.
mod support;

use btt::Geometry;
use support::both::Both;
use support::chance::Chance;
use support::{arenas, other, pending, LAYOUTS, NO_LAYOUTS, NO_SIZES, ROOM, SIZES};

/// Opens an arena in a layout, by openings that are cut at every place too, and reads and writes it if it opens. Gives opening's answer.
fn tried(chance: &mut Chance, arena: &[u8], layout: u32) -> u32 {
    let (blocks, lanes) = support::figures(arena).map_or((0, 0), |figures| (figures.blocks, figures.lanes));
    let work = about(chance, blocks.min(40_000) as usize);
    let work = chance.bytes(work);
    let mut both = Both::new(arena).with_records(about(chance, lanes.min(300) as usize));
    both.info_block();
    none_and_other(chance, &mut both, &work, layout);
    let mut opened = both.clone();
    let number = opened.open(layout, &work);
    let mut cut = both;
    for _ in 0..chance.below(4) {
        let k = if chance.once_in(5) { chance.word() } else { chance.below(4) as u32 };
        assert_eq!(cut.cut_open(layout, &work, k), number);
    }
    assert_eq!(cut.open(layout, &work), number);
    if number == 0 {
        let same = cut.arena == opened.arena && cut.handle == opened.handle && cut.table == opened.table;
        assert!(same, "cut openings leave no trace");
        used(chance, &mut opened);
    }
    number
}

/// A number of bytes or records where so many are needed: now and then too few, or more than enough.
fn about(chance: &mut Chance, needed: usize) -> usize {
    match chance.below(20) {
        0 => needed.saturating_sub(1),
        1 => 0,
        2..5 => needed + 100,
        _ => needed,
    }
}

/// Openings in no layout, which are refused before all else, and a cut one in the other layout that stores nothing.
fn none_and_other(chance: &mut Chance, both: &mut Both, work: &[u8], layout: u32) {
    let none = if chance.once_in(4) { chance.word() | 1 } else { chance.pick(&NO_LAYOUTS) };
    assert_eq!((both.open(none, work), both.cut_open(none, work, chance.below(4) as u32)), (16, 16));
    both.cut_open(other(layout), work, 0);
}

/// Some calls on an opened arena.
fn used(chance: &mut Chance, both: &mut Both) {
    let size = both.handle.sector_size();
    for _ in 0..4 {
        let sector = chance.below(both.handle.sectors as usize + 1) as u32;
        let lane = chance.below(both.handle.lanes as usize + 1) as u32;
        let length = if chance.once_in(9) { chance.pick(&[size - 1, size.next_multiple_of(64)]) } else { size };
        let buffer = chance.bytes(length);
        both.read(sector, &mut buffer.clone());
        both.write(lane, sector, &buffer);
        both.start(lane, sector);
        both.lane(lane);
        both.next_store(lane);
        both.step(lane, &buffer);
    }
    for sector in 0..both.handle.sectors {
        both.read(sector, &mut vec![1; size]);
    }
}

#[test]
fn valid_arenas_open() {
    let mut chance = Chance::new(11);
    let (mut mended, mut sizes, mut answers, mut lanes) = (0, [0; 5], [0; 22], 0);
    for _ in 0..3000 {
        let layout = arenas::layout(&mut chance);
        let arena = arenas::valid(&mut chance, layout);
        let number = tried(&mut chance, &arena, layout);
        answers[number as usize] += 1;
        mended += pending(&arena, layout).unwrap();
        let figures = support::figures(&arena).unwrap();
        sizes[SIZES.into_iter().position(|known| known == figures.size).unwrap()] += 1;
        lanes = lanes.max(figures.lanes);
    }
    assert!(mended > 1000 && lanes > 250, "lanes were pending: {mended}, and many at once: {lanes}");
    assert!(sizes.into_iter().all(|count| count > 200), "every size came: {sizes:?}");
    assert!([0, 5, 21].into_iter().all(|number| answers[number] > 100), "{answers:?}");
    assert_eq!(answers[0] + answers[5] + answers[21], 3000);
}

#[test]
fn damaged_arenas_are_answered_alike() {
    let mut chance = Chance::new(12);
    let mut answers = [0; 22];
    for _ in 0..12_000 {
        let layout = arenas::layout(&mut chance);
        let mut arena = arenas::valid(&mut chance, layout);
        arenas::damage(&mut chance, &mut arena, layout);
        answers[tried(&mut chance, &arena, layout) as usize] += 1;
    }
    assert!((0..=8).chain([18, 21]).all(|number| answers[number] > 10), "every answer came: {answers:?}");
}

/// Told the other layout, an arena whose older halves are any bytes does not open: a lane is lost, or that half is padding.
#[test]
fn arenas_of_the_other_layout_are_refused_alike() {
    let mut chance = Chance::new(16);
    let mut answers = [0; 22];
    for _ in 0..2000 {
        let layout = arenas::layout(&mut chance);
        let arena = arenas::valid(&mut chance, layout);
        answers[tried(&mut chance, &arena, other(layout)) as usize] += 1;
    }
    assert!([5, 6, 18, 21].into_iter().all(|number| answers[number] > 10), "{answers:?}");
    assert_eq!(answers[5] + answers[6] + answers[18] + answers[21], 2000);
}

#[test]
fn random_bytes_are_answered_alike() {
    let mut chance = Chance::new(13);
    let lengths = [0, 1, 3, 4, 4095, 4096, 8192, 20_479, 20_480, 20_481, 24_576, 49_152, 65_536];
    for length in lengths {
        for _ in 0..20 {
            let arena = chance.bytes(length);
            let layout = arenas::layout(&mut chance);
            assert_eq!(tried(&mut chance, &arena, layout), if plain::length_allowed(length) { 2 } else { 1 });
        }
    }
}

#[test]
fn long_arenas_are_answered_alike() {
    let mut chance = Chance::new(14);
    for length in [16_777_216, 16_777_220, 16_781_312] {
        let arena = vec![0; length];
        assert_eq!(tried(&mut chance, &arena, 32), if length == 16_777_216 { 2 } else { 1 });
    }
    for (size, sectors, lanes) in [(512, 2000, 256), (520, 1000, 16), (528, 1000, 255), (4096, 500, 3), (4104, 300, 256)] {
        let geometry = Geometry { size, sectors, lanes };
        let mut both = Both::new(&chance.bytes(geometry.made_length().unwrap() as usize));
        assert_eq!(both.make(geometry, &[1; 16], &[2; 16]), 0);
        let made = both.arena.to_vec();
        for _ in 0..25 {
            let (mut arena, layout) = (made.clone(), arenas::layout(&mut chance));
            arenas::damage(&mut chance, &mut arena, layout);
            tried(&mut chance, &arena, layout);
        }
    }
}

#[test]
fn making_is_answered_alike() {
    let mut chance = Chance::new(15);
    let mut answers = [0; 11];
    for _ in 0..3000 {
        let size = if chance.once_in(3) { chance.pick(&NO_SIZES) } else { chance.pick(&SIZES) };
        let lanes = chance.pick(&[0, 1, 2, 3, 8, 16, 17, 48, 255, 256, 257, u32::MAX]);
        let sectors = match chance.below(8) {
            0 => chance.word(),
            1 => u32::MAX - chance.below(20) as u32,
            _ => lanes.wrapping_add(chance.below(30) as u32).wrapping_sub(chance.once_in(4) as u32),
        };
        let geometry = Geometry { size, sectors, lanes };
        let right = geometry.made_length().unwrap_or(20_480) as usize;
        let length = if chance.once_in(4) { right.saturating_sub(chance.pick(&[1, 4096, 20_480])) } else { right };
        let id = |chance: &mut Chance| {
            let length = chance.pick(&[16, 16, 16, 16, 16, 0, 15, 17]);
            chance.bytes(length)
        };
        let (own, parent) = (id(&mut chance), id(&mut chance));
        let mut both = Both::new(&chance.bytes(length));
        let number = both.make(geometry, &own, &parent);
        answers[number as usize] += 1;
        assert!(geometry.made_length().is_none_or(|length| length == plain::made_figures(geometry).length));
        assert!(number != 0 || LAYOUTS.into_iter().all(|layout| both.open(layout, &[9; ROOM]) == 0));
    }
    assert!([0, 1, 3, 10].into_iter().all(|number| answers[number] > 20), "{answers:?}");
}
