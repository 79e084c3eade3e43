//! Rust callers of every function: the worked figures of docs/FORMAT.md and those of the other sizes, and each refusal.
mod support;

use btt::{
    AlignedBytes, Answer, Arena, ArenaRef, Geometry, Handle, Identifiers, Lane, Layout, Misaligned, OpenArena, Opened,
    MAX_BLOCKS, SIZES,
};
use plain::{put_word, seal, word};
use support::GEOMETRY;

const DATA: usize = 4096;
const MAP: usize = 36_864;
const FLOG: usize = 40_960;

/// The fresh arena of 49,152 bytes.
fn fresh() -> AlignedBytes {
    fresh_of(GEOMETRY)
}

fn fresh_of(geometry: Geometry) -> AlignedBytes {
    let mut memory = AlignedBytes::zeroed(geometry.made_length().unwrap() as usize);
    memory.fill(0x5A);
    Arena::new(&mut memory).unwrap().make(geometry, Identifiers::ZEROES).unwrap();
    memory
}

/// A table for four lanes.
type Table = [Lane; 4];

fn opened(memory: &mut AlignedBytes) -> (Arena<'_>, Handle, Table) {
    opened_in(Layout::Near, memory)
}

fn opened_in(layout: Layout, memory: &mut AlignedBytes) -> (Arena<'_>, Handle, Table) {
    let (mut arena, mut table) = (Arena::new(memory).unwrap(), Table::default());
    let handle = arena.open_in(layout, &mut [0; 64], &mut table).unwrap().handle;
    (arena, handle, table)
}

#[test]
fn lengths_are_those_worked_out() {
    for (size, sectors, lanes, length) in [
        (512, 60, 4, 49_152),
        (512, 1, 1, 20_480),
        (520, 60, 4, 53_248),
        (520, 1, 1, 20_480),
        (520, 100, 4, 77_824),
        (528, 60, 4, 53_248),
        (528, 1, 1, 20_480),
        (4096, 1, 1, 24_576),
        (4104, 1, 1, 28_672),
        (4104, 70, 2, 319_488),
    ] {
        let geometry = Geometry { size, sectors, lanes };
        assert_eq!(geometry.made_length(), Some(length));
        let mut memory = AlignedBytes::zeroed(length as usize + 4096);
        let mut make = |length: u64| Arena::new(&mut memory[..length as usize]).unwrap().make(geometry, Identifiers::ZEROES);
        assert_eq!(make(length), Ok(()));
        assert_eq!(make(length + 4096), Err(Answer::WrongLength));
        assert_eq!(make(length - 4096), Err(Answer::WrongLength));
    }
    for (size, sectors, lanes, internal, starts) in [
        (512, 60, 4, 512, [4096, 36_864, 40_960, 45_056]),
        (520, 60, 4, 576, [4096, 40_960, 45_056, 49_152]),
        (528, 60, 4, 576, [4096, 40_960, 45_056, 49_152]),
        (4096, 3, 2, 4096, [4096, 24_576, 28_672, 32_768]),
        (4104, 3, 2, 4160, [4096, 28_672, 32_768, 36_864]),
    ] {
        let mut memory = fresh_of(Geometry { size, sectors, lanes });
        let (_, handle, _) = opened(&mut memory);
        assert_eq!((handle.size, handle.internal, handle.blocks), (size, internal, sectors + lanes));
        assert_eq!([handle.data, handle.map, handle.flog, handle.copy], starts);
    }
}

#[test]
fn the_work_buffer_for_every_arena_is_long_enough() {
    let most = |lanes| SIZES.map(|(size, _)| (Geometry::fitting(u64::MAX, size, lanes).unwrap().sectors + lanes) as usize);
    assert_eq!(most(16), [32_488, 28_899, 28_899, 4089, 4026]);
    assert_eq!(most(256), [32_464, 28_885, 28_885, 4086, 4023]);
    assert_eq!((1..=256).flat_map(most).max(), Some(MAX_BLOCKS));
}

/// A write of lane 0 of a fresh arena: the places of its first data word, its first flog word in both layouts and its map word.
struct Worked {
    geometry: (u32, u32, u32),
    sector: u32,
    data: usize,
    flog: [usize; 2],
    map: usize,
    stores: u32,
}

/// The first is case 9 and its twin; all places were worked out by hand.
const WORKED: [Worked; 5] = [
    Worked { geometry: (512, 60, 4), sector: 7, data: 34_816, flog: [40_976, 40_992], map: 36_892, stores: 133 },
    Worked { geometry: (520, 60, 4), sector: 7, data: 38_656, flog: [45_072, 45_088], map: 40_988, stores: 135 },
    Worked { geometry: (528, 60, 4), sector: 7, data: 38_656, flog: [45_072, 45_088], map: 40_988, stores: 137 },
    Worked { geometry: (4096, 3, 2), sector: 1, data: 16_384, flog: [28_688, 28_704], map: 24_580, stores: 1029 },
    Worked { geometry: (4104, 3, 2), sector: 1, data: 16_576, flog: [32_784, 32_800], map: 28_676, stores: 1031 },
];

#[test]
fn a_write_makes_the_stores_that_are_worked_out() {
    for (worked, i) in WORKED.iter().flat_map(|worked| [(worked, 0), (worked, 1)]) {
        stores_of_a_write(worked, Layout::ALL[i], worked.flog[i]);
    }
}

fn stores_of_a_write(worked: &Worked, layout: Layout, flog: usize) {
    let ((size, sectors, lanes), sector) = (worked.geometry, worked.sector);
    let mut memory = fresh_of(Geometry { size, sectors, lanes });
    let (mut arena, handle, mut table) = opened_in(layout, &mut memory);
    let buffer: Vec<u8> = (0..size).map(|i| (i * 7) as u8).collect();
    arena.start(&handle, &mut table, 0, sector).unwrap();
    let mut stores = Vec::new();
    for number in 1..=worked.stores {
        assert_eq!(arena.lane(&handle, &table, 0).unwrap().made, number - 1);
        let mut seen = vec![1; buffer.len()];
        arena.read(&handle, &table, sector, &mut seen).unwrap();
        assert!(seen.iter().all(|byte| *byte == 0), "the old sector until the map word is stored");
        let before = arena.bytes().to_vec();
        let offset = arena.next_store(&handle, &table, 0).unwrap() as usize;
        arena.step(&handle, &mut table, 0, &buffer).unwrap();
        let after = arena.bytes();
        assert!(before[..offset] == after[..offset] && before[offset + 4..] == after[offset + 4..]);
        stores.push((offset, word(after, offset)));
    }
    let mut expected: Vec<_> = (0..size as usize / 4).map(|i| (worked.data + 4 * i, word(&buffer, 4 * i))).collect();
    expected.extend([sector, sector, sectors, 2].into_iter().enumerate().map(|(i, value)| (flog + 4 * i, value)));
    expected.push((worked.map, 0xC000_0000 + sectors));
    assert_eq!(stores, expected);
    assert_eq!(arena.lane(&handle, &table, 0), Ok(Lane { block: sector, half: 0, sequence: 3, ..Lane::default() }));
    assert_eq!(arena.next_store(&handle, &table, 0), Err(Answer::LaneIdle));
}

#[test]
fn a_cut_write_is_old_or_new() {
    let cuts = [(0, false, 0), (131, false, 0), (132, true, 1), (133, true, 0)];
    for (layout, (kept, new, mended)) in Layout::ALL.into_iter().flat_map(|layout| cuts.map(|cut| (layout, cut))) {
        let mut memory = fresh();
        let (mut arena, handle, mut table) = opened_in(layout, &mut memory);
        arena.start(&handle, &mut table, 0, 7).unwrap();
        for _ in 0..kept {
            arena.step(&handle, &mut table, 0, &[5; 512]).unwrap();
        }
        let mut table = Table::default();
        assert_eq!(arena.cut_open_in(layout, &mut [0; 64], &table, 0), Ok(mended));
        let opened = arena.open_in(layout, &mut [0; 64], &mut table).unwrap();
        assert_eq!(opened.mended, mended);
        let mut buffer = [9; 512];
        arena.read(&opened.handle, &table, 7, &mut buffer).unwrap();
        assert_eq!(buffer, [if new { 5 } else { 0 }; 512]);
        let mut again = Table::default();
        assert_eq!(arena.open_in(layout, &mut [0; 64], &mut again), Ok(Opened { mended: 0, handle: opened.handle }));
        assert_eq!(again, table);
    }
}

#[test]
fn halves_are_judged_as_in_cases_6_to_8() {
    for layout in Layout::ALL {
        let half = |memory: &mut AlignedBytes, lane: usize, words: [u32; 4]| {
            for (i, word) in words.into_iter().enumerate() {
                put_word(memory, FLOG + 64 * lane + layout.bytes() as usize + 4 * i, word);
            }
        };
        for (found, mended) in [(0, 1), (0xC000_003C, 0)] {
            let mut memory = fresh();
            half(&mut memory, 0, [7, 7, 60, 2]);
            put_word(&mut memory, MAP + 28, found);
            let mut table = Table::default();
            let found = Arena::new(&mut memory).unwrap().open_in(layout, &mut [0; 64], &mut table).unwrap();
            assert_eq!((found.mended, table[0].block), (mended, 7));
            assert_eq!(word(&memory, MAP + 28), 0xC000_003C);
        }
        let mut memory = fresh();
        half(&mut memory, 0, [7, 7, 60, 2]);
        half(&mut memory, 1, [7, 60, 61, 2]);
        put_word(&mut memory, MAP + 28, 0xC000_003D);
        let mut table = Table::default();
        let found = Arena::new(&mut memory).unwrap().open_in(layout, &mut [0; 64], &mut table).unwrap();
        assert_eq!((found.mended, table[0].block, table[1].block), (0, 7, 60));
    }
}

#[test]
fn making_is_refused_in_order() {
    let make = |length: usize, geometry: Geometry, own: &[u8], parent: &[u8]| {
        let mut memory = AlignedBytes::zeroed(length);
        let answer = Arena::new(&mut memory).unwrap().make(geometry, Identifiers { own, parent });
        assert!(answer.is_ok() || memory.iter().all(|byte| *byte == 0));
        answer
    };
    for (size, sectors, lanes) in [
        (0, 60, 4),
        (513, 60, 4),
        (576, 60, 4),
        (4160, 60, 4),
        (512, 3, 4),
        (520, 3, 4),
        (512, 60, 0),
        (528, 60, 0),
        (512, 300, 257),
        (4104, 300, 257),
        (512, 0, 0),
    ] {
        assert_eq!(make(0, Geometry { size, sectors, lanes }, &[], &[]), Err(Answer::ForbiddenFigure));
    }
    let id = [1; 16];
    assert_eq!(make(49_151, GEOMETRY, &[], &[]), Err(Answer::WrongLength));
    assert_eq!(make(49_152, GEOMETRY, &[], &id), Err(Answer::WrongBuffer));
    assert_eq!(make(49_152, GEOMETRY, &id, &[0; 17]), Err(Answer::WrongBuffer));
    assert_eq!(make(49_152, GEOMETRY, &id, &id), Ok(()));
    let huge = Geometry { size: 512, sectors: u32::MAX, lanes: 256 };
    assert_eq!((huge.made_length(), make(49_152, huge, &id, &id)), (None, Err(Answer::WrongLength)));
}

#[test]
fn opening_is_refused_with_each_number() {
    let refused = |change: fn(&mut AlignedBytes), length: usize, room: usize| {
        let answers = Layout::ALL.map(|layout| {
            let mut memory = fresh();
            change(&mut memory);
            let before = memory.clone();
            let mut work = vec![7; room];
            let mut table = Table::default();
            let answer = Arena::new(&mut memory[..length]).unwrap().open_in(layout, &mut work, &mut table).unwrap_err();
            assert_eq!((memory, table), (before, Table::default()), "a refusal changes nothing");
            let cleared = answer.number() > 5;
            assert_eq!(work.iter().position(|byte| *byte == 7), Some(if cleared { 64 } else { 0 }).filter(|_| room > 0));
            answer.number()
        });
        assert_eq!(answers[0], answers[1]);
        answers[0]
    };
    fn sealed(memory: &mut AlignedBytes, at: usize, word: u32) {
        put_word(memory, at, word);
        seal(&mut memory[..4096]);
    }
    assert_eq!(refused(|_| (), 49_148, 70), 1);
    assert_eq!(refused(|_| (), 0, 70), 1);
    assert_eq!(refused(|memory| (memory[0], memory[45_056]) = (0, 0), 49_152, 70), 2);
    assert_eq!(refused(|memory| sealed(memory, 72, 5), 49_152, 70), 3);
    assert_eq!(refused(|memory| sealed(memory, 48, 1), 49_152, 70), 4);
    assert_eq!(refused(|_| (), 49_152, 63), 5);
    assert_eq!(refused(|_| (), 49_152, 0), 5);
    assert_eq!(refused(|memory| put_word(memory, FLOG + 12, 4), 49_152, 70), 6);
    assert_eq!(refused(|memory| put_word(memory, MAP, 0xC000_0040), 49_152, 70), 7);
    assert_eq!(refused(|memory| put_word(memory, MAP, 0x0000_0001), 49_152, 70), 18);
    assert_eq!(refused(|memory| put_word(memory, FLOG + 48, 1), 49_152, 70), 18);
    assert_eq!(refused(|memory| put_word(memory, MAP, 0xC000_0001), 49_152, 70), 8);
}

#[test]
fn a_map_word_is_read_by_its_flags() {
    let mut memory = fresh();
    memory[DATA + 512 * 5..][..512].fill(7);
    // Neither bit, bit 30 (Error) alone, bit 31 (Zero) alone, both.
    for (word, read) in
        [(0, Ok([0; 512])), (0x4000_0005, Err(Answer::BadSector)), (0x8000_0005, Ok([0; 512])), (0xC000_0005, Ok([7; 512]))]
    {
        put_word(&mut memory, MAP + 4 * 5, word);
        let (arena, handle, table) = opened(&mut memory);
        let mut buffer = [3; 512];
        assert_eq!(arena.read(&handle, &table, 5, &mut buffer).map(|()| buffer), read, "{word:#010x}");
    }
    let (_, handle, mut table) = opened(&mut memory);
    put_word(&mut memory, MAP + 4 * 7, 0x0000_0005);
    let mut arena = Arena::new(&mut memory).unwrap();
    assert_eq!(arena.read(&handle, &table, 7, &mut [3; 512]), Err(Answer::Sloppy), "neither bit, and not 0");
    assert_eq!(arena.open(&mut [0; 64], &mut table), Err(Answer::Sloppy));
}

#[test]
fn reads_and_writes_are_refused_with_each_number() {
    let mut memory = fresh();
    put_word(&mut memory, MAP + 4 * 5, 0x4000_0005);
    let (mut arena, handle, mut table) = opened(&mut memory);
    let mut buffer = [3; 512];
    assert_eq!(arena.read(&handle, &table, 59, &mut buffer), Ok(()));
    let mut buffer = [3; 512];
    assert_eq!(arena.read(&handle, &table, 60, &mut buffer), Err(Answer::NoSuchSector));
    assert_eq!(arena.read(&handle, &table, 0, &mut buffer[..511]), Err(Answer::WrongBuffer));
    assert_eq!(arena.read(&handle, &table, 0, &mut []), Err(Answer::WrongBuffer));
    assert_eq!(arena.read(&handle, &table, 5, &mut buffer), Err(Answer::BadSector));
    assert_eq!(arena.read(&Handle::default(), &table, 5, &mut buffer), Err(Answer::BadHandle));
    assert_eq!(buffer, [3; 512]);
    arena.start(&handle, &mut table, 1, 8).unwrap();
    let before = (arena.bytes().to_vec(), table);
    assert_eq!(arena.start(&handle, &mut table, 4, 60), Err(Answer::NoSuchLane));
    assert_eq!(arena.start(&handle, &mut table, 1, 60), Err(Answer::LaneBusy));
    assert_eq!(arena.start(&handle, &mut table, 0, 60), Err(Answer::NoSuchSector));
    assert_eq!(arena.start(&handle, &mut table, 0, 8), Err(Answer::SectorBusy));
    assert_eq!(arena.write(&handle, &mut table, 0, 8, &buffer[..511]), Err(Answer::WrongBuffer));
    assert_eq!(arena.write(&handle, &mut table, 0, 8, &buffer), Err(Answer::SectorBusy));
    assert_eq!(arena.write(&handle, &mut table, 0, 60, &[]), Err(Answer::NoSuchSector));
    assert_eq!(arena.step(&handle, &mut table, 4, &buffer), Err(Answer::NoSuchLane));
    assert_eq!(arena.step(&handle, &mut table, 0, &[]), Err(Answer::LaneIdle));
    assert_eq!(arena.step(&handle, &mut table, 1, &buffer[..511]), Err(Answer::WrongBuffer));
    assert_eq!((arena.bytes(), table), (&before.0[..], before.1));
    assert_eq!(arena.write(&handle, &mut table, 2, 5, &buffer), Ok(()), "a write makes a bad sector good");
    assert_eq!(arena.read(&handle, &table, 5, &mut buffer), Ok(()));
    let bytes = arena.into_bytes();
    put_word(bytes, MAP, 0xC000_0040);
    put_word(bytes, MAP + 4, 0x0000_0001);
    let mut arena = Arena::new(bytes).unwrap();
    for (sector, answer) in [(0, Answer::BadMapWord), (1, Answer::Sloppy)] {
        assert_eq!(arena.read(&handle, &table, sector, &mut buffer), Err(answer));
        assert_eq!(arena.start(&handle, &mut table, 0, sector), Err(answer));
        assert_eq!(arena.write(&handle, &mut table, 0, sector, &buffer), Err(answer));
    }
}

#[test]
fn the_info_block_is_the_callers_own_bytes() {
    let mut memory = fresh();
    assert_eq!(ArenaRef::new(&memory).unwrap().info_block().unwrap().as_ptr(), memory.as_ptr());
    memory[3] ^= 1;
    assert_eq!(ArenaRef::new(&memory).unwrap().info_block().unwrap().as_ptr(), memory[45_056..].as_ptr());
    memory[45_056] ^= 1;
    assert_eq!(ArenaRef::new(&memory).unwrap().info_block(), None);
    assert_eq!(ArenaRef::new(&[]).unwrap().info_block(), None);
}

#[test]
fn only_the_address_is_judged_before() {
    let mut memory = AlignedBytes::zeroed(49_160);
    for shift in 0..8 {
        assert_eq!(Arena::new(&mut memory[shift..]).is_ok(), shift % 4 == 0);
        assert_eq!(ArenaRef::new(&memory[shift..]).err(), (shift % 4 != 0).then_some(Misaligned));
        assert!(Arena::new(&mut memory[shift..shift]).is_ok(), "no bytes have no address");
    }
}

#[test]
fn an_open_arena_is_a_row_of_sectors() {
    Layout::ALL.into_iter().for_each(a_row_of_sectors);
}

fn a_row_of_sectors(layout: Layout) {
    let mut memory = fresh();
    let mut opened = OpenArena::open_in(layout, Arena::new(&mut memory).unwrap()).unwrap();
    assert_eq!((opened.sector_size(), opened.sectors(), opened.mended(), opened.layout()), (512, 60, 0, layout));
    for sector in 0..60 {
        opened.write_sector(sector, &[sector as u8; 512]).unwrap();
    }
    let cut =
        opened.write_sector_by_steps(9, &[99; 512], |store| if store.number == 132 { Err(Answer::BadSector) } else { Ok(()) });
    assert_eq!(cut, Err(Answer::BadSector));
    assert_eq!(opened.write_sector(9, &[98; 512]), Err(Answer::SectorBusy), "the lane is left busy");
    assert_eq!(opened.write_sector_by_steps(10, &[98; 511], |_| Ok::<(), Answer>(())), Err(Answer::WrongBuffer));
    assert_eq!(opened.idle_lane(), Some(1), "a refused write leaves no lane busy");
    let (arena, ..) = opened.into_parts();
    let opened = OpenArena::open_in(layout, arena).unwrap();
    assert_eq!(opened.mended(), 1);
    let mut buffer = [0; 512];
    for sector in 0..60 {
        opened.read_sector(sector, &mut buffer).unwrap();
        assert_eq!(buffer, [if sector == 9 { 99 } else { sector as u8 }; 512]);
    }
}
