//! Sloppy arenas: a map word with neither flag that is not 0, and padding of a lane that is not zero, are answered with 18, in their place
//! among the other answers, and nothing else is. What is padding goes by the layout.
mod support;

use btt::{AlignedBytes, MAX_SECTOR};
use plain::{put_word, seal, word};
use support::both::Both;
use support::chance::Chance;
use support::{arenas, made, number, raw, rubbish, GEOMETRY, LAYOUTS, ROOM};

const MAP: usize = 36_864;
const FLOG: usize = 40_960;
const COPY: usize = 45_056;

/// Words that make the arena of the worked cases sloppy in a layout: its first and last map word, the first word of padding of its first
/// lane and the last of its last.
fn sloppy_words(layout: u32) -> [(usize, u32); 4] {
    let first = if layout == 16 { FLOG + 32 } else { FLOG + 16 };
    [(MAP, 1), (MAP + 4 * 59, 0x3FFF_FFFF), (first, 1), (FLOG + 252, 1 << 31)]
}

/// Opens an arena of 64 blocks as C sees it, or cuts its opening after so many stores, and looks at all that it must leave.
#[track_caller]
fn opened(before: &AlignedBytes, layout: u32, room: usize, cut: Option<u32>) -> u32 {
    let (mut arena, mut work) = (before.clone(), vec![7; room]);
    let number = match cut {
        None => number(&raw::open(&mut arena, &mut work, layout, &mut rubbish(4))),
        Some(k) => number(&raw::cut_open(&mut arena, &mut work, layout, &rubbish(4), k)),
    };
    assert!(number == 0 || arena == *before, "a refusal leaves the arena");
    let (cleared, kept) = work.split_at(if (1..6).contains(&number) { 0 } else { 64 });
    assert!(cleared.iter().all(|byte| *byte == 0) && kept.iter().all(|byte| *byte == 7), "the work buffer after {number}");
    number
}

/// What an arena of 64 blocks is answered by every opening in a layout, the plain program's too.
#[track_caller]
fn answered(arena: &AlignedBytes, layout: u32, room: usize) -> u32 {
    let number = opened(arena, layout, room, None);
    for k in [0, 1, u32::MAX] {
        assert_eq!(opened(arena, layout, room, Some(k)), number);
    }
    assert_eq!(Both::new(arena).open(layout, &vec![7; room]), number);
    number
}

#[test]
fn every_bit_of_a_word_and_of_padding_is_judged() {
    let mut arena = made(GEOMETRY);
    for at in [MAP, MAP + 4 * 59] {
        for bit in 0..30 {
            put_word(&mut arena, at, 1 << bit);
            assert_eq!(LAYOUTS.map(|layout| answered(&arena, layout, 70)), [18, 18], "bit {bit} of the word at {at}");
        }
        put_word(&mut arena, at, 0);
    }
    for (layout, padding) in [(16, [32..48, 48..64]), (32, [16..32, 48..64])] {
        for at in padding.into_iter().flatten().flat_map(|at| (0..4).map(move |lane| FLOG + 64 * lane + at)) {
            for bit in 0..8 {
                arena[at] = 1 << bit;
                assert_eq!(answered(&arena, layout, 64), 18, "bit {bit} of the byte at {at} in layout {layout}");
            }
            arena[at] = 0;
        }
    }
    assert_eq!(LAYOUTS.map(|layout| answered(&arena, layout, 64)), [0, 0]);
}

#[test]
fn the_first_fault_in_order_is_answered() {
    let others = [
        (3, 72, 5),
        (4, 48, 1),
        (6, FLOG + 12, 0),
        (6, FLOG + 64 * 3 + 12, 4),
        (6, FLOG + 64 * 2 + 4, 64),
        (7, MAP + 4, 0xC000_0040),
        (7, MAP + 4 * 58, 0x4000_0040),
        // By these alone the arena is answered with 8.
        (18, MAP + 4, 0xC000_0002),
        (18, MAP + 4 * 58, 0x8000_0002),
        (18, FLOG + 4, 61),
        // By these alone it opens, the first of them from its copy.
        (18, 0, 0),
        (18, MAP + 4, 0x8000_0001),
    ];
    for (layout, (sloppy, value)) in LAYOUTS.into_iter().flat_map(|layout| sloppy_words(layout).map(|word| (layout, word))) {
        let mut arena = made(GEOMETRY);
        put_word(&mut arena, sloppy, value);
        assert_eq!(answered(&arena, layout, 63), 5);
        for (number, place, other) in others {
            let mut arena = arena.clone();
            put_word(&mut arena, place, other);
            seal(&mut arena[..4096]);
            assert_eq!(answered(&arena, layout, 70), number, "with {other:#x} at {place}, and {value:#x} at {sloppy}");
        }
    }
}

#[test]
fn nothing_is_mended_in_a_sloppy_arena() {
    for layout in LAYOUTS {
        let mut both = Both::new(&made(GEOMETRY));
        assert_eq!((both.open(layout, &[0; 64]), both.start(2, 11)), (0, 0));
        (0..132).for_each(|_| assert_eq!(both.step(2, &[5; 512]), 0));
        assert_eq!(support::pending(&both.arena, layout), Ok(1));
        for (at, value) in sloppy_words(layout).into_iter().chain([(MAP + 4 * 11, 11), (MAP + 4 * 11, 62)]) {
            let mut arena = both.arena.clone();
            put_word(&mut arena, at, value);
            assert_eq!(answered(&arena, layout, 70), 18);
        }
    }
}

#[test]
fn other_bytes_are_not_judged() {
    let mut chance = Chance::new(71);
    for layout in LAYOUTS {
        let mut arena = made(GEOMETRY);
        chance.fill(&mut arena[MAP + 4 * 60..FLOG]);
        chance.fill(&mut arena[FLOG + 64 * 4..COPY]);
        chance.fill(&mut arena[120..4088]);
        chance.fill(&mut arena[FLOG + layout as usize..][..12]);
        seal(&mut arena[..4096]);
        assert_eq!(answered(&arena, layout, 70), 0);
    }
}

#[test]
fn a_call_judges_the_word_of_its_own_sector() {
    LAYOUTS.into_iter().for_each(words_of_their_own);
}

fn words_of_their_own(layout: u32) {
    let mut both = Both::new(&made(GEOMETRY));
    assert_eq!((both.open(layout, &[0; 64]), both.start(0, 7), both.step(0, &[8; 512])), (0, 0, 0));
    both.change(|arena| {
        put_word(arena, MAP + 4 * 5, 5);
        put_word(arena, MAP + 4 * 7, 60);
        (0..4).for_each(|lane| arenas::padding(layout).for_each(|at| arena[FLOG + 64 * lane + at] = 0xFF));
    });
    for sector in 0..60 {
        let expected = match sector {
            5 => [18, 18, 14, 18, 0, 14],
            7 => [18, 13, 14, 13, 0, 14],
            _ => [0, 0, 14, 0, 0, 14],
        };
        assert_eq!(both.every_call(1, sector, &[9; 512]), expected, "sector {sector}");
    }
    let (before, mut buffer) = (both.clone(), [3; 512]);
    assert_eq!((both.read(5, &mut buffer), both.start(1, 5), both.write(1, 5, &buffer)), (18, 18, 18));
    assert_eq!((both.read(5, &mut buffer[1..]), both.write(1, 5, &[]), both.write(0, 5, &[])), (10, 10, 12));
    assert!(both.arena == before.arena && both.table == before.table && buffer == [3; 512], "a refusal changes nothing");
    (1..133).for_each(|_| assert_eq!(both.step(0, &[8; 512]), 0, "a write in flight goes on"));
    assert_eq!((word(&both.arena, MAP + 4 * 7), both.read(7, &mut buffer), buffer), (0xC000_003C, 0, [8; 512]));
    assert_eq!(answered(&both.arena, layout, 70), 18);
}

/// An opened arena with writes in flight on some of its lanes.
fn in_flight(chance: &mut Chance, buffer: &[u8]) -> Both {
    let layout = arenas::layout(chance);
    let mut both = Both::new(&arenas::valid(chance, layout));
    assert_eq!(both.open(layout, &[0; ROOM]), 0);
    for lane in 0..both.handle.lanes {
        let sector = chance.below(both.handle.sectors as usize) as u32;
        if chance.once_in(2) && both.start(lane, sector) == 0 {
            let steps = chance.below(both.handle.steps() as usize);
            (0..steps).for_each(|_| assert_eq!(both.step(lane, &buffer[..both.handle.sector_size()]), 0));
        }
    }
    both
}

#[test]
fn sloppy_places_of_opened_arenas_are_answered_alike() {
    let mut chance = Chance::new(72);
    let buffer = chance.bytes(MAX_SECTOR);
    for _ in 0..200 {
        let mut both = in_flight(&mut chance, &buffer);
        let (handle, records) = (both.handle, both.handle.records(&both.table).to_vec());
        let idle = handle.idle_lane(&records);
        let buffer = &buffer[..handle.sector_size()];
        let places: Vec<_> =
            (0..1 + chance.below(3)).map(|_| both.change(|arena| arenas::slop(&mut chance, arena, &handle))).collect();
        assert_eq!((both.clone().reopen(&[7; ROOM]), both.clone().cut_open(handle.layout, &[7; ROOM], 1)), (18, 18));
        for sector in 0..handle.sectors {
            let sloppy = places.contains(&Some(sector));
            let busy = records.iter().any(|record| record.busy == 1 && record.sector == sector);
            let found = both.every_call(idle.unwrap_or(0), sector, buffer).map(|number| number == 18);
            let started = sloppy && !busy && idle.is_some();
            assert_eq!(found, [sloppy, started, false, started, false, false]);
        }
        for (lane, record) in (0..).zip(records).filter(|(_, record)| !record.is_idle()) {
            (record.made..handle.steps()).for_each(|_| assert_eq!(both.step(lane, buffer), 0));
            assert_eq!(both.read(record.sector, &mut vec![1; buffer.len()]), 0);
        }
    }
}
