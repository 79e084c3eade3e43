//! The lane table that the caller lends: how long it is, what its records are, what stands past the lanes, and arenas of up to 256 lanes,
//! by the command too.
mod support;

use btt::{Answer, Arena, Geometry, Handle, Identifiers, Lane, Layout, OpenArena, Table, MAX_LANES};
use plain::{put_word, seal, word};
use std::fs;
use support::both::Both;
use support::place::Place;
use support::{made, number, raw, rubbish, GEOMETRY, LAYOUTS, NO_LAYOUTS, ROOM};

/// As many lanes as there can be, in the shortest arena of sectors of 512 bytes.
const MANY: Geometry = Geometry { size: 512, sectors: 256, lanes: 256 };

/// A fresh arena that is opened with a table of just as many records as it has lanes.
fn opened(geometry: Geometry, layout: u32) -> Both {
    let mut both = Both::new(&made(geometry)).with_table(rubbish(geometry.lanes as usize));
    assert_eq!(both.open(layout, &[0; ROOM]), 0);
    both
}

#[test]
fn a_table_has_a_record_for_each_lane() {
    for (layout, lanes) in LAYOUTS.into_iter().flat_map(|layout| [1, 2, 4, 16, 17, 255, 256].map(|lanes| (layout, lanes))) {
        let mut both = opened(Geometry { size: 512, sectors: lanes + 1, lanes }, layout);
        let lanes = lanes as usize;
        assert_eq!(both.start(0, 0), 0);
        for records in (0..lanes).filter(|records| lanes < 20 || [0, 1, 16, lanes - 1].contains(records)) {
            let mut short = both.with_records(records);
            assert_eq!(short.every_call(0, 0, &[5; 512]), [21; 6], "{records} records for {lanes} lanes");
            assert_eq!((short.cut_open(layout, &[7; ROOM], 1), short.open(layout, &[7; ROOM])), (21, 21));
        }
        for records in [lanes, lanes + 1, lanes + 9] {
            let mut long = both.with_records(records);
            assert_eq!(long.every_call(0, 0, &[5; 512]), [0, 12, 0, 12, 0, 0], "{records} records for {lanes} lanes");
            assert_eq!((long.cut_open(layout, &[7; ROOM], 1), long.open(layout, &[7; ROOM])), (0, 0));
        }
    }
}

/// Lanes, sectors and buffers of which the first are right and the others not, in the arena of the worked cases with lane 0 in flight.
const OTHERS: [(u32, u32, usize); 6] =
    [(0, 7, 512), (1, 8, 512), (4, 8, 512), (1, 60, 512), (0, 7, 511), (u32::MAX, u32::MAX, 0)];

/// Every call must answer so, whatever else is wrong.
#[track_caller]
fn always(both: &Both, answer: u32) {
    for (lane, sector, length) in OTHERS {
        assert_eq!(both.every_call(lane, sector, &vec![3; length]), [answer; 6]);
    }
}

#[test]
fn figures_come_first_then_the_length_then_the_records() {
    let changes: [fn(&mut Handle); 8] = [
        |handle| handle.length += 4096,
        |handle| handle.layout = 48,
        |handle| handle.lanes = 0,
        |handle| handle.lanes = 257,
        |handle| handle.blocks = 65,
        |handle| handle.internal = 576,
        |handle| handle.flog += 4096,
        |handle| *handle = Handle::default(),
    ];
    for layout in LAYOUTS {
        let mut both = opened(GEOMETRY, layout);
        assert_eq!(both.start(0, 7), 0);
        let mut broken = both.clone();
        broken.table[2].sequence = 0;
        always(&broken, 16);
        for records in 0..4 {
            always(&both.with_records(records), 21);
            always(&broken.with_records(records), 21);
        }
        for change in changes {
            let mut handle = both.handle;
            change(&mut handle);
            (0..6).for_each(|records| always(&both.with_records(records).with(handle), 16));
        }
    }
}

#[test]
fn an_opening_judges_the_length_after_5_and_before_6() {
    let words: [(u32, &[(usize, u32)]); 9] = [
        (21, &[]),
        (2, &[(0, 0), (45_056, 0)]),
        (3, &[(72, 5)]),
        (4, &[(48, 1)]),
        (21, &[(40_972, 4)]),
        (21, &[(36_864, 0xC000_0040)]),
        (21, &[(36_864, 1)]),
        (21, &[(41_008, 1)]),
        (21, &[(36_864, 0xC000_0001)]),
    ];
    for (answer, words) in words {
        let mut arena = made(GEOMETRY);
        words.iter().for_each(|(at, value)| put_word(&mut arena, *at, *value));
        if matches!(answer, 3 | 4) {
            seal(&mut arena[..4096]);
        }
        for (records, layout) in (0..4).flat_map(|records| LAYOUTS.map(|layout| (records, layout))) {
            let mut both = Both::new(&arena).with_table(rubbish(records));
            let none = NO_LAYOUTS[records];
            assert_eq!((both.open(layout, &[7; 70]), both.cut_open(layout, &[7; 70], 9)), (answer, answer));
            assert_eq!((both.open(none, &[7; 70]), both.cut_open(none, &[7; 70], 9)), (16, 16));
            let five = if answer < 5 { answer } else { 5 };
            assert_eq!((both.open(layout, &[7; 63]), both.cut_open(layout, &[7; 63], 9)), (five, five));
            assert!(both.arena == arena);
        }
    }
    assert_eq!(Both::new(&[]).with_table(vec![]).open(16, &[]), 1);
}

/// A refused opening leaves the table, and on 21 the work buffer is 0 as far as the blocks go.
#[test]
fn a_short_table_clears_the_work_buffer() {
    for layout in LAYOUTS {
        let (mut arena, mut table, mut work) = (made(GEOMETRY), rubbish(3), [7; 70]);
        assert_eq!(number(&raw::open(&mut arena, &mut work, layout, &mut table)), 21);
        assert_eq!((&work[..64], &work[64..]), (&[0; 64][..], &[7; 6][..]));
        work.fill(7);
        assert_eq!(number(&raw::cut_open(&mut arena, &mut work, layout, &table, 1)), 21);
        assert_eq!((&work[..64], &work[64..]), (&[0; 64][..], &[7; 6][..]));
        assert!(table == rubbish(3) && arena == made(GEOMETRY));
    }
}

/// A word of a record.
fn field(record: &mut Lane, place: usize) -> &mut u32 {
    let Lane { busy, block, half, sequence, sector, old, made } = record;
    [busy, block, half, sequence, sector, old, made][place]
}

/// The greatest value of each word of a record, worked out by hand; the least of the sequence is 1, of the others 0.
const GREATEST: [(Geometry, [u32; 7]); 4] = [
    (GEOMETRY, [1, 63, 1, 3, 59, 63, 132]),
    (Geometry { size: 520, sectors: 5, lanes: 3 }, [1, 7, 1, 3, 4, 7, 134]),
    (Geometry { size: 4104, sectors: 3, lanes: 2 }, [1, 4, 1, 3, 2, 4, 1030]),
    (MANY, [1, 511, 1, 3, 255, 511, 132]),
];

#[test]
fn each_word_of_each_record_has_its_bounds() {
    for (geometry, greatest) in GREATEST {
        let both = opened(geometry, 16).with_records(geometry.lanes as usize + 1);
        let mut buffer = vec![3; geometry.size as usize];
        for (lane, place) in (0..geometry.lanes as usize).flat_map(|lane| (0..7).map(move |place| (lane, place))) {
            let (mut forged, least) = (both.clone(), u32::from(place == 3));
            let mut answers = |value: u32| {
                *field(&mut forged.table[lane], place) = value;
                let numbers = [forged.read(0, &mut buffer), forged.lane(lane as u32)];
                // Of the arena with many lanes two calls are enough.
                let all = if geometry == MANY { [numbers[0]; 6] } else { forged.every_call(geometry.lanes, 0, &buffer) };
                (numbers, all == [16; 6])
            };
            for value in [least, greatest[place]] {
                assert_eq!(answers(value), ([0, 0], false), "{value} in word {place} of record {lane}");
            }
            for value in [least.wrapping_sub(1), greatest[place] + 1, 1 << 31, u32::MAX] {
                assert_eq!(answers(value), ([16, 16], true), "{value} in word {place} of record {lane}");
            }
        }
    }
}

#[test]
fn an_opening_sets_the_records_of_the_lanes_and_no_other() {
    for (layout, lanes) in LAYOUTS.into_iter().flat_map(|layout| [1, 4, 16, 255, 256].map(|lanes| (layout, lanes))) {
        for more in [0, 1, 40] {
            let arena = made(Geometry { size: 512, sectors: 256, lanes });
            let mut both = Both::new(&arena).with_table(rubbish(lanes as usize + more));
            assert_eq!(both.cut_open(layout, &[0; ROOM], 7), 0);
            assert_eq!(both.table, rubbish(lanes as usize + more), "a cut opening sets none");
            assert_eq!(both.open(layout, &[0; ROOM]), 0);
            let fresh = (0..lanes).map(|lane| Lane { block: 256 + lane, half: 1, sequence: 2, ..Lane::default() });
            let past = rubbish(lanes as usize + more).into_iter().skip(lanes as usize);
            assert_eq!(both.table, fresh.chain(past).collect::<Vec<_>>());
            assert_eq!(both.handle.lanes, lanes);
        }
    }
}

/// A table of another opening is judged by range only.
#[test]
fn a_table_of_another_arena_is_taken_if_it_is_in_range() {
    let both = opened(GEOMETRY, 16);
    let smaller = opened(Geometry { size: 4096, sectors: 30, lanes: 5 }, 32).table;
    assert_eq!(both.with_table(smaller.clone()).every_call(0, 7, &[1; 512]), [0, 0, 14, 0, 0, 14]);
    assert_eq!(both.with_table(smaller[1..].to_vec()).every_call(3, 7, &[1; 512]), [0, 0, 14, 0, 0, 14]);
    assert_eq!(both.with_table(opened(MANY, 16).table).every_call(0, 7, &[1; 512]), [16; 6]);
}

/// Lane 255 of a fresh arena of 256 lanes writes sector 7: the places of stores 1, 129 and 133, which were worked out by hand.
const LANE_255: [(Layout, [u64; 3]); 2] =
    [(Layout::Near, [265_728, 286_672, 266_268]), (Layout::Far, [265_728, 286_688, 266_268])];

#[test]
fn lane_255_makes_the_stores_that_are_worked_out() {
    for (layout, [data, flog, map]) in LANE_255 {
        let (mut memory, mut table) = (made(MANY), [Lane::default(); MAX_LANES]);
        assert_eq!(memory.len(), 290_816);
        let mut arena = Arena::new(&mut memory).unwrap();
        let handle = arena.open_in(layout, &mut [0; 512], &mut table).unwrap().handle;
        arena.start(&handle, &mut table, 255, 7).unwrap();
        let mut stores = Vec::new();
        for _ in 0..133 {
            let offset = arena.next_store(&handle, &table, 255).unwrap();
            arena.step(&handle, &mut table, 255, &[9; 512]).unwrap();
            stores.push((offset, word(arena.bytes(), offset as usize)));
        }
        let mut expected: Vec<_> = (0..128).map(|k| (data + 4 * k, 0x0909_0909)).collect();
        expected.extend([7, 7, 511, 2].into_iter().zip(0..).map(|(value, k)| (flog + 4 * k, value)));
        expected.push((map, 0xC000_01FF));
        assert_eq!(stores, expected);
        assert_eq!(arena.next_store(&handle, &table, 255), Err(Answer::LaneIdle));
        assert_eq!(table[255], Lane { block: 7, half: 0, sequence: 3, ..Lane::default() });
        assert_eq!(arena.start(&handle, &mut table, 256, 8), Err(Answer::NoSuchLane));
    }
}

#[test]
fn lane_255_is_cut_as_any_other() {
    let cuts = [(0, false, 0), (131, false, 0), (132, true, 1), (133, true, 0)];
    for (layout, (kept, new, mended)) in LAYOUTS.into_iter().flat_map(|layout| cuts.map(|cut| (layout, cut))) {
        let mut both = opened(MANY, layout);
        assert_eq!(both.start(255, 7), 0);
        (0..kept).for_each(|_| assert_eq!(both.step(255, &[9; 512]), 0));
        assert_eq!(support::pending(&both.arena, layout), Ok(mended));
        both.table = rubbish(256);
        assert_eq!(both.reopen(&[7; 512]), 0);
        let mut sector = [1; 512];
        assert_eq!((both.read(7, &mut sector), sector), (0, [if new { 9 } else { 0 }; 512]));
        assert_eq!(both.table[255].block, if new { 7 } else { 511 });
    }
}

#[test]
fn lanes_from_256_on_are_not_there() {
    let mut both = opened(MANY, 32);
    assert_eq!((both.start(0, 7), both.start(255, 8)), (0, 0));
    for lane in [256, 257, 511, 512, 1 << 16, 1 << 31, u32::MAX] {
        assert_eq!(both.every_call(lane, 9, &[1; 512]), [0, 11, 11, 11, 11, 11], "lane {lane}");
    }
    assert_eq!(both.every_call(254, 8, &[1; 512]), [0, 13, 14, 13, 0, 14]);
}

/// One lane that is pending with a sector is mended; two with the same one are 8, whichever they are.
#[test]
fn two_lanes_are_not_pending_with_one_sector() {
    for (layout, lanes) in
        LAYOUTS.into_iter().flat_map(|layout| [[0, 1], [0, 255], [15, 16], [17, 200]].map(|lanes| (layout, lanes)))
    {
        let mut both = Both::new(&made(MANY));
        for (lane, expected) in lanes.into_iter().zip([Ok(1), Err(Answer::NotValid)]) {
            both.change(|arena| {
                for (i, value) in [7, 7, 256 + lane, 2].into_iter().enumerate() {
                    put_word(arena, 270_336 + (64 * lane + layout) as usize + 4 * i, value);
                }
            });
            assert_eq!(support::pending(&both.arena, layout), expected);
            assert_eq!(both.clone().open(layout, &[7; ROOM]), expected.map_or(8, |_| 0));
            assert_eq!(both.clone().cut_open(layout, &[7; ROOM], 2), expected.map_or(8, |_| 0));
        }
    }
}

/// An arena with room for the halves of 257 lanes: of 300 sectors and 256 lanes, or of 299 and 257, each valid but for the number of lanes.
fn with_room(sectors: u32, lanes: u32) -> Both {
    let (data, map, flog, copy, length) = (4096, 290_816, 294_912, 315_392, 319_488);
    let figures = Handle { length, data, map, flog, copy, size: 512, sectors, internal: 512, blocks: 556, lanes, layout: 0 };
    let mut arena = vec![0; length as usize];
    let block = plain::info_block_of(&figures, Identifiers::ZEROES);
    arena[..4096].copy_from_slice(&block);
    arena[copy as usize..].copy_from_slice(&block);
    for lane in 0..257 {
        let free = if lane < 256 { 300 + lane } else { 299 };
        for (i, value) in [0, free, free, 1].into_iter().enumerate() {
            put_word(&mut arena, flog as usize + 64 * lane as usize + 4 * i, value);
        }
    }
    Both::new(&arena)
}

#[test]
fn there_are_no_257_lanes() {
    for layout in LAYOUTS {
        let mut both = with_room(300, 256);
        assert_eq!((both.cut_open(layout, &[0; ROOM], 0), both.open(layout, &[0; ROOM])), (0, 0));
        assert_eq!(both.every_call(255, 7, &[1; 512]), [0, 0, 14, 0, 0, 14]);
        let more = Handle { sectors: 299, lanes: 257, ..both.handle };
        let table = both.table[..256].iter().chain(&both.table[..1]).copied().collect();
        assert_eq!(both.with(more).with_table(table).every_call(255, 7, &[1; 512]), [16; 6]);
        let mut both = with_room(299, 257);
        assert_eq!((both.cut_open(layout, &[0; ROOM], 0), both.open(layout, &[0; ROOM])), (3, 3));
    }
    let mut both = Both::new(&[0; 319_488]);
    assert_eq!(both.make(Geometry { size: 512, sectors: 299, lanes: 257 }, &[1; 16], &[2; 16]), 3);
}

#[test]
fn an_open_arena_has_a_table_of_its_own_or_takes_one() {
    let (mut memory, mut lent) = (made(GEOMETRY), rubbish(6));
    let mut own = OpenArena::open(Arena::new(&mut memory).unwrap()).unwrap();
    own.write_sector(7, &[1; 512]).unwrap();
    assert_eq!((own.table().len(), own.records().len(), own.records()[0].block), (4, 4, 7));
    let (arena, handle, table) = own.into_parts();
    assert!(matches!(table, Table::Owned(_)));
    assert_eq!(arena.lane(&handle, &table, 0), Ok(Lane { block: 7, half: 0, sequence: 3, ..Lane::default() }));
    let mut opened = OpenArena::open_with(Layout::Near, arena, &mut lent).unwrap();
    assert_eq!((opened.table().len(), opened.records()), (6, &table[..]));
    let before = opened.table().to_vec();
    assert_eq!(opened.write_sector_by_steps(8, &[2; 511], |_| Ok::<(), Answer>(())), Err(Answer::WrongBuffer));
    assert_eq!(opened.table(), before, "a refused write changes no record");
    let cut = opened.write_sector_by_steps(8, &[2; 512], |store| if store.number == 9 { Err(Answer::BadSector) } else { Ok(()) });
    assert_eq!((cut, opened.idle_lane(), opened.table()[0].made), (Err(Answer::BadSector), Some(1), 9));
    let (arena, _, table) = opened.into_parts();
    assert!(matches!(&table, Table::Lent(records) if records[4..] == rubbish(6)[4..]));
    assert_eq!(OpenArena::open_with(Layout::Near, arena, &mut rubbish(3)).unwrap_err(), Answer::ShortTable);
}

#[test]
fn the_command_makes_and_opens_256_lanes() {
    let place = Place::new("lanes");
    for (options, sectors, length) in [("--bytes 16M", 32_208, 16_777_216), ("--bytes 284K", 256, 290_816)] {
        let said = place.done(&format!("make arena --force --lanes 256 {options}"), &[]);
        let expected = format!("made arena: {sectors} sectors of 512 bytes, 256 lanes, {length} bytes in all\n");
        assert_eq!(String::from_utf8(said).unwrap(), expected);
        assert!(fs::read(place.path("arena")).unwrap() == made(Geometry { size: 512, sectors, lanes: 256 })[..]);
        place.done("write arena 255", &[6; 512]);
        assert!(place.done("read arena 255", &[]) == [6; 512]);
        let report = String::from_utf8(place.done("report arena", &[])).unwrap();
        let lines: Vec<&str> = report.lines().collect();
        assert_eq!((lines.len(), lines[2], lines[4], lines[260]), (261, "lanes 256", "lane 0 free 255 next 3", "opened"));
        assert_eq!(lines[259], format!("lane 255 free {} next 2", sectors + 255));
        let dump = String::from_utf8(place.done("dump arena", &[])).unwrap();
        assert!(dump.contains(&format!("\nlane 255 idle free {} half 1 next 2\n", sectors + 255)), "{dump}");
    }
    for (options, said) in [
        ("--bytes 1K --lanes 257", "refused 3: an arena has 1 to 256 lanes, not 257\n"),
        ("--sectors 300 --lanes 257", "refused 3: an arena has 1 to 256 lanes, not 257\n"),
        ("--bytes 1M --lanes 4294967295", "refused 3: an arena has 1 to 256 lanes, not 4294967295\n"),
        ("--bytes 283K --lanes 256", "refused 1: no arena of 256 lanes and sectors of 512 bytes is made for 289792 bytes, but "),
    ] {
        let (status, out, found) = place.refused(&format!("make other {options}"), &[]);
        assert_eq!((status, out.as_str()), (1, ""), "{options}");
        assert!(found.starts_with(&format!("btt: {said}")), "{found}");
    }
    assert_eq!(place.names(), ["arena"]);
}
