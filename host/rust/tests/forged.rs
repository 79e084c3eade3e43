//! Forged handles and forged tables: every call answers as the rules say, and leaves what it must.
mod support;

use btt::{Geometry, Handle, Lane, HANDLE_SIZE, MAX_LANES};
use plain::{put_word, word};
use support::both::Both;
use support::chance::Chance;
use support::{arenas, other, rubbish, LAYOUTS, NO_LAYOUTS, NO_SIZES, ROOM, SIZES};

/// An arena that is opened in a layout, with some writes in flight.
fn opened(chance: &mut Chance, geometry: Geometry, layout: u32) -> Both {
    let mut both = Both::new(&chance.bytes(geometry.made_length().unwrap() as usize));
    assert_eq!(both.make(geometry, &[1; 16], &[2; 16]), 0);
    assert_eq!(both.open(layout, &[0; ROOM]), 0);
    let buffer = chance.bytes(geometry.size as usize);
    for lane in (0..geometry.lanes).step_by(2) {
        assert_eq!(both.start(lane, geometry.sectors - 1 - lane), 0);
        for _ in 0..chance.below(both.handle.steps() as usize) {
            assert_eq!(both.step(lane, &buffer), 0);
        }
    }
    both
}

fn forged(both: &Both, change: impl FnOnce(&mut Handle)) -> Both {
    let mut handle = both.handle;
    change(&mut handle);
    both.with(handle)
}

/// The same by the bytes of the handle.
fn forged_bytes(both: &Both, change: impl FnOnce(&mut [u8; HANDLE_SIZE])) -> Both {
    let mut bytes = both.handle.to_bytes();
    change(&mut bytes);
    both.with(Handle::from_bytes(&bytes))
}

/// The same with another table.
fn forged_table(both: &Both, change: impl FnOnce(&mut [Lane])) -> Both {
    let mut table = both.table.clone();
    change(&mut table);
    both.with_table(table)
}

/// One of the seven words of a record.
fn field(record: &mut Lane, place: usize) -> &mut u32 {
    let Lane { busy, block, half, sequence, sector, old, made } = record;
    [busy, block, half, sequence, sector, old, made][place]
}

/// Numbers at which a rule about a handle or a record turns.
fn telling(handle: &Handle, found: u32) -> Vec<u32> {
    let figures = [handle.sectors, handle.blocks, handle.lanes, handle.size, handle.internal, handle.steps(), found];
    let mut values: Vec<u32> =
        figures.into_iter().flat_map(|figure| [figure.wrapping_sub(1), figure, figure.wrapping_add(1)]).collect();
    values.extend([
        0,
        1,
        2,
        3,
        4,
        16,
        32,
        256,
        257,
        20_480,
        found.wrapping_add(4096),
        found.wrapping_sub(4096),
        1 << 31,
        u32::MAX,
    ]);
    values.extend(SIZES);
    values
}

#[test]
fn every_word_of_a_handle_and_of_a_record_is_judged() {
    let mut chance = Chance::new(1);
    let geometries = [(512, 6, 3, 16), (512, 16, 16, 32), (520, 6, 3, 32), (528, 16, 16, 16), (4104, 3, 2, 16)];
    for (size, sectors, lanes, layout) in geometries {
        let geometry = Geometry { size, sectors, lanes };
        let both = opened(&mut chance, geometry, layout).with_records(lanes as usize + 1);
        let buffer = chance.bytes(size as usize);
        let mut tried = |forged: Both| {
            let lane = chance.below(geometry.lanes as usize + 1) as u32;
            let sector = chance.below(geometry.sectors as usize + 1) as u32;
            forged.every_call(lane, sector, &buffer);
        };
        for place in 0..HANDLE_SIZE / 4 {
            for value in telling(&both.handle, word(&both.handle.to_bytes(), 4 * place)) {
                tried(forged_bytes(&both, |bytes| put_word(bytes, 4 * place, value)));
            }
        }
        for (lane, place) in (0..both.table.len()).flat_map(|lane| (0..7).map(move |place| (lane, place))) {
            let found = *field(&mut both.table.clone()[lane], place);
            for value in telling(&both.handle, found) {
                tried(forged_table(&both, |table| *field(&mut table[lane], place) = value));
            }
        }
    }
}

#[test]
fn several_words_are_judged_together() {
    let mut chance = Chance::new(2);
    let mut answers = [0; 22];
    for round in 0..20 {
        let lanes = if round % 10 == 0 { 256 } else { 1 + chance.below(16) as u32 };
        let geometry = Geometry { size: SIZES[round % 3], sectors: lanes + chance.below(9) as u32, lanes };
        let both = opened(&mut chance, geometry, LAYOUTS[round % 2]);
        for _ in 0..300 {
            let forged = several_words(&mut chance, &both);
            let length = both.handle.sector_size() - usize::from(chance.once_in(8));
            let lane = chance.below(lanes as usize + 1) as u32;
            let sector = chance.below(geometry.sectors as usize + 1) as u32;
            let buffer = chance.bytes(length);
            forged.every_call(lane, sector, &buffer).into_iter().for_each(|number| answers[number as usize] += 1);
        }
        assert!(round < 19 || [0, 9, 10, 11, 12, 13, 14, 16, 21].into_iter().all(|number| answers[number] > 0), "{answers:?}");
    }
}

/// One to three words changed in the handle or in records of the lanes and past them; now and then the table is too short as well.
fn several_words(chance: &mut Chance, both: &Both) -> Both {
    let lanes = both.handle.lanes as usize;
    let mut forged = both.with_records(if chance.once_in(10) { chance.below(lanes) } else { lanes + chance.below(3) });
    let mut bytes = both.handle.to_bytes();
    for _ in 0..1 + chance.below(3) {
        let place = chance.below(HANDLE_SIZE / 4);
        if forged.table.is_empty() || chance.once_in(2) {
            let choice = telling(&both.handle, word(&bytes, 4 * place));
            put_word(&mut bytes, 4 * place, chance.pick(&choice));
        } else {
            let lane = chance.below(forged.table.len());
            let word = field(&mut forged.table[lane], place % 7);
            *word = chance.pick(&telling(&both.handle, *word));
        }
    }
    forged.with(Handle::from_bytes(&bytes))
}

/// In an arena that has room for the blocks of every size, the two sizes of a handle are judged as a pair.
#[test]
fn sizes_are_judged_as_pairs() {
    let mut chance = Chance::new(9);
    for layout in LAYOUTS {
        let mut both = Both::new(&chance.bytes(40_960));
        assert_eq!(both.make(Geometry { size: 4104, sectors: 3, lanes: 2 }, &[1; 16], &[2; 16]), 0);
        assert_eq!((both.open(layout, &[0; 5]), both.start(0, 1)), (0, 0));
        let tried = [&SIZES[..], &NO_SIZES].concat();
        for (size, internal) in tried.iter().flat_map(|size| tried.iter().map(move |internal| (*size, *internal))) {
            let forged = forged(&both, |handle| (handle.size, handle.internal) = (size, internal));
            let known = btt::SIZES.contains(&(size, internal));
            for length in [size, internal, 0].map(|length| length.min(5000)) {
                let expected = if length == size { [0, 12, 0, 12, 0, 0] } else { [10, 12, 10, 12, 0, 0] };
                let found = forged.every_call(0, 2, &chance.bytes(length as usize));
                assert_eq!(found, if known { expected } else { [16; 6] }, "{size} and {internal}, a buffer of {length}");
            }
        }
    }
}

#[test]
fn random_bytes_are_no_handle() {
    let mut chance = Chance::new(3);
    let both = opened(&mut chance, Geometry { size: 512, sectors: 6, lanes: 3 }, 16);
    for _ in 0..2000 {
        let forged = forged_bytes(&both, |bytes| chance.fill(bytes));
        assert_eq!(forged.every_call(0, 0, &[0; 512]), [16; 6]);
    }
}

#[test]
fn a_busy_word_is_0_or_1() {
    let mut chance = Chance::new(4);
    let both = opened(&mut chance, Geometry { size: 512, sectors: 6, lanes: 3 }, 32);
    for lane in 0..16 {
        for busy in [2, 3, 0x100, 0x101, 1 << 31, u32::MAX] {
            let forged = forged_table(&both, |table| table[lane].busy = busy);
            let answers = forged.every_call(1, 1, &[0; 512]);
            assert_eq!(answers == [16; 6], lane < 3);
        }
    }
}

/// Every call, with nothing else wrong and with each other number wrong too.
fn every_call_in_every_way(both: &Both, lanes: u32, sectors: u32) -> Vec<[u32; 6]> {
    let ways = [(0, 0, 512), (1, 0, 512), (lanes, 0, 512), (1, sectors, 512), (0, 0, 511), (u32::MAX, u32::MAX, 0)];
    ways.into_iter().map(|(lane, sector, length)| both.every_call(lane, sector, &vec![3; length])).collect()
}

#[test]
fn a_layout_is_16_or_32() {
    let mut chance = Chance::new(7);
    let (geometry, lanes, sectors) = (Geometry { size: 512, sectors: 6, lanes: 3 }, 3, 6);
    for layout in LAYOUTS {
        let both = opened(&mut chance, geometry, layout);
        let before = every_call_in_every_way(&both, lanes, sectors);
        for value in NO_LAYOUTS.into_iter().chain((0..300).map(|_| chance.word() | 1)) {
            let forged = forged(&both, |handle| handle.layout = value);
            assert!(every_call_in_every_way(&forged, lanes, sectors).into_iter().all(|found| found == [16; 6]), "{value}");
        }
        let exchanged = forged(&both, |handle| handle.layout = other(layout));
        assert_eq!(every_call_in_every_way(&exchanged, lanes, sectors), before, "the other layout is not found out");
    }
}

/// The calls go on with the distance that the handle says: of a write, only the places of the four flog words differ.
#[test]
fn an_exchanged_layout_moves_the_second_half() {
    let mut chance = Chance::new(8);
    let geometry = Geometry { size: 512, sectors: 6, lanes: 3 };
    for layout in LAYOUTS {
        let mut both = opened(&mut chance, geometry, layout);
        while both.table[2].busy == 1 {
            assert_eq!(both.step(2, &[6; 512]), 0);
        }
        both.handle.layout = other(layout);
        for (lane, half) in [(1, 1), (1, 0), (2, 0), (2, 1)] {
            assert_eq!(both.table[lane as usize].half, half);
            assert_eq!(both.start(lane, 1), 0);
            let record = both.table[lane as usize];
            (0..133).for_each(|_| assert_eq!(both.step(lane, &[5; 512]), 0));
            let at = (both.handle.flog + 64 * u64::from(lane) + u64::from(other(layout) * half)) as usize;
            let stored = [0, 4, 8, 12].map(|part| word(&both.arena, at + part));
            assert_eq!(stored, [1, record.old, record.block, record.sequence]);
        }
        assert_eq!(both.handle.layout, other(layout));
    }
}

/// Past the lanes are records as of writes in flight to the very sectors that are written, and then rubbish.
#[test]
fn records_past_the_lanes_are_passed_over_and_kept() {
    let mut chance = Chance::new(5);
    let buffer = [7; 512];
    for (round, lanes) in (0..20).flat_map(|round| [1, 2, 15].map(|lanes| (round, lanes))) {
        let both = opened(&mut chance, Geometry { size: 512, sectors: 40, lanes }, LAYOUTS[round % 2]);
        let past = lanes as usize;
        let flight = |sector| Lane { busy: 1, block: 3, half: 1, sequence: 2, sector, old: 3, made: 0 };
        let junk: Vec<Lane> = [flight(20), flight(0)].into_iter().chain(rubbish(round)).collect();
        let mut both = both.with_table([&both.table[..past], &junk].concat());
        both.every_call(0, 3, &buffer);
        for lane in 0..lanes {
            while both.table[lane as usize].busy == 1 {
                assert_eq!(both.step(lane, &buffer), 0);
            }
            assert_eq!(both.write(lane, 20, &buffer), 0);
            assert_eq!(both.start(lane, lane), 0);
        }
        assert_eq!(both.table[past..], junk);
        assert_eq!((both.reopen(&[0; ROOM]), &both.table[past..]), (0, &junk[..]));
    }
}

/// Every state that a table had since the opening is answered like any other in range, and a write goes to the block that it says. Through
/// the last state the arena stays valid, through others it may not.
#[test]
fn earlier_states_of_a_table_are_answered() {
    let mut chance = Chance::new(10);
    for layout in LAYOUTS {
        let geometry = Geometry { size: 512, sectors: 6, lanes: 3 };
        let mut both = opened(&mut chance, geometry, layout);
        let mut states = vec![both.table.clone()];
        for turn in 0..30 {
            both.step(turn % 3, &[7; 512]);
            both.write(1, turn % 4, &[8; 512]);
            states.push(both.table.clone());
        }
        let reopened = states.into_iter().map(|state| {
            let block = state[1].block as usize;
            let mut earlier = both.with_table(state);
            let answers = every_call_in_every_way(&earlier, 3, 6);
            assert!(answers.iter().flatten().all(|number| *number != 16 && *number != 21), "{answers:?}");
            assert_eq!(earlier.write(1, 0, &[9; 512]), 0);
            assert!(earlier.arena[4096 + 512 * block..][..512] == [9; 512]);
            earlier.reopen(&[0; ROOM])
        });
        let reopened: Vec<u32> = reopened.collect();
        assert!(reopened[30] == 0 && reopened.contains(&8), "{reopened:?}");
    }
}

#[test]
fn handles_of_other_arenas_are_answered() {
    let mut chance = Chance::new(6);
    for _ in 0..400 {
        let [(_, first), (layout, second)] = [(), ()].map(|()| {
            let layout = arenas::layout(&mut chance);
            (layout, arenas::valid(&mut chance, layout))
        });
        let mut table = rubbish(MAX_LANES);
        let handle = plain::open(&mut second.clone(), &mut [0; ROOM], layout, &mut table).unwrap().handle;
        let length = chance.pick(&SIZES);
        // As it is, and with the other's length, so that the handle's figures go for this arena's bytes.
        for arena in [&first[..], &[&first[..], &second[..]].concat()[..second.len()]] {
            let both = Both::new(arena).with(handle).with_table(table.clone());
            both.every_call(chance.below(16) as u32, chance.below(40) as u32, &vec![3; length as usize]);
        }
    }
}
