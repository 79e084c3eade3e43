//! The bytes of a sector and of a block: which pairs an info block may have, and arenas of the longer blocks by the command.
mod support;

use btt::Geometry;
use plain::{put_word, seal};
use std::fs;
use support::both::Both;
use support::chance::Chance;
use support::place::Place;
use support::{logs, LAYOUTS, NO_SIZES, SIZES};

/// In an arena that has room for the blocks of every size, the two sizes of its info block are judged as a pair.
#[test]
fn an_arena_opens_with_each_pair_and_no_other() {
    let mut chance = Chance::new(81);
    let mut made = Both::new(&chance.bytes(40_960));
    assert_eq!(made.make(Geometry { size: 4104, sectors: 3, lanes: 2 }, &[1; 16], &[2; 16]), 0);
    let tried = [&SIZES[..], &NO_SIZES].concat();
    for (size, internal) in tried.iter().flat_map(|size| tried.iter().map(move |internal| (*size, *internal))) {
        made.change(|arena| {
            put_word(arena, 56, size);
            put_word(arena, 64, internal);
            seal(&mut arena[..4096]);
        });
        let answer = if btt::SIZES.contains(&(size, internal)) { 0 } else { 3 };
        for layout in LAYOUTS {
            let mut both = made.clone();
            assert_eq!(both.cut_open(layout, &[7; 5], 0), answer, "{size} and {internal}");
            assert_eq!(both.open(layout, &[7; 5]), answer, "{size} and {internal}");
            if answer == 0 {
                assert_eq!((both.handle.size, both.handle.internal), (size, internal));
                written_in_every_way(&mut both, &mut chance);
            }
        }
    }
}

/// A write by steps on lane 0, a whole one on lane 1, and what the two sectors then read, with buffers of the right length and of others.
fn written_in_every_way(both: &mut Both, chance: &mut Chance) {
    let (size, internal) = (both.handle.sector_size(), both.handle.internal as usize);
    let bytes = chance.bytes(size);
    assert_eq!(both.start(0, 1), 0);
    for length in [size - 1, size + 1, internal, 4160].into_iter().filter(|length| *length != size) {
        let wrong = vec![3; length];
        assert_eq!((both.step(0, &wrong), both.write(1, 2, &wrong), both.read(2, &mut wrong.clone())), (10, 10, 10));
    }
    (0..both.handle.steps()).for_each(|_| assert_eq!(both.step(0, &bytes), 0));
    assert_eq!((both.step(0, &bytes), both.write(1, 2, &bytes)), (14, 0));
    for sector in [1, 2] {
        let mut found = vec![3; size];
        assert_eq!(both.read(sector, &mut found), 0);
        assert!(found == bytes);
    }
}

#[test]
fn the_command_tells_both_sizes_and_leaves_the_rest_of_a_block() {
    let place = Place::new("sizes");
    place.done("make arena --size 520 --sectors 5 --lanes 2", &[]);
    let mut arena = fs::read(place.path("arena")).unwrap();
    Chance::new(82).fill(&mut arena[4096..4096 + 7 * 576]);
    fs::write(place.path("arena"), &arena).unwrap();
    place.done("write arena 3", &[6; 520]);
    let report = String::from_utf8(place.done("report arena", &[])).unwrap();
    assert!(report.starts_with("sector bytes 520\nsectors 5\nlanes 2\nmended 0\nlane 0 free 3 next 3\n"), "{report}");
    let dump = String::from_utf8(place.done("dump arena", &[])).unwrap();
    let figures = "\nsector bytes 520\nsectors 5\nblock bytes 576\nblocks 7\nlanes 2\ndata at 4096\nmap at 8192\n";
    assert!(dump.contains(figures) && dump.contains("\nsector 3 data block 5\n"), "{dump}");
    fs::write(place.path("log"), logs::write(1, 4, 135)).unwrap();
    let lines: String = (0..136).map(|n| format!("{n} ok\n")).collect();
    assert_eq!(String::from_utf8(place.done("replay arena log", &[])).unwrap(), lines);
    arena[4096 + 5 * 576..][..520].fill(6);
    assert!(fs::read(place.path("arena")).unwrap()[4096..8192] == arena[4096..8192]);
}
