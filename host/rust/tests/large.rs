//! The longest arenas, of 16 MiB, for every sector size, with four lanes and with 256, in one layout and in the other.
mod support;

use btt::{Answer, Arena, Geometry, Layout, OpenArena, MAX_ARENA};
use support::both::Both;
use support::chance::Chance;

/// The lanes, the bytes of a sector, and the most sectors that 16 MiB then hold.
const LONGEST: [(u32, u32, u32); 10] = [
    (4, 512, 32_484),
    (4, 520, 28_895),
    (4, 528, 28_895),
    (4, 4096, 4085),
    (4, 4104, 4022),
    (256, 512, 32_208),
    (256, 520, 28_629),
    (256, 528, 28_629),
    (256, 4096, 3830),
    (256, 4104, 3767),
];

fn longest() -> [Geometry; 10] {
    LONGEST.map(|(lanes, size, sectors)| Geometry { size, sectors, lanes })
}

#[test]
fn the_longest_arenas_are_made_opened_written_and_cut() {
    for (geometry, layout) in longest().into_iter().zip(Layout::ALL.into_iter().cycle()) {
        assert_eq!(geometry.made_length(), Some(MAX_ARENA as u64));
        written_and_cut(geometry, layout);
    }
}

fn written_and_cut(geometry: Geometry, layout: Layout) {
    let Geometry { size, sectors, lanes } = geometry;
    let mut chance = Chance::new(31);
    let mut both = Both::new(&chance.bytes(MAX_ARENA));
    let work = vec![7; (sectors + lanes) as usize];
    assert_eq!(both.make(geometry, &[1; 16], &[2; 16]), 0);
    assert_eq!(both.open(layout.bytes(), &work[1..]), 5);
    assert_eq!(both.with_records(lanes as usize - 1).open(layout.bytes(), &work), 21);
    assert_eq!(both.open(layout.bytes(), &work), 0);
    let mut numbers: Vec<u32> = (0..sectors).collect();
    chance.shuffle(&mut numbers);
    for (i, sector) in numbers[..16].iter().enumerate() {
        assert_eq!(both.write(lanes - 1 - i as u32 % 4, *sector, &chance.bytes(size as usize)), 0);
    }
    let last = chance.bytes(size as usize);
    assert_eq!(both.write(3, sectors - 1, &last), 0);
    assert_eq!(both.write(0, sectors, &last), 9);
    let mut found = vec![0; last.len()];
    assert_eq!(both.read(sectors - 1, &mut found), 0);
    assert_eq!(found, last);
    assert_eq!(both.cut_open(support::other(layout.bytes()), &work, 0), 18);
    cut_at_the_sequence_word(&mut chance, &both, layout);
}

/// A write to the last sector, cut around its sequence word.
fn cut_at_the_sequence_word(chance: &mut Chance, both: &Both, layout: Layout) {
    let new = chance.bytes(both.handle.sector_size());
    let (mut old, sector, steps) = (vec![0; new.len()], both.handle.sectors - 1, both.handle.steps());
    assert_eq!(both.read(sector, &mut old), 0);
    for (kept, mended) in [(steps - 2, 0), (steps - 1, 1), (steps, 0)] {
        let mut memory = both.arena.clone();
        let mut arena = Arena::new(&mut memory).unwrap();
        let (handle, mut table, lane) = (both.handle, both.table.clone(), both.handle.lanes - 1);
        arena.start(&handle, &mut table, lane, sector).unwrap();
        for _ in 0..kept {
            arena.step(&handle, &mut table, lane, &new).unwrap();
        }
        let mut cut = Both::new(arena.bytes());
        assert_eq!(cut.open(layout.bytes(), &vec![0; both.handle.blocks as usize]), 0);
        let opened = OpenArena::open_in(layout, arena).unwrap();
        assert_eq!(opened.mended(), mended);
        let mut found = vec![0; new.len()];
        assert_eq!(opened.read_sector(sector, &mut found), Ok(()));
        assert!(found == if kept < steps - 1 { &old[..] } else { &new[..] });
        assert!(opened.arena().bytes() == &cut.arena[..] && *opened.handle() == cut.handle);
        assert!(opened.table() == &cut.table[..opened.handle().lanes as usize]);
    }
}

#[test]
fn nothing_longer_is_made() {
    let mut both = Both::new(&vec![0; MAX_ARENA + 4096]);
    for geometry in longest() {
        let longer = Geometry { sectors: geometry.sectors + 1, ..geometry };
        assert_eq!(longer.made_length(), None);
        assert_eq!(both.make(longer, &[1; 16], &[2; 16]), Answer::WrongLength.number());
    }
}
