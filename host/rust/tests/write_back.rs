//! Writes on a write-back mapping: the medium has what the host was told to persist, and at a power cut any of the words on their way.
mod support;

use btt::{AlignedBytes, Answer, Arena, Geometry, Layout, OpenArena, SIZES};
use support::chance::Chance;
use support::made;

const SECTORS: usize = 5;

/// The bytes of a medium that a power cut left, in memory that an arena may lie in.
fn mapped(medium: &[u8]) -> AlignedBytes {
    let mut memory = AlignedBytes::zeroed(medium.len());
    memory.copy_from_slice(medium);
    memory
}

/// A write of which the power is cut at the call of `persist` with this number, from 0, if it comes to that; gives the medium.
fn write(opened: &mut OpenArena, sector: usize, bytes: &[u8], cut: usize, mut medium: Vec<u8>, chance: &mut Chance) -> Vec<u8> {
    let (base, mut calls) = (opened.arena().bytes().as_ptr() as usize, 0);
    let written = opened.write_sector_persisting(sector as u32, bytes, |lines| {
        if calls == cut {
            return Err(Answer::BadSector);
        }
        let at = lines.as_ptr() as usize - base;
        medium[at..at + lines.len()].copy_from_slice(lines);
        calls += 1;
        Ok(())
    });
    assert_eq!(written.is_ok(), cut == 4, "it asks four times");
    let odds = chance.pick(&[2, 2, 10]);
    for (stale, word) in medium.chunks_exact_mut(4).zip(opened.arena().bytes().chunks_exact(4)) {
        if chance.once_in(odds) {
            stale.copy_from_slice(word);
        }
    }
    medium
}

/// Writes one after another, each cut at some moment or not at all: a sector is old before the sequence word and new once it is persisted.
fn writes(layout: Layout, size: u32, seed: u64) {
    let chance = &mut Chance::new(seed);
    let mut medium = made(Geometry { size, sectors: SECTORS as u32, lanes: 2 }).to_vec();
    let mut row = vec![vec![0; size as usize]; SECTORS];
    for _ in 0..40 {
        let mut memory = mapped(&medium);
        let mut opened = OpenArena::open_in(layout, Arena::new(&mut memory).unwrap()).unwrap();
        medium = opened.arena().bytes().to_vec();
        for (sector, held) in row.iter().enumerate() {
            let mut found = vec![0; size as usize];
            opened.read_sector(sector as u32, &mut found).unwrap();
            assert!(found == *held, "sector {sector} of {size} bytes");
        }
        let (sector, cut, mut bytes) = (chance.below(SECTORS), chance.below(5), vec![0; size as usize]);
        chance.fill(&mut bytes);
        medium = write(&mut opened, sector, &bytes, cut, medium, chance);
        let new = match cut {
            // The sequence word is on its way: it is there or not.
            2 => OpenArena::open_in(layout, Arena::new(&mut mapped(&medium)).unwrap()).unwrap().mended() == 1,
            _ => cut > 2,
        };
        if new {
            row[sector] = bytes;
        }
    }
}

#[test]
fn a_cut_may_keep_any_words_on_their_way() {
    for (seed, (size, _)) in SIZES.into_iter().enumerate() {
        Layout::ALL.into_iter().for_each(|layout| (0..6).for_each(|turn| writes(layout, size, 100 * turn + seed as u64)));
    }
}

#[test]
fn a_refused_write_asks_for_nothing() {
    let mut memory = mapped(&made(support::GEOMETRY));
    let mut opened = OpenArena::open(Arena::new(&mut memory).unwrap()).unwrap();
    for (sector, length, answer) in [(60, 512, Answer::NoSuchSector), (7, 511, Answer::WrongBuffer)] {
        assert_eq!(opened.write_sector_persisting(sector, &vec![1; length], |_| panic!("asked")), Err(answer));
    }
    assert_eq!(opened.idle_lane(), Some(0), "no lane is left busy");
}
