//! The functions as C sees them: null slices, and what a refusal leaves in the places of results.
mod support;

use btt::sys::*;
use btt::{AlignedBytes, Handle, Lane};
use std::ptr::{null, null_mut};
use support::{made, other, rubbish, GEOMETRY, LAYOUTS, NO_LAYOUTS};

/// Bytes of a handle that is not zeroes and not allowed.
fn junk() -> Handle {
    Handle::from_bytes(&[0xA5; 64])
}

#[test]
fn null_slices_are_empty_when_an_arena_is_made_and_opened() {
    let (mut handle, mut mended, mut offset, mut length) = (junk(), 9, 9, 9);
    let mut arena = AlignedBytes::zeroed(49_152);
    let (bytes, all, none) = (arena.as_mut_ptr(), arena.len(), null_mut());
    // SAFETY: every pointer is of a value above that nothing else uses, or null with length 0.
    unsafe {
        assert_eq!(btt_make(null_mut(), 0, 512, 60, 4, null(), 0, null(), 0), 1);
        assert_eq!(btt_make(null_mut(), 0, 512, 60, 0, null(), 0, null(), 0), 3);
        assert_eq!(btt_make(bytes, all, 512, 60, 4, null(), 0, null(), 0), 10);
        assert_eq!(btt_make(bytes, all, 512, 60, 4, [1; 16].as_ptr(), 16, [2; 16].as_ptr(), 16), 0);
        btt_info_block(null(), 0, &raw mut offset, &raw mut length);
        assert_eq!((offset, length), (0, 0));
        for (layout, answers) in [(16, [1, 5]), (32, [1, 5]), (0, [16, 16]), (17, [16, 16])] {
            for ((from, length), answer) in [(null_mut(), 0), (bytes, all)].into_iter().zip(answers) {
                assert_eq!(btt_open(from, length, null_mut(), 0, layout, none, 0, &raw mut handle, &raw mut mended), answer);
                assert_eq!((handle, mended), (Handle::default(), 0));
                mended = 9;
                assert_eq!(btt_cut_open(from, length, null_mut(), 0, layout, none, 0, 3, &raw mut mended), answer);
                assert_eq!(mended, 0);
                (handle, mended) = (junk(), 9);
            }
        }
        let mut work = [0; 64];
        assert_eq!(btt_open(bytes, all, work.as_mut_ptr(), 64, 16, none, 0, &raw mut handle, &raw mut mended), 21);
        assert_eq!((handle, mended), (Handle::default(), 0));
        assert_eq!(btt_cut_open(bytes, all, work.as_mut_ptr(), 64, 16, none, 0, 3, &raw mut mended), 21);
    }
}

#[test]
fn null_slices_are_empty_in_the_calls_with_a_handle() {
    let (mut arena, mut records, mut offset, mut lane) = (made(GEOMETRY), rubbish(4), 9, Lane::default());
    let handle = plain::open(&mut arena, &mut [0; 64], 16, &mut records).unwrap().handle;
    let (bytes, all, handle) = (arena.as_mut_ptr(), arena.len(), &raw const handle);
    // SAFETY: every pointer is of a value above that nothing else uses, or null with length 0.
    unsafe {
        for (table, records, answers) in [(records.as_mut_ptr(), 4, [10, 10, 0, 10, 0, 0]), (null_mut(), 0, [21; 6])] {
            assert_eq!(btt_read(null(), 0, handle, table, records, 0, null_mut(), 0), 16);
            assert_eq!(btt_read(bytes, all, handle, table, records, 0, null_mut(), 0), answers[0]);
            assert_eq!(btt_write(null_mut(), 0, handle, table, records, 0, 0, null(), 0), 16);
            assert_eq!(btt_write(bytes, all, handle, table, records, 0, 0, null(), 0), answers[1]);
            assert_eq!(btt_start(null(), 0, handle, table, records, 0, 0), 16);
            assert_eq!(btt_start(bytes, all, handle, table, records, 0, 0), answers[2]);
            assert_eq!(btt_step(null_mut(), 0, handle, table, records, 0, null(), 0), 16);
            assert_eq!(btt_step(bytes, all, handle, table, records, 0, null(), 0), answers[3]);
            assert_eq!(btt_lane_record(null(), 0, handle, table, records, 0, &raw mut lane), 16);
            assert_eq!(btt_lane_record(bytes, all, handle, table, records, 0, &raw mut lane), answers[4]);
            assert_eq!(btt_next_store(null(), 0, handle, table, records, 0, &raw mut offset), 16);
            assert_eq!(btt_next_store(bytes, all, handle, table, records, 0, &raw mut offset), answers[5]);
        }
    }
    assert_eq!((lane.busy, lane.block, offset), (1, 60, 4096 + 60 * 512));
}

#[test]
fn a_refused_opening_gives_zeroes_and_no_count() {
    let arena = made(GEOMETRY);
    let mut changes = vec![];
    changes.push((2, vec![(0, 0), (45_056, 0)], 64));
    changes.push((5, vec![], 63));
    changes.push((6, vec![(40_972, 0)], 64));
    changes.push((7, vec![(36_867, 0xFF)], 64));
    changes.push((18, vec![(36_864, 1)], 64));
    changes.push((18, vec![(41_008, 1)], 64));
    changes.push((8, vec![(36_864, 1), (36_867, 0xC0)], 64));
    for (number, places, room) in changes {
        let mut arena = arena.clone();
        places.into_iter().for_each(|(at, byte)| arena[at] = byte);
        let told = LAYOUTS.map(|layout| (number, layout)).into_iter().chain(NO_LAYOUTS.map(|none| (16, none)));
        told.for_each(|(number, layout)| refused(&arena, room, layout, number));
    }
    NO_LAYOUTS.into_iter().for_each(|none| refused(&arena, 64, none, 16));
}

/// Openings in a layout must be refused so; a refused layout leaves the work buffer too.
fn refused(before: &AlignedBytes, room: usize, layout: u32, number: u32) {
    let (mut arena, mut work, mut table) = (before.clone(), vec![7; room], rubbish(5));
    let (mut handle, mut mended) = (junk(), 9);
    let (bytes, length, lent, records) = (arena.as_mut_ptr(), arena.len(), work.as_mut_ptr(), table.as_mut_ptr());
    // SAFETY: the pointers are of values above that nothing else uses.
    let found = unsafe { btt_open(bytes, length, lent, room, layout, records, 5, &raw mut handle, &raw mut mended) };
    assert_eq!((found, handle, mended), (number, Handle::default(), 0), "layout {layout}");
    mended = 9;
    // SAFETY: as above.
    let found = unsafe { btt_cut_open(bytes, length, lent, room, layout, records, 5, 16, &raw mut mended) };
    assert_eq!((found, mended), (number, 0), "layout {layout}");
    assert!(arena == *before && table == rubbish(5));
    assert_eq!(work.iter().all(|byte| *byte == 7), matches!(number, 1..6 | 16), "the work buffer after {number}");
}

#[test]
fn a_refused_look_leaves_the_result() {
    let mut arena = made(GEOMETRY);
    let mut table = rubbish(5);
    let good = plain::open(&mut arena, &mut [0; 64], 32, &mut table).unwrap().handle;
    let none = Handle { layout: 48, ..good };
    let near = Handle { layout: other(32), ..good };
    let seven = Lane { busy: 7, block: 7, half: 7, sequence: 7, sector: 7, old: 7, made: 7 };
    for (handle, records, lane, answers) in [
        (good, 4, 4, (11, 11)),
        (good, 5, 4, (11, 11)),
        (good, 4, 0, (0, 14)),
        (near, 5, 0, (0, 14)),
        (good, 3, 0, (21, 21)),
        (none, 3, 0, (16, 16)),
        (none, 4, 4, (16, 16)),
        (junk(), 0, 0, (16, 16)),
    ] {
        let (mut record, mut offset) = (seven, 77);
        let (bytes, length, places) = (arena.as_ptr(), arena.len(), table.as_ptr());
        // SAFETY: the pointers are of values above that nothing else uses.
        let found = unsafe {
            let looked = btt_lane_record(bytes, length, &raw const handle, places, records, lane, &raw mut record);
            (looked, btt_next_store(bytes, length, &raw const handle, places, records, lane, &raw mut offset))
        };
        assert_eq!(found, answers);
        assert_eq!((record == seven, offset), (answers.0 != 0, 77));
    }
}
