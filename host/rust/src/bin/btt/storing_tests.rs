//! Every cut of a write to a medium that stops after so many stores.
use super::*;
use btt::{Geometry, Identifiers, Layout};

/// A medium in memory that fails after so many stores, and remembers what it was told.
struct Cut {
    bytes: AlignedBytes,
    left: usize,
    told: Vec<Option<u64>>,
}

impl Medium for Cut {
    fn store(&mut self, offset: u64, word: [u8; 4]) -> io::Result<()> {
        if self.left == 0 {
            return Err(io::Error::other("the power is gone"));
        }
        self.left -= 1;
        self.told.push(Some(offset));
        self.bytes[offset as usize..][..4].copy_from_slice(&word);
        Ok(())
    }

    fn sync(&mut self) -> io::Result<()> {
        self.told.push(None);
        Ok(())
    }
}

fn cut(bytes: &AlignedBytes, left: usize) -> Cut {
    Cut { bytes: bytes.clone(), left, told: Vec::new() }
}

/// A fresh arena of 60 sectors of so many bytes.
fn made(size: usize) -> AlignedBytes {
    made_of(Geometry { size: size as u32, sectors: 60, lanes: 4 })
}

fn made_of(geometry: Geometry) -> AlignedBytes {
    let mut bytes = AlignedBytes::zeroed(geometry.made_length().unwrap() as usize);
    lent(&mut bytes).make(geometry, Identifiers::ZEROES).unwrap();
    bytes
}

fn sector(bytes: &AlignedBytes, layout: Layout, sector: u32) -> Vec<u8> {
    let mut bytes = bytes.clone();
    let opened = OpenArena::open_in(layout, lent(&mut bytes)).unwrap();
    let mut buffer = vec![0; opened.sector_size()];
    opened.read_sector(sector, &mut buffer).unwrap();
    buffer
}

/// An arena with lanes 1 and 3 pending, to sectors 5 and 6.
fn pending(layout: Layout, size: usize) -> AlignedBytes {
    pending_on(made(size), layout, [(1, 5), (3, 6)].into_iter())
}

/// The arena with lanes pending to sectors, each of which is then full of its number.
fn pending_on(mut bytes: AlignedBytes, layout: Layout, writes: impl Iterator<Item = (u32, u32)>) -> AlignedBytes {
    let mut arena = lent(&mut bytes);
    let mut table = [Lane::default(); MAX_LANES];
    let handle = arena.open_in(layout, &mut vec![0; MAX_BLOCKS], &mut table).unwrap().handle;
    for (lane, number) in writes {
        arena.start(&handle, &mut table, lane, number).unwrap();
        for _ in 1..handle.steps() {
            arena.step(&handle, &mut table, lane, &vec![number as u8; handle.sector_size()]).unwrap();
        }
    }
    bytes
}

#[test]
fn a_write_cut_anywhere_is_old_or_new() {
    for (layout, size) in [(Layout::Near, 512), (Layout::Far, 512), (Layout::Near, 520), (Layout::Far, 528)] {
        cut_anywhere(layout, &made(size), &vec![9; size], size / 4 + 5);
        cut_anywhere(layout, &pending(layout, size), &vec![9; size], size / 4 + 7);
    }
}

/// Cuts a write of these bytes to sector 5 after each of so many stores.
fn cut_anywhere(layout: Layout, start: &AlignedBytes, bytes: &[u8], all: usize) {
    let before = sector(start, layout, 5);
    for left in 0..=all {
        let mut medium = cut(start, left);
        let done = write(&mut start.clone(), &mut medium, layout, 5, bytes);
        assert_eq!(done.is_ok(), left == all);
        let expected = if left + 1 >= all { bytes } else { &before[..] };
        assert_eq!(sector(&medium.bytes, layout, 5), expected, "{left} stores");
        assert_eq!(sector(&medium.bytes, layout, 6), sector(start, layout, 6));
        let mut memory = start.clone();
        if done.is_ok() {
            write(&mut memory, &mut cut(start, all), layout, 5, bytes).unwrap();
            assert!(memory == medium.bytes, "memory and medium agree");
        }
    }
}

#[test]
fn the_medium_is_synchronised_around_the_sequence_word() {
    for (size, layout, data, half, map) in [
        (512, Layout::Near, 34_816, 40_976, 36_892),
        (512, Layout::Far, 34_816, 40_992, 36_892),
        (520, Layout::Near, 38_656, 45_072, 40_988),
        (4104, Layout::Far, 253_696, 274_464, 270_364),
    ] {
        let mut medium = cut(&made(size), size / 4 + 5);
        write(&mut made(size), &mut medium, layout, 7, &vec![9; size]).unwrap();
        let mut expected: Vec<Option<u64>> = (0..size as u64 / 4).map(|word| Some(data + 4 * word)).collect();
        expected.extend([Some(half), Some(half + 4), Some(half + 8), None, Some(half + 12), None, Some(map), None]);
        assert_eq!(medium.told, expected);
    }
}

#[test]
fn mending_is_done_in_order_and_first() {
    for layout in Layout::ALL {
        let mut medium = cut(&pending(layout, 512), 135);
        write(&mut pending(layout, 512), &mut medium, layout, 7, &[9; 512]).unwrap();
        assert_eq!(medium.told[..4], [Some(36_864 + 4 * 5), Some(36_864 + 4 * 6), None, Some(4096 + 60 * 512)]);
        assert_eq!(sector(&medium.bytes, layout, 5), [5; 512]);
        assert_eq!(sector(&medium.bytes, layout, 6), [6; 512]);
        assert_eq!(sector(&medium.bytes, layout, 7), [9; 512]);
    }
}

#[test]
fn every_one_of_256_lanes_is_mended_in_order() {
    let fresh = made_of(Geometry { size: 512, sectors: 256, lanes: 256 });
    let found = pending_on(fresh, Layout::Near, (0..256).map(|lane| (lane, 255 - lane)));
    let mut medium = cut(&found, 256 + 133);
    write(&mut found.clone(), &mut medium, Layout::Near, 7, &[9; 512]).unwrap();
    let stores: Vec<_> = (0..256).map(|lane| Some(266_240 + 4 * (255 - lane))).chain([None]).collect();
    assert_eq!(medium.told[..257], stores);
    // Lane 0 has block 255, which the sector of that number gave away.
    assert_eq!(medium.told[257], Some(4096 + 255 * 512));
    for (number, byte) in [(0, 0), (7, 9), (8, 8), (255, 255)] {
        assert_eq!(sector(&medium.bytes, Layout::Near, number), [byte; 512]);
    }
}

#[test]
fn a_refusal_stores_nothing() {
    for (number, length, answer) in
        [(60, 512, Answer::NoSuchSector), (59, 511, Answer::WrongBuffer), (0, 513, Answer::WrongBuffer)]
    {
        let found = pending(Layout::Near, 512);
        let mut medium = cut(&found, 1000);
        let refused = write(&mut found.clone(), &mut medium, Layout::Near, number, &vec![0; length]);
        assert!(matches!(refused, Err(Problem::Refused(found)) if found == answer));
        assert!(medium.told.is_empty() && medium.bytes == found);
    }
    // The map word of sector 59, padding of lane 0, and nothing: the arena is of the other layout.
    for (layout, told, at) in [
        (Layout::Near, Layout::Near, 36_864 + 4 * 59),
        (Layout::Near, Layout::Near, 40_960 + 32),
        (Layout::Far, Layout::Far, 40_960 + 16),
        (Layout::Near, Layout::Far, 4096),
        (Layout::Far, Layout::Near, 4096),
    ] {
        let mut sloppy = pending(layout, 512);
        sloppy[at] = 1;
        let mut medium = cut(&sloppy, 1000);
        let refused = write(&mut sloppy, &mut medium, told, 7, &[0; 512]);
        assert!(matches!(refused, Err(Problem::Refused(Answer::Sloppy))));
        assert!(medium.told.is_empty() && medium.bytes == sloppy);
    }
}
