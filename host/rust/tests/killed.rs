//! The command killed in the middle of writing: the sector is old or new, and the file opens.
mod support;

use btt::{Lane, Layout, MAX_BLOCKS};
use std::fs;
use std::thread::sleep;
use std::time::{Duration, Instant};
use support::chance::Chance;
use support::pending;
use support::place::Place;

const SECTORS: u32 = 20;

/// What every sector of an arena reads, opened in memory.
fn row(arena: &[u8], layout: u32) -> Vec<Vec<u8>> {
    let (mut arena, mut table) = (arena.to_vec(), [Lane::default(); 3]);
    let handle = plain::open(&mut arena, &mut [0; MAX_BLOCKS], layout, &mut table).expect("the file opens").handle;
    let read = |sector| {
        let mut buffer = vec![0; handle.sector_size()];
        plain::read(&arena, &handle, &table, sector, &mut buffer).unwrap();
        buffer
    };
    (0..SECTORS).map(read).collect()
}

#[test]
fn a_killed_write_leaves_the_old_sector_or_the_new() {
    killed_in(Layout::Near.bytes(), 4096);
    killed_in(Layout::Far.bytes(), 4104);
}

/// Kills writes to an arena of a layout and a sector size at random moments.
fn killed_in(layout: u32, size: usize) {
    let place = Place::new(&format!("killed-{layout}"));
    let mut chance = Chance::new(51 + u64::from(layout));
    place.done(&format!("make arena --size {size} --sectors {SECTORS} --lanes 3"), &[]);
    let file = place.path("arena");
    let began = Instant::now();
    place.done(&format!("write arena 0 --layout {layout}"), &vec![1; size]);
    let whole = began.elapsed().as_micros() as usize;
    let mut expected = row(&fs::read(&file).unwrap(), layout);
    let [mut killed, mut middle, mut lanes] = [0u32; 3];
    for _ in 0..150 {
        let before = fs::read(&file).unwrap();
        let sector = chance.below(SECTORS as usize);
        let bytes = chance.bytes(size);
        let mut child = place.begin(&format!("write arena {sector} --layout {layout}"), &bytes);
        sleep(Duration::from_micros(chance.below(whole + whole / 4) as u64));
        child.kill().unwrap();
        killed += u32::from(!child.wait().unwrap().success());
        let after = fs::read(&file).unwrap();
        let found = row(&after, layout);
        let is_new = found[sector] == bytes;
        assert!(is_new || found[sector] == expected[sector], "old or new");
        expected[sector] = found[sector].clone();
        assert!(found == expected, "the other sectors are unchanged");
        middle += u32::from(after != before && !is_new);
        lanes += pending(&after, layout).unwrap();
    }
    println!("{killed} killed, {middle} with stores made and the sector old, {lanes} pending lanes found");
    assert!(killed > 0);
}
