//! The rows of the table. The library and the plain program have an arena each, in the same state, and change arenas at every round;
//! the copy has room of its own.
use crate::arena::{sector_bytes, shortest, Pages, LENGTH};
use crate::calls::{Calls, Plain};
use crate::library::Library;
use crate::measure::{measure, Side, Times};
use btt::{internal_size, Geometry, Handle, Lane};
use std::env;
use std::hint::black_box;

/// The plain copy.
#[inline(never)]
fn copy(into: &mut [u8], from: &[u8]) {
    into.copy_from_slice(from);
}

/// Rounds of a row in which a batch is many operations.
const ROUNDS: usize = 60;

/// An arena, its handle and table, and a work buffer.
#[derive(Clone)]
struct Opened {
    arena: Pages,
    handle: Handle,
    table: Vec<Lane>,
    work: Pages,
}

/// Two arenas in the same state, room for the copy, and a sector buffer.
pub struct Bench {
    geometry: Geometry,
    two: [Opened; 2],
    room: Pages,
    buffer: Pages,
}

impl Bench {
    pub fn new(geometry: Geometry, arena: Pages) -> Bench {
        let table = vec![Lane::default(); geometry.lanes as usize];
        let work = Pages::zeroes((geometry.sectors + geometry.lanes) as usize);
        let mut one = Opened { arena, handle: Handle::default(), table, work };
        one.open::<Library>(1);
        Bench { geometry, two: [one.clone(), one], room: Pages::zeroes(LENGTH), buffer: sector_bytes(geometry.size, 12_345) }
    }

    /// The arena that is a side's in a round, the sector buffer, and the copy's room.
    fn own(&mut self, side: Side, round: usize) -> (&mut Opened, &mut [u8], &mut [u8]) {
        (&mut self.two[(side as usize + round) % 2], &mut self.buffer[..self.geometry.size as usize], &mut self.room)
    }

    /// The bytes of a sector and of a block.
    fn sizes(&self) -> (usize, usize) {
        let size = self.geometry.size;
        (size as usize, internal_size(size).expect("a size of sectors") as usize)
    }

    /// Sees that both sides left the same arena, handle and table.
    fn compare(&self, what: &str) {
        let [one, other] = &self.two;
        let same = one.arena[..] == other.arena[..] && one.handle == other.handle && one.table == other.table;
        assert!(same, "the two arenas differ after: {what}");
    }

    /// Prints a row, once it is seen that both sides left the same.
    fn print(&self, times: &Times, what: &str) {
        self.compare(what);
        println!("{}", times.row(what));
    }

    /// Makes the calls on both sides, untimed: each sector is written with bytes of its own, some by steps, and read after an opening.
    pub fn agree(mut self) {
        const STEPPED: u32 = 20;
        let (Geometry { size, sectors, .. }, [one, other]) = (self.geometry, &mut self.two);
        for sector in 0..sectors {
            let bytes = &sector_bytes(size, sector)[..size as usize];
            if sector < STEPPED {
                one.step_writes::<Library>([sector].into_iter(), bytes);
                other.step_writes::<Plain>([sector].into_iter(), bytes);
            } else {
                one.write::<Library>(sector, bytes);
                other.write::<Plain>(sector, bytes);
            }
        }
        one.open::<Library>(1);
        other.open::<Plain>(1);
        for sector in 0..sectors {
            let bytes = &sector_bytes(size, sector)[..size as usize];
            assert!(
                one.read::<Library>(sector) == bytes && other.read::<Plain>(sector) == bytes,
                "sector {sector} of {size} bytes"
            );
        }
        self.compare(&format!("writes of {size} bytes"));
    }
}

impl Opened {
    fn open<C: Calls>(&mut self, times: u32) {
        for _ in 0..times {
            let answer = C::open(&mut self.arena, &mut self.work, &mut self.table, &mut self.handle, &mut 0);
            assert_eq!(answer, 0, "opening");
        }
    }

    fn write<C: Calls>(&mut self, sector: u32, bytes: &[u8]) {
        let lane = sector % self.handle.lanes;
        let answer = C::write(&mut self.arena, &self.handle, &mut self.table, lane, sector, bytes);
        assert_eq!(answer, 0, "a whole write");
    }

    /// So many whole writes, going round the arena.
    fn write_round<C: Calls>(&mut self, writes: u32, bytes: &[u8]) {
        for write in 0..writes {
            self.write::<C>(write % self.handle.sectors, bytes);
        }
    }

    fn step_writes<C: Calls>(&mut self, sectors: impl Iterator<Item = u32>, bytes: &[u8]) {
        for sector in sectors {
            let lane = sector % self.handle.lanes;
            let mut answers = C::start(&self.arena, &self.handle, &mut self.table, lane, sector);
            for _ in 0..self.handle.steps() {
                answers |= C::step(&mut self.arena, &self.handle, &mut self.table, lane, bytes);
            }
            assert_eq!(answers, 0, "a stepped write");
        }
    }

    fn read<C: Calls>(&self, sector: u32) -> Vec<u8> {
        let mut buffer = vec![0; self.handle.sector_size()];
        assert_eq!(C::read(&self.arena, &self.handle, &self.table, sector, &mut buffer), 0, "a read");
        buffer
    }

    fn read_round<C: Calls>(&mut self, buffer: &mut [u8]) {
        for sector in 0..self.handle.sectors {
            let answer = C::read(&self.arena, &self.handle, &self.table, sector, buffer);
            assert_eq!(answer, 0, "a read");
            black_box(&buffer);
        }
    }

    fn info_blocks<C: Calls>(&mut self, times: u32, offset: u64) {
        for _ in 0..times {
            assert_eq!(C::info_block(black_box(&self.arena)), (offset, 4096), "the info block that counts");
        }
    }
}

/// Whether a row is asked for: all are, unless the command has a word, and then those that hold it.
fn asked(what: &str) -> bool {
    env::args().nth(1).is_none_or(|word| what.contains(&word))
}

/// Opening; the copy is of the bytes that opening reads: the info block, the map and the flog.
pub fn opening(bench: &mut Bench, what: &str) {
    if !asked(what) {
        return;
    }
    let handle = bench.two[0].handle;
    let times = 80_000 / handle.sectors;
    let (map, flog) = (4 * handle.sectors as usize, 64 * handle.lanes as usize);
    let parts = [(0, 4096), (handle.map as usize, map), (handle.flog as usize, flog)];
    let measured = measure(300, times, |side, round| match side {
        Side::Library => bench.own(side, round).0.open::<Library>(times),
        Side::Plain => bench.own(side, round).0.open::<Plain>(times),
        Side::Copy => {
            for (start, length) in (0..times).flat_map(|_| parts) {
                copy(&mut bench.room[start..start + length], &bench.two[0].arena[start..start + length]);
                black_box(&bench.room);
            }
        }
    });
    bench.print(&measured, what);
}

/// Whole writes, going once round the arena, all lanes in turn.
pub fn whole_writes(bench: &mut Bench, what: &str) {
    let sectors = bench.geometry.sectors;
    writes(bench, what, ROUNDS, sectors, sectors);
}

/// One hundred thousand whole writes as one operation, going round the arena again and again.
pub fn many_writes(bench: &mut Bench, what: &str) {
    writes(bench, what, 15, 100_000, 1);
}

/// Rounds of so many whole writes, which count as so many operations.
fn writes(bench: &mut Bench, what: &str, rounds: usize, count: u32, operations: u32) {
    if !asked(what) {
        return;
    }
    let (sectors, (size, internal)) = (bench.geometry.sectors as usize, bench.sizes());
    let measured = measure(rounds, operations, |side, round| {
        let (one, bytes, room) = bench.own(side, round);
        match side {
            Side::Library => one.write_round::<Library>(count, bytes),
            Side::Plain => one.write_round::<Plain>(count, bytes),
            Side::Copy => {
                for block in (0..sectors).cycle().take(count as usize) {
                    copy(&mut room[block * internal..][..size], bytes);
                }
            }
        }
    });
    bench.print(&measured, what);
}

/// Steps of writes, going round; the starts are in it. The copy is of one word a step.
pub fn steps(bench: &mut Bench, what: &str) {
    if !asked(what) {
        return;
    }
    const BATCH: u32 = 16;
    let (sectors, (size, internal)) = (bench.geometry.sectors, bench.sizes());
    let operations = BATCH * bench.two[0].handle.steps();
    let measured = measure(ROUNDS, operations, |side, round| {
        let (one, bytes, room) = bench.own(side, round);
        let batch = (round as u32 * BATCH..).take(BATCH as usize).map(|sector| sector % sectors);
        match side {
            Side::Library => one.step_writes::<Library>(batch, bytes),
            Side::Plain => one.step_writes::<Plain>(batch, bytes),
            Side::Copy => {
                for sector in batch {
                    copy_words(&mut room[sector as usize * internal..][..size], bytes);
                }
            }
        }
    });
    bench.print(&measured, what);
}

/// Copies a sector in words of 4 bytes, and then once more the first five words, as many as a write puts into flog and map.
fn copy_words(into: &mut [u8], from: &[u8]) {
    for at in (0..from.len()).step_by(4).chain((0..20).step_by(4)) {
        copy(&mut into[at..at + 4], &from[at..at + 4]);
    }
}

/// Reads of all sectors, going round.
pub fn reads(bench: &mut Bench, what: &str) {
    if !asked(what) {
        return;
    }
    let (sectors, (size, internal)) = (bench.geometry.sectors, bench.sizes());
    let measured = measure(ROUNDS, sectors, |side, round| {
        let (one, buffer, room) = bench.own(side, round);
        match side {
            Side::Library => one.read_round::<Library>(buffer),
            Side::Plain => one.read_round::<Plain>(buffer),
            Side::Copy => {
                for block in room.chunks_exact(internal).take(sectors as usize) {
                    copy(buffer, &block[..size]);
                    black_box(&buffer);
                }
            }
        }
    });
    bench.print(&measured, what);
}

/// The info block that counts: one block is summed where the first is sound, both where only the copy is. The copy is of those blocks.
pub fn info_blocks(bench: &mut Bench, what: &str, first_is_sound: bool) {
    if !asked(what) {
        return;
    }
    const BATCH: u32 = 500;
    let copy_at = bench.two[0].handle.copy;
    let offset = if first_is_sound { 0 } else { copy_at };
    let flip = |bench: &mut Bench| bench.two.iter_mut().for_each(|one| one.arena[4000] ^= u8::from(!first_is_sound));
    flip(bench);
    let measured = measure(200, BATCH, |side, round| match side {
        Side::Library => bench.own(side, round).0.info_blocks::<Library>(BATCH, offset),
        Side::Plain => bench.own(side, round).0.info_blocks::<Plain>(BATCH, offset),
        Side::Copy => {
            let starts = if first_is_sound { &[0][..] } else { &[0, copy_at as usize] };
            for at in (0..BATCH).flat_map(|_| starts) {
                copy(&mut bench.room[*at..at + 4096], &bench.two[0].arena[*at..at + 4096]);
                black_box(&bench.room);
            }
        }
    });
    flip(bench);
    bench.print(&measured, what);
}

fn sum_blocks<C: Calls>(arenas: &[Pages], times: u32) {
    for arena in (0..times).flat_map(|_| arenas) {
        assert_eq!(C::info_block(black_box(arena)), (0, 4096), "the first block counts");
    }
}

/// One hundred thousand info blocks summed: the first blocks of a hundred arenas, in turn. The copy is of those blocks.
pub fn block_sums(what: &str) {
    if !asked(what) {
        return;
    }
    const TIMES: u32 = 1000;
    let arenas = shortest(100);
    let mut room = Pages::zeroes(4096);
    let measured = measure(50, 1, |side, _| match side {
        Side::Library => sum_blocks::<Library>(&arenas, TIMES),
        Side::Plain => sum_blocks::<Plain>(&arenas, TIMES),
        Side::Copy => {
            for arena in (0..TIMES).flat_map(|_| &arenas) {
                copy(&mut room, &arena[..4096]);
                black_box(&room);
            }
        }
    });
    println!("{}", measured.row(what));
}
