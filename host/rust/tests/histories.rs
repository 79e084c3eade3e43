//! Random histories of calls with power cuts, for every sector size, in both layouts and with up to 256 lanes, against the plain program
//! and against a plain row of sectors.
mod support;

use btt::{Geometry, Layout};
use std::collections::BTreeSet;
use support::both::Both;
use support::chance::Chance;
use support::{arenas, made, pending, rubbish, NO_LAYOUTS, ROOM, SIZES};

/// A write in flight: its lane, its sector, its bytes, and how many of its stores are made.
#[derive(Clone)]
struct Write {
    lane: u32,
    sector: u32,
    bytes: Vec<u8>,
    tally: u32,
}

/// What reading a sector answers, and its bytes, which are the buffer's own where the answer is a refusal.
type Sector = (u32, Vec<u8>);

/// An arena, the row of sectors that it should be, and the writes in flight.
#[derive(Clone)]
struct History {
    both: Both,
    row: Vec<Sector>,
    flight: Vec<Write>,
}

impl History {
    /// Begins with an arena that is valid in a layout of its own.
    fn new(chance: &mut Chance) -> History {
        let layout = arenas::layout(chance);
        History::on(&arenas::valid(chance, layout), layout)
    }

    /// Begins with an arena that is valid in a layout.
    fn on(arena: &[u8], layout: u32) -> History {
        let mut both = Both::new(arena);
        assert_eq!(both.open(layout, &[0; ROOM]), 0);
        let row = (0..both.handle.sectors).map(|sector| read(&both, sector)).collect();
        History { both, row, flight: Vec::new() }
    }

    fn size(&self) -> usize {
        self.both.handle.sector_size()
    }

    /// Starts a write that the book accepts or refuses.
    fn start(&mut self, lane: u32, sector: u32, bytes: Vec<u8>) {
        let handle = &self.both.handle;
        let expected = if lane >= handle.lanes {
            11
        } else if self.flight.iter().any(|write| write.lane == lane) {
            12
        } else if sector >= handle.sectors {
            9
        } else if self.flight.iter().any(|write| write.sector == sector) {
            13
        } else {
            0
        };
        assert_eq!(self.both.start(lane, sector), expected);
        if expected == 0 {
            self.flight.push(Write { lane, sector, bytes, tally: 0 });
        }
    }

    /// Makes a step of a write in flight; the row changes with its last.
    fn step(&mut self, which: usize) {
        let write = &mut self.flight[which];
        assert_eq!(self.both.next_store(write.lane), 0);
        assert_eq!(self.both.step(write.lane, &write.bytes), 0);
        write.tally += 1;
        if write.tally == self.both.handle.steps() {
            let done = self.flight.remove(which);
            self.row[done.sector as usize] = (0, done.bytes);
        }
    }

    /// The power goes: handle and table are lost but for the layout, and opening finishes the writes that lack only their map word.
    fn cut(&mut self, chance: &mut Chance) {
        let (steps, layout, lanes) = (self.both.handle.steps(), self.both.handle.layout, self.both.handle.lanes as usize);
        for _ in 0..chance.below(3) {
            assert_eq!(self.both.cut_open(layout, &chance.bytes(ROOM), chance.below(3) as u32), 0);
        }
        if chance.once_in(4) {
            assert_eq!(self.both.cut_open(layout, &[], 1), 5);
        }
        if chance.once_in(4) {
            let mut short = self.both.with_table(rubbish(chance.below(lanes)));
            assert_eq!((short.cut_open(layout, &[0; ROOM], 1), short.open(layout, &[0; ROOM])), (21, 21));
        }
        if chance.once_in(4) {
            let (none, work) = (chance.pick(&NO_LAYOUTS), chance.bytes(ROOM));
            assert_eq!((self.both.cut_open(none, &work, chance.below(3) as u32), self.both.open(none, &work)), (16, 16));
        }
        self.both.table = rubbish(lanes + chance.below(3));
        assert_eq!(self.both.open(layout, &chance.bytes(ROOM)), 0);
        for write in self.flight.drain(..) {
            if write.tally == steps - 1 {
                self.row[write.sector as usize] = (0, write.bytes);
            }
        }
        assert_eq!(pending(&self.both.arena, layout), Ok(0), "every block is mapped or free, and none is pending");
    }

    fn check(&self, sector: u32) {
        assert!(read(&self.both, sector) == self.row[sector as usize], "sector {sector}");
    }

    fn check_all(&self) {
        (0..self.both.handle.sectors).for_each(|sector| self.check(sector));
    }
}

fn read(both: &Both, sector: u32) -> Sector {
    let mut buffer = vec![0xEE; both.handle.sector_size()];
    let number = both.read(sector, &mut buffer);
    (number, buffer)
}

/// One random event.
fn event(chance: &mut Chance, history: &mut History) {
    let (lanes, sectors) = (history.both.handle.lanes as usize, history.both.handle.sectors as usize);
    let lane = chance.below(lanes + 1) as u32;
    let sector = chance.below(sectors + 1) as u32;
    let bytes = chance.bytes(history.size());
    match chance.below(12) {
        0..=2 => history.start(lane, sector, bytes),
        3..=7 if !history.flight.is_empty() => {
            let which = chance.below(history.flight.len());
            let left = history.both.handle.steps() - history.flight[which].tally;
            let count = if chance.once_in(2) { left.saturating_sub(chance.below(7) as u32) } else { chance.below(40) as u32 };
            (0..count.min(left)).for_each(|_| history.step(which));
        }
        8 | 9 => {
            if history.both.write(lane, sector, &bytes) == 0 {
                history.row[sector as usize] = (0, bytes);
            }
        }
        10 => refused(chance, history),
        _ if chance.once_in(3) => history.cut(chance),
        _ => history.check(sector.min(sectors as u32 - 1)),
    }
}

/// Calls that are refused, and change nothing.
fn refused(chance: &mut Chance, history: &mut History) {
    let before = history.both.clone();
    let (handle, both) = (before.handle, &mut history.both);
    let short = chance.bytes(before.handle.sector_size() - 1);
    assert_ne!(both.step(chance.below(16) as u32, &short), 0);
    assert_ne!(both.write(chance.below(16) as u32, chance.below(40) as u32, &short), 0);
    assert_ne!(both.read(chance.below(40) as u32, &mut short.clone()), 0);
    assert_eq!(both.start(0, handle.sectors), if before.table[0].busy == 1 { 12 } else { 9 });
    assert_eq!(both.with_records(chance.below(handle.lanes as usize)).every_call(0, 0, &short), [21; 6]);
    assert!(both.arena == before.arena && both.table == before.table);
}

#[test]
fn histories_go_as_a_plain_row() {
    let mut chance = Chance::new(21);
    for _ in 0..300 {
        let mut history = History::new(&mut chance);
        for _ in 0..60 {
            event(&mut chance, &mut history);
        }
        history.check_all();
        history.cut(&mut chance);
        history.check_all();
    }
}

/// Writes on different lanes and to different sectors, in a random mix, cut at every store.
#[test]
fn a_cut_at_every_store_of_mixed_writes_tears_nothing() {
    let mut chance = Chance::new(22);
    let mut sizes = BTreeSet::new();
    for _ in 0..24 {
        let first = History::new(&mut chance);
        sizes.insert(first.both.handle.size);
        let handle = first.both.handle;
        let mut sectors: Vec<u32> = (0..handle.sectors).collect();
        chance.shuffle(&mut sectors);
        let mut history = first.clone();
        for (lane, sector) in (0..handle.lanes.min(5)).zip(sectors) {
            let bytes = chance.bytes(history.size());
            history.start(lane, sector, bytes);
        }
        let writes = history.flight.clone();
        let mut cuts = 0;
        while !history.flight.is_empty() {
            history.step(chance.below(history.flight.len()));
            cuts += 1;
            if history.size() < 4096 && handle.lanes <= 16 || cuts % 16 == 0 || chance.once_in(16) {
                let mut cut = history.clone();
                cut.cut(&mut chance);
                cut.check_all();
            }
        }
        one_after_another(&mut chance, &first, writes, &history);
    }
    assert_eq!(sizes, BTreeSet::from(SIZES), "every size came");
}

/// The same writes one after another, in a random order, end in the same arena and the same records.
fn one_after_another(chance: &mut Chance, first: &History, mut writes: Vec<Write>, mixed: &History) {
    let mut both = first.both.clone();
    chance.shuffle(&mut writes);
    for write in writes {
        assert_eq!(both.write(write.lane, write.sector, &write.bytes), 0);
    }
    assert!(both.arena == mixed.both.arena && both.table == mixed.both.table);
}

/// Writes on all of 256 lanes at once, each stopped after a number of stores of its own: one opening finishes those that lack only their map
/// word, and a cut one the first of them.
#[test]
fn a_cut_of_256_writes_in_flight_tears_nothing() {
    let mut chance = Chance::new(24);
    for layout in Layout::ALL.map(Layout::bytes) {
        let mut history = History::on(&made(Geometry { size: 512, sectors: 270, lanes: 256 }), layout);
        let mut sectors: Vec<u32> = (0..270).collect();
        chance.shuffle(&mut sectors);
        for (lane, sector) in (0..256).zip(sectors) {
            let bytes = chance.bytes(512);
            history.start(lane, sector, bytes);
        }
        history.start(256, 0, vec![1; 512]);
        for which in (0..256).rev() {
            let stores = chance.pick(&[0, 1, 127, 128, 129, 130, 131, 132, 132, 132, 133]);
            (0..stores).for_each(|_| history.step(which));
        }
        let lacking = history.flight.iter().filter(|write| write.tally == 132).count() as u32;
        assert!(lacking > 40 && pending(&history.both.arena, layout) == Ok(lacking));
        let mut cut = history.clone();
        assert_eq!(cut.both.cut_open(layout, &[0; ROOM], lacking - 1), 0);
        assert_eq!(pending(&cut.both.arena, layout), Ok(1));
        for mut history in [cut, history] {
            history.cut(&mut chance);
            history.check_all();
        }
    }
}

/// Cuts of an opening that mends several lanes, at each of its stores and again and again, end as one opening does.
#[test]
fn cut_openings_end_as_one_opening() {
    let mut chance = Chance::new(23);
    let mut seen = 0;
    for _ in 0..300 {
        let layout = arenas::layout(&mut chance);
        let arena = arenas::valid(&mut chance, layout);
        let mut whole = Both::new(&arena);
        assert_eq!(whole.open(layout, &[0; ROOM]), 0);
        let found = pending(&arena, layout).unwrap();
        seen = seen.max(found);
        for k in 0..=found {
            let mut cut = Both::new(&arena);
            cut.cut_open(layout, &[0; ROOM], k);
            assert_eq!(pending(&cut.arena, layout), Ok(found - k));
            cut.cut_open(layout, &[0; ROOM], chance.below(3) as u32);
            cut.open(layout, &[0; ROOM]);
            assert!(cut.arena == whole.arena && cut.handle == whole.handle && cut.table == whole.table);
        }
    }
    assert!(seen > 20);
}
