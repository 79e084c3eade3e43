//! The library and the plain program side by side: each call is made on both, and everything that it gives or leaves is compared.
use super::raw::{self, Raw};
use super::{figures, number, rubbish};
use btt::{
    AlignedBytes, Answer, Arena, ArenaRef, Geometry, Handle, Identifiers, Lane, Layout, Opened, Replay, MAX_BLOCKS, MAX_LANES,
};
use std::fmt::Debug;
use std::rc::Rc;

/// An arena, a handle and a table in the library's hands, the same arena in the plain program's, and its bytes as the test last put them
/// there.
#[derive(Clone)]
pub struct Both {
    pub arena: AlignedBytes,
    pub plain: Vec<u8>,
    pub handle: Handle,
    pub table: Vec<Lane>,
    put: Rc<[u8]>,
}

impl Both {
    /// An arena with a table of rubbish that has more records than any arena needs.
    pub fn new(arena: &[u8]) -> Both {
        let table = rubbish(MAX_LANES + 3);
        Both { arena: arena.into(), plain: arena.to_vec(), handle: Handle::default(), table, put: arena.into() }
    }

    /// The same arena and table with another handle, by which the blocks may be elsewhere.
    pub fn with(&self, handle: Handle) -> Both {
        Both { handle, table: self.table.clone(), ..Both::new(&self.arena) }
    }

    /// The same arena and handle with another table.
    pub fn with_table(&self, table: Vec<Lane>) -> Both {
        Both { table, ..self.clone() }
    }

    /// The same with just so many records of the table, or with rubbish after those that it has.
    pub fn with_records(&self, records: usize) -> Both {
        let mut table = rubbish(records);
        let kept = records.min(self.table.len());
        table[..kept].copy_from_slice(&self.table[..kept]);
        self.with_table(table)
    }

    /// Changes both arenas alike.
    pub fn change<T>(&mut self, change: impl FnOnce(&mut [u8]) -> T) -> T {
        let changed = change(&mut self.arena);
        self.plain.copy_from_slice(&self.arena);
        self.put = self.arena[..].into();
        changed
    }

    fn lent(&mut self) -> Arena<'_> {
        Arena::new(&mut self.arena).unwrap()
    }

    fn view(&self) -> ArenaRef<'_> {
        ArenaRef::new(&self.arena).unwrap()
    }

    /// Compares what a call gave and left, and gives its number.
    #[track_caller]
    fn same<T: Debug + PartialEq>(&self, call: &str, found: Result<T, Answer>, expected: Result<T, Answer>) -> u32 {
        assert_eq!(found, expected, "{call} gives");
        assert!(self.arena[..] == self.plain[..], "{call} leaves the arena");
        number(&found)
    }

    /// Looks at the rest of each block, its bytes after the sector's, in an arena of these figures: no call changes it.
    #[track_caller]
    fn rest_is_kept(&self, call: &str, figures: &Handle) {
        let (start, size, internal) = (figures.data as usize, figures.sector_size(), figures.internal as usize);
        let data = start..start + figures.blocks as usize * internal;
        let (now, put) = (self.arena[data.clone()].chunks_exact(internal), self.put[data].chunks_exact(internal));
        assert!(now.zip(put).all(|(now, put)| now[size..] == put[size..]), "{call} leaves the rest of each block");
    }

    /// The number of a call that makes or opens the arena. If it was accepted, the info block says where the blocks are.
    #[track_caller]
    fn opened(&self, call: &str, number: u32) -> u32 {
        if number == 0 {
            self.rest_is_kept(call, &figures(&self.plain).unwrap());
        }
        number
    }

    /// Keeps the table that a call left, once it is seen that both sides left the same and that no record but so many from one on changed.
    #[track_caller]
    fn keep_table(&mut self, call: &str, found: Vec<Lane>, expected: Vec<Lane>, first: u32, count: u32) {
        assert!(found == expected, "{call} leaves the table");
        let own = first as usize..first as usize + count as usize;
        let mut pairs = found.iter().zip(&self.table).enumerate();
        assert!(pairs.all(|(i, (now, before))| own.contains(&i) || now == before), "{call} leaves the other records");
        self.table = found;
    }

    /// Compares what a call on a lane gave and left that may change its record.
    #[track_caller]
    fn same_table(
        &mut self,
        call: &str,
        lane: u32,
        found: (Result<(), Answer>, Vec<Lane>),
        expected: (Result<(), Answer>, Vec<Lane>),
    ) -> u32 {
        self.keep_table(call, found.1, expected.1, lane, u32::from(found.0.is_ok()));
        let number = self.same(call, found.0, expected.0);
        if number == 0 {
            self.rest_is_kept(call, &self.handle);
        }
        number
    }

    #[track_caller]
    pub fn make(&mut self, geometry: Geometry, own: &[u8], parent: &[u8]) -> u32 {
        let found = self.lent().make(geometry, Identifiers { own, parent });
        let expected = plain::make(&mut self.plain, geometry, Identifiers { own, parent });
        self.opened("make", self.same("make", found, expected))
    }

    #[track_caller]
    pub fn info_block(&self) {
        let found = self.view().info_block().map(|block| (block.as_ptr(), block.len()));
        let expected = plain::info_block(&self.plain).map(|at| (self.arena[at..].as_ptr(), 4096));
        assert_eq!(found, expected, "the caller's own bytes");
    }

    /// Opens the arena, told any number as the layout; the handle is the one that opening gives, and as it was after a refusal.
    #[track_caller]
    pub fn open(&mut self, layout: u32, work: &[u8]) -> u32 {
        let (mut work, mut plain_work) = (work.to_vec(), work.to_vec());
        let (mut table, mut plain_table) = (self.table.clone(), self.table.clone());
        let found = match Layout::try_from(layout) {
            Ok(layout) => self.lent().open_in(layout, &mut work, &mut table),
            Err(_) => raw::open(&mut self.arena, &mut work, layout, &mut table),
        };
        let expected = plain::open(&mut self.plain, &mut plain_work, layout, &mut plain_table);
        assert_eq!(work, plain_work, "open leaves the work buffer");
        self.keep_table("open", table, plain_table, 0, found.map_or(0, |opened| opened.handle.lanes));
        if let Ok(Opened { handle, .. }) = found {
            assert_eq!(handle.layout, layout, "the handle carries the layout");
            self.handle = handle;
        }
        self.opened("open", self.same("open", found, expected))
    }

    /// Opens the arena again, in the layout of its handle.
    #[track_caller]
    pub fn reopen(&mut self, work: &[u8]) -> u32 {
        self.open(self.handle.layout, work)
    }

    #[track_caller]
    pub fn cut_open(&mut self, layout: u32, work: &[u8], k: u32) -> u32 {
        let (mut work, mut plain_work) = (work.to_vec(), work.to_vec());
        let table = self.table.clone();
        let found = match Layout::try_from(layout) {
            Ok(layout) => self.lent().cut_open_in(layout, &mut work, &table, k),
            Err(_) => raw::cut_open(&mut self.arena, &mut work, layout, &table, k),
        };
        assert!(table == self.table, "cut_open leaves the table");
        let expected = plain::cut_open(&mut self.plain, &mut plain_work, layout, &table, k);
        assert_eq!(work, plain_work, "cut_open leaves the work buffer");
        self.opened("cut_open", self.same("cut_open", found, expected))
    }

    #[track_caller]
    pub fn read(&self, sector: u32, buffer: &mut [u8]) -> u32 {
        let mut plain_buffer = buffer.to_vec();
        let found = self.view().read(&self.handle, &self.table, sector, buffer);
        let expected = plain::read(&self.plain, &self.handle, &self.table, sector, &mut plain_buffer);
        assert!(buffer[..] == plain_buffer[..], "read leaves the buffer");
        self.same("read", found, expected)
    }

    #[track_caller]
    pub fn start(&mut self, lane: u32, sector: u32) -> u32 {
        let (mut table, mut plain_table) = (self.table.clone(), self.table.clone());
        let found = self.view().start(&self.handle, &mut table, lane, sector);
        let expected = plain::start(&self.plain, &self.handle, &mut plain_table, lane, sector);
        self.same_table("start", lane, (found, table), (expected, plain_table))
    }

    #[track_caller]
    pub fn step(&mut self, lane: u32, buffer: &[u8]) -> u32 {
        let (handle, mut table, mut plain_table) = (self.handle, self.table.clone(), self.table.clone());
        let found = self.lent().step(&handle, &mut table, lane, buffer);
        let expected = plain::step(&mut self.plain, &handle, &mut plain_table, lane, buffer);
        self.same_table("step", lane, (found, table), (expected, plain_table))
    }

    #[track_caller]
    pub fn write(&mut self, lane: u32, sector: u32, buffer: &[u8]) -> u32 {
        let (handle, mut table, mut plain_table) = (self.handle, self.table.clone(), self.table.clone());
        let found = self.lent().write(&handle, &mut table, lane, sector, buffer);
        let expected = plain::write(&mut self.plain, &handle, &mut plain_table, lane, sector, buffer);
        self.same_table("write", lane, (found, table), (expected, plain_table))
    }

    #[track_caller]
    pub fn lane(&self, lane: u32) -> u32 {
        let found = self.view().lane(&self.handle, &self.table, lane);
        self.same("lane", found, plain::lane(&self.plain, &self.handle, &self.table, lane))
    }

    #[track_caller]
    pub fn next_store(&self, lane: u32) -> u32 {
        let found = self.view().next_store(&self.handle, &self.table, lane);
        self.same("next_store", found, plain::next_store(&self.plain, &self.handle, &self.table, lane))
    }

    /// Replays a log with the wrapper's own buffers, and again as C sees it with buffers of these bytes.
    #[track_caller]
    pub fn replay(&mut self, log: &[u8], work: &[u8], answers: &[u8]) -> Result<Replay, Answer> {
        let mut raw = Raw { arena: self.arena.clone(), work: work.to_vec(), answers: answers.to_vec(), numbers: (0, 7, 7) };
        raw.replay(log);
        let (mut lent, mut short) = (self.plain.clone(), work.to_vec());
        let expected = plain::replay(&mut lent, &mut short, log);
        assert!(raw == Raw::expected(&expected, lent, short, answers), "btt_replay gives and leaves");
        let found = self.lent().replay(log);
        let expected = plain::replay(&mut self.plain, &mut [0; MAX_BLOCKS], log);
        self.opened("replay", self.same("replay", found.clone(), expected));
        found
    }

    /// Makes each call that takes a handle on a copy, with these numbers, and gives the answers.
    #[track_caller]
    pub fn every_call(&self, lane: u32, sector: u32, buffer: &[u8]) -> [u32; 6] {
        [
            self.read(sector, &mut buffer.to_vec()),
            self.clone().start(lane, sector),
            self.clone().step(lane, buffer),
            self.clone().write(lane, sector, buffer),
            self.lane(lane),
            self.next_store(lane),
        ]
    }
}
