//! An opened arena as a row of sectors.
use crate::geometry::MAX_BLOCKS;
use crate::handle::Handle;
use crate::table::{Lane, Table, MAX_LANES};
use crate::{Answer, Arena, Layout, Opened};

/// One store of a write, made in the arena's bytes.
#[derive(Clone, Copy, Debug, PartialEq, Eq)]
pub struct Store {
    /// Which store of its write it is, from 1 to [`Handle::steps`]: the last but one is the sequence word, the last the map word.
    pub number: u32,
    /// Its byte offset in the arena.
    pub offset: u64,
    /// The four bytes stored.
    pub word: [u8; 4],
}

/// An opened arena with its latest handle and the table of its lanes: sectors that are read and written whole.
///
/// ```
/// use btt::{AlignedBytes, Arena, Geometry, Identifiers, OpenArena};
///
/// # fn main() -> Result<(), Box<dyn std::error::Error>> {
/// let mut memory = AlignedBytes::zeroed(49_152);
/// let mut arena = Arena::new(&mut memory)?;
/// arena.make(Geometry { size: 512, sectors: 60, lanes: 4 }, Identifiers::ZEROES)?;
///
/// let mut opened = OpenArena::open(arena)?;
/// opened.write_sector(59, &[9; 512])?;
/// let mut sector = [0; 512];
/// opened.read_sector(59, &mut sector)?;
/// assert_eq!(sector, [9; 512]);
/// # Ok(())
/// # }
/// ```
#[derive(Debug)]
pub struct OpenArena<'a> {
    arena: Arena<'a>,
    handle: Handle,
    table: Table<'a>,
    mended: u32,
    layout: Layout,
}

impl<'a> OpenArena<'a> {
    /// Opens an arena in the usual layout, [`Layout::Near`], with a work buffer and a table of its own. Answers 1 to 4, 6, 7, 18 and 8, as
    /// [`Arena::open`] does.
    pub fn open(arena: Arena<'a>) -> Result<OpenArena<'a>, Answer> {
        OpenArena::open_in(Layout::default(), arena)
    }

    /// Opens an arena in a layout, and in all else as [`open`](OpenArena::open) does.
    ///
    /// ```
    /// use btt::{AlignedBytes, Arena, Geometry, Identifiers, Layout, OpenArena};
    ///
    /// # fn main() -> Result<(), Box<dyn std::error::Error>> {
    /// # let mut memory = AlignedBytes::zeroed(49_152);
    /// # let mut arena = Arena::new(&mut memory)?;
    /// # arena.make(Geometry { size: 512, sectors: 60, lanes: 4 }, Identifiers::ZEROES)?;
    /// let mut opened = OpenArena::open_in(Layout::Far, arena)?;
    /// opened.write_sector(7, &[1; 512])?;
    /// assert_eq!(opened.layout(), Layout::Far);
    /// # Ok(())
    /// # }
    /// ```
    pub fn open_in(layout: Layout, mut arena: Arena<'a>) -> Result<OpenArena<'a>, Answer> {
        let (mut work, mut records) = (vec![0; MAX_BLOCKS], vec![Lane::default(); MAX_LANES]);
        let Opened { handle, mended } = arena.open_in(layout, &mut work, &mut records)?;
        records.truncate(handle.lanes as usize);
        Ok(OpenArena { arena, handle, table: Table::Owned(records.into()), mended, layout })
    }

    /// Opens an arena in a layout with a table that the caller lends, and in all else as [`open_in`](OpenArena::open_in) does. Where the
    /// table is shorter than the lanes the answer is [`ShortTable`](Answer::ShortTable).
    ///
    /// ```
    /// use btt::{AlignedBytes, Answer, Arena, Geometry, Identifiers, Lane, Layout, OpenArena};
    ///
    /// # fn main() -> Result<(), Box<dyn std::error::Error>> {
    /// # let mut memory = AlignedBytes::zeroed(49_152);
    /// # let mut arena = Arena::new(&mut memory)?;
    /// # arena.make(Geometry { size: 512, sectors: 60, lanes: 4 }, Identifiers::ZEROES)?;
    /// let mut table = [Lane::default(); 4];
    /// let mut opened = OpenArena::open_with(Layout::Near, arena, &mut table)?;
    /// opened.write_sector(7, &[1; 512])?;
    /// let (arena, _, table) = opened.into_parts();
    /// assert_eq!(table[0].block, 7, "lane 0 wrote, and the old block of sector 7 is free in it now");
    /// assert_eq!(OpenArena::open_with(Layout::Near, arena, &mut []).unwrap_err(), Answer::ShortTable);
    /// # Ok(())
    /// # }
    /// ```
    pub fn open_with(layout: Layout, mut arena: Arena<'a>, table: &'a mut [Lane]) -> Result<OpenArena<'a>, Answer> {
        let mut work = vec![0; MAX_BLOCKS];
        let Opened { handle, mended } = arena.open_in(layout, &mut work, table)?;
        Ok(OpenArena { arena, handle, table: Table::Lent(table), mended, layout })
    }

    /// The bytes of a sector.
    pub fn sector_size(&self) -> usize {
        self.handle.sector_size()
    }

    /// The number of sectors.
    pub fn sectors(&self) -> u32 {
        self.handle.sectors
    }

    /// The number of lanes that were pending when the arena was opened.
    pub fn mended(&self) -> u32 {
        self.mended
    }

    /// The layout in which the arena was opened.
    pub fn layout(&self) -> Layout {
        self.layout
    }

    /// The handle, which is the latest one with the table.
    pub fn handle(&self) -> &Handle {
        &self.handle
    }

    /// The table as the last call left it: its first records are those of the lanes, and a lent one may have more.
    pub fn table(&self) -> &[Lane] {
        &self.table
    }

    /// The records of the lanes, as the last call left them.
    pub fn records(&self) -> &[Lane] {
        self.handle.records(&self.table)
    }

    /// The first lane without a write in flight.
    pub fn idle_lane(&self) -> Option<u32> {
        self.handle.idle_lane(&self.table)
    }

    /// The arena.
    pub fn arena(&self) -> &Arena<'a> {
        &self.arena
    }

    /// Gives back the arena and its latest handle, which is one with the table.
    pub fn into_parts(self) -> (Arena<'a>, Handle, Table<'a>) {
        (self.arena, self.handle, self.table)
    }

    /// Reads a sector. Answers as [`Arena::read`](crate::ArenaRef::read) does.
    pub fn read_sector(&self, sector: u32, buffer: &mut [u8]) -> Result<(), Answer> {
        self.arena.read(&self.handle, &self.table, sector, buffer)
    }

    /// Writes a sector by a whole write on the first idle lane, for mediums on which [`Arena::write`] withstands a power cut. Answers
    /// as that does.
    pub fn write_sector(&mut self, sector: u32, buffer: &[u8]) -> Result<(), Answer> {
        let lane = self.idle_lane().unwrap_or(0);
        self.arena.write(&self.handle, &mut self.table, lane, sector, buffer)
    }

    /// Writes a sector store by store on the first idle lane. After each store, and before the next, `stored` is told of it, and
    /// makes it reach the medium: it flushes a cache line, or writes the word to a file.
    ///
    /// A refusal comes before any store, and changes nothing. An error of `stored` ends the write there, with its lane busy, as a
    /// power cut would: open the arena again, from what the medium has.
    ///
    /// ```
    /// # use btt::{AlignedBytes, Answer, Arena, Geometry, Identifiers, OpenArena};
    /// # let mut memory = AlignedBytes::zeroed(49_152);
    /// # let mut arena = Arena::new(&mut memory).unwrap();
    /// # arena.make(Geometry { size: 512, sectors: 60, lanes: 4 }, Identifiers::ZEROES).unwrap();
    /// # let mut medium = arena.bytes().to_vec();
    /// let mut opened = OpenArena::open(arena).unwrap();
    /// opened.write_sector_by_steps(7, &[1; 512], |store| {
    ///     let at = store.offset as usize;
    ///     medium[at..at + 4].copy_from_slice(&store.word);
    ///     Ok::<(), Answer>(())
    /// })?;
    /// assert_eq!(medium, opened.arena().bytes());
    /// # Ok::<(), Answer>(())
    /// ```
    pub fn write_sector_by_steps<E: From<Answer>>(
        &mut self,
        sector: u32,
        buffer: &[u8],
        mut stored: impl FnMut(Store) -> Result<(), E>,
    ) -> Result<(), E> {
        self.steps(sector, buffer, |_, _, store| stored(store))
    }

    /// Writes a sector on the first idle lane of an arena that is mapped write-back. `persist` is lent those bytes of the arena that
    /// must be on the medium before the write goes on: it writes back their cache lines and fences.
    ///
    /// It is called four times: with the block and with the lane's 64 bytes of the flog once all stores before the sequence word are
    /// made, which may reach the medium in any order; with these 64 bytes once the sequence word is; and with the map word. A refusal
    /// comes before any store, and an error of `persist` ends the write, as in [`write_sector_by_steps`](OpenArena::write_sector_by_steps).
    ///
    /// ```
    /// # use btt::{AlignedBytes, Answer, Arena, Geometry, Identifiers, OpenArena};
    /// # let mut memory = AlignedBytes::zeroed(49_152);
    /// # let mut arena = Arena::new(&mut memory).unwrap();
    /// # arena.make(Geometry { size: 512, sectors: 60, lanes: 4 }, Identifiers::ZEROES).unwrap();
    /// let mut opened = OpenArena::open(arena).unwrap();
    /// let mut lengths = Vec::new();
    /// opened.write_sector_persisting(7, &[1; 512], |bytes| {
    ///     // Here a host writes back the lines of these bytes (clwb) and fences (sfence).
    ///     lengths.push(bytes.len());
    ///     Ok::<(), Answer>(())
    /// })?;
    /// assert_eq!(lengths, [512, 64, 64, 4]);
    /// # Ok::<(), Answer>(())
    /// ```
    pub fn write_sector_persisting<E: From<Answer>>(
        &mut self,
        sector: u32,
        buffer: &[u8],
        mut persist: impl FnMut(&[u8]) -> Result<(), E>,
    ) -> Result<(), E> {
        let (handle, mut block) = (self.handle, 0);
        self.steps(sector, buffer, |bytes, lane, store| {
            let (at, flog) = (store.offset as usize, handle.flog as usize + 64 * lane as usize);
            if store.number == 1 {
                block = at;
            }
            match handle.steps() - store.number {
                2 => persist(&bytes[block..block + handle.sector_size()]).and_then(|()| persist(&bytes[flog..flog + 64])),
                1 => persist(&bytes[flog..flog + 64]),
                0 => persist(&bytes[at..at + 4]),
                _ => Ok(()),
            }
        })
    }

    /// A write by steps on the first idle lane; after each step `stored` is told the arena's bytes, the lane and the store.
    fn steps<E: From<Answer>>(
        &mut self,
        sector: u32,
        buffer: &[u8],
        mut stored: impl FnMut(&[u8], u32, Store) -> Result<(), E>,
    ) -> Result<(), E> {
        let lane = self.idle_lane().unwrap_or(0);
        let before = self.table[lane as usize];
        self.arena.start(&self.handle, &mut self.table, lane, sector)?;
        for number in 1..=self.handle.steps() {
            let offset = self.arena.next_store(&self.handle, &self.table, lane)?;
            if let Err(answer) = self.arena.step(&self.handle, &mut self.table, lane, buffer) {
                // Only the buffer is refused here, by the first step, so nothing is stored yet and the start is undone.
                self.table[lane as usize] = before;
                return Err(answer.into());
            }
            stored(self.arena.bytes(), lane, Store { number, offset, word: self.word(offset) })?;
        }
        Ok(())
    }

    /// The four bytes at an offset that the library gave.
    fn word(&self, offset: u64) -> [u8; 4] {
        let at = offset as usize;
        let mut word = [0; 4];
        word.copy_from_slice(&self.arena.bytes()[at..at + 4]);
        word
    }
}
