//! The calls on an arena that is lent to be changed.
use crate::geometry::{Geometry, Identifiers};
use crate::handle::Handle;
use crate::layout::Layout;
use crate::table::Lane;
use crate::view::{address_allowed, ArenaRef, Misaligned};
use crate::{sys, Answer};
use std::fmt;
use std::ptr;

/// What opening found.
#[derive(Clone, Copy, Debug, PartialEq, Eq)]
pub struct Opened {
    /// The handle for the calls that follow, which take it with the table that opening was lent.
    pub handle: Handle,
    /// The number of lanes that were pending, each of which opening mended by one store to the map.
    pub mended: u32,
}

/// An arena in lent bytes, which the calls may change.
///
/// Any bytes may be lent, with any handle, any table and any numbers: every call ends, and a refused one changes no byte of the arena, of
/// the sector buffer or of the table. While an `Arena` lives nothing else can store to its bytes.
///
/// ```
/// use btt::{AlignedBytes, Arena, Geometry, Identifiers, Lane};
///
/// # fn main() -> Result<(), Box<dyn std::error::Error>> {
/// let mut memory = AlignedBytes::zeroed(49_152);
/// let mut arena = Arena::new(&mut memory)?;
/// arena.make(Geometry { size: 512, sectors: 60, lanes: 4 }, Identifiers::ZEROES)?;
///
/// let mut work = [0; 64];
/// let mut table = [Lane::default(); 4];
/// let handle = arena.open(&mut work, &mut table)?.handle;
/// arena.write(&handle, &mut table, 0, 7, &[1; 512])?;
///
/// let mut sector = [0; 512];
/// arena.read(&handle, &table, 7, &mut sector)?;
/// assert_eq!(sector, [1; 512]);
/// # Ok(())
/// # }
/// ```
pub struct Arena<'a> {
    bytes: &'a mut [u8],
}

impl<'a> Arena<'a> {
    /// Lends bytes as an arena. Their address must be a multiple of 4 (or they are none at all), so that each step of a write is one
    /// aligned store; nothing else is looked at.
    pub fn new(bytes: &'a mut [u8]) -> Result<Arena<'a>, Misaligned> {
        if address_allowed(bytes) {
            Ok(Arena { bytes })
        } else {
            Err(Misaligned)
        }
    }

    /// The arena's bytes.
    pub fn bytes(&self) -> &[u8] {
        self.bytes
    }

    /// Gives the bytes back.
    pub fn into_bytes(self) -> &'a mut [u8] {
        self.bytes
    }

    /// The arena for the calls that only read it.
    pub fn view(&self) -> ArenaRef<'_> {
        ArenaRef::aligned(self.bytes)
    }

    /// The address for the library: null where there are no bytes.
    pub(crate) fn address(&mut self) -> *mut u8 {
        if self.bytes.is_empty() {
            ptr::null_mut()
        } else {
            self.bytes.as_mut_ptr()
        }
    }

    /// Makes an arena, in bytes of just the length that the figures give ([`Geometry::made_length`]): both info blocks and every byte
    /// after the data blocks are written, the data blocks are not touched, and every sector reads as zeroes. A power cut while making
    /// promises nothing. Open the arena to get its handle.
    ///
    /// Answers [`ForbiddenFigure`](Answer::ForbiddenFigure), [`WrongLength`](Answer::WrongLength),
    /// [`WrongBuffer`](Answer::WrongBuffer) (an identifier is not 16 bytes), the first that applies.
    ///
    /// ```
    /// use btt::{AlignedBytes, Answer, Arena, Geometry, Identifiers};
    ///
    /// let geometry = Geometry { size: 4096, sectors: 100, lanes: 2 };
    /// let mut memory = AlignedBytes::zeroed(geometry.made_length().unwrap() as usize);
    /// let mut arena = Arena::new(&mut memory).unwrap();
    /// assert_eq!(arena.make(geometry, Identifiers { own: &[7; 16], parent: &[] }), Err(Answer::WrongBuffer));
    /// assert_eq!(arena.make(geometry, Identifiers { own: &[7; 16], parent: &[8; 16] }), Ok(()));
    /// ```
    pub fn make(&mut self, geometry: Geometry, identifiers: Identifiers) -> Result<(), Answer> {
        let Geometry { size, sectors, lanes } = geometry;
        let Identifiers { own, parent } = identifiers;
        let length = self.bytes.len();
        // SAFETY: each pointer is of a slice and goes with its length; the arena is borrowed alone, so the others lie apart from it;
        // its address was looked at by `new`.
        Answer::outcome(unsafe {
            sys::btt_make(self.address(), length, size, sectors, lanes, own.as_ptr(), own.len(), parent.as_ptr(), parent.len())
        })
    }

    /// Opens the arena in the usual layout, [`Layout::Near`]: all is judged before anything is stored, then each pending lane, whose
    /// write lacked only its map word when the power went, is mended by one store to the map.
    ///
    /// The work buffer needs a byte for each block, that is for each sector and lane; [`MAX_BLOCKS`](crate::MAX_BLOCKS) is enough for
    /// every arena. What it holds does not matter. Unless the answer is one of 1 to 5, as many of its bytes as there are blocks are 0
    /// afterwards; the rest is unchanged.
    ///
    /// The table needs a record for each lane; [`MAX_LANES`](crate::MAX_LANES) of them are enough for every arena. An accepted opening sets
    /// just the records of the lanes, and a refused one sets none.
    ///
    /// Answers 1 to 5, 21, 6, 7, 18 and 8, the first that applies: [`WrongLength`](Answer::WrongLength),
    /// [`NoInfoBlock`](Answer::NoInfoBlock), [`ForbiddenFigure`](Answer::ForbiddenFigure), [`FlagsSet`](Answer::FlagsSet),
    /// [`ShortWorkBuffer`](Answer::ShortWorkBuffer), [`ShortTable`](Answer::ShortTable), [`LostLane`](Answer::LostLane),
    /// [`BadMapWord`](Answer::BadMapWord), [`Sloppy`](Answer::Sloppy) (of all map words and all lanes), [`NotValid`](Answer::NotValid).
    ///
    /// ```
    /// use btt::{AlignedBytes, Answer, Arena, Lane};
    ///
    /// let mut memory = AlignedBytes::zeroed(49_152);
    /// let mut arena = Arena::new(&mut memory).unwrap();
    /// assert_eq!(arena.open(&mut [0; 64], &mut [Lane::default(); 4]), Err(Answer::NoInfoBlock));
    /// ```
    pub fn open(&mut self, work: &mut [u8], table: &mut [Lane]) -> Result<Opened, Answer> {
        self.open_in(Layout::default(), work, table)
    }

    /// Opens the arena in a layout, and in all else as [`open`](Arena::open) does. The handle carries the layout.
    ///
    /// ```
    /// use btt::{AlignedBytes, Answer, Arena, Geometry, Identifiers, Lane, Layout};
    ///
    /// # let mut memory = AlignedBytes::zeroed(49_152);
    /// let mut arena = Arena::new(&mut memory).unwrap();
    /// arena.make(Geometry { size: 512, sectors: 60, lanes: 4 }, Identifiers::ZEROES)?;
    /// let mut table = [Lane::default(); 4];
    /// let handle = arena.open_in(Layout::Far, &mut [0; 64], &mut table)?.handle;
    /// assert_eq!(handle.layout, 32);
    /// arena.write(&handle, &mut table, 0, 7, &[1; 512])?;
    ///
    /// assert_eq!(arena.open(&mut [0; 64], &mut table), Err(Answer::Sloppy), "what was written is padding in the other layout");
    /// assert!(arena.open_in(Layout::Far, &mut [0; 64], &mut table).is_ok());
    /// # Ok::<(), Answer>(())
    /// ```
    pub fn open_in(&mut self, layout: Layout, work: &mut [u8], table: &mut [Lane]) -> Result<Opened, Answer> {
        let mut opened = Opened { handle: Handle::default(), mended: 0 };
        let (bytes, length) = (self.address(), self.bytes.len());
        let (room, places, records) = (work.len(), table.as_mut_ptr(), table.len());
        // SAFETY: the pointers are of three slices with their lengths, a handle and a number, all borrowed alone and so apart; the
        // arena's address was looked at by `new`, and that of records is a multiple of 4.
        Answer::outcome(unsafe {
            let Opened { handle, mended } = &mut opened;
            sys::btt_open(bytes, length, work.as_mut_ptr(), room, layout.bytes(), places, records, handle, mended)
        })?;
        Ok(opened)
    }

    /// An opening in the usual layout, [`Layout::Near`], that stops after its first `k` stores, or makes all if there are fewer, as a
    /// power cut would stop it. It answers and leaves the work buffer as [`open`](Arena::open) does, gives the number of lanes that
    /// were pending, and no handle. Of the table only the length counts.
    ///
    /// A host whose medium needs a flush after every store opens by it: see [the crate's page](crate#opening).
    ///
    /// ```
    /// use btt::{AlignedBytes, Answer, Arena, Geometry, Identifiers, Lane};
    ///
    /// let mut memory = AlignedBytes::zeroed(20_480);
    /// let mut arena = Arena::new(&mut memory).unwrap();
    /// arena.make(Geometry { size: 512, sectors: 1, lanes: 1 }, Identifiers::ZEROES).unwrap();
    /// assert_eq!(arena.cut_open(&mut [0; 2], &[Lane::default()], 0), Ok(0));
    /// assert_eq!(arena.cut_open(&mut [0; 2], &[], 0), Err(Answer::ShortTable));
    /// ```
    pub fn cut_open(&mut self, work: &mut [u8], table: &[Lane], k: u32) -> Result<u32, Answer> {
        self.cut_open_in(Layout::default(), work, table, k)
    }

    /// An opening in a layout that stops after its first `k` stores, and in all else as [`cut_open`](Arena::cut_open) does.
    pub fn cut_open_in(&mut self, layout: Layout, work: &mut [u8], table: &[Lane], k: u32) -> Result<u32, Answer> {
        let mut mended = 0;
        let (bytes, length) = (self.address(), self.bytes.len());
        let (room, places, records) = (work.len(), table.as_ptr(), table.len());
        // SAFETY: as in `open_in`, with a table that is only read.
        Answer::outcome(unsafe {
            sys::btt_cut_open(bytes, length, work.as_mut_ptr(), room, layout.bytes(), places, records, k, &raw mut mended)
        })?;
        Ok(mended)
    }

    /// Makes the next store of the lane's write, one aligned word. After [`Handle::steps`] steps the write is done and the lane idle.
    /// Lend every step of a write the same sector buffer: a step stores the one word of it whose turn it is.
    ///
    /// Answers [those of handle and table](ArenaRef::read), [`NoSuchLane`](Answer::NoSuchLane), [`LaneIdle`](Answer::LaneIdle),
    /// [`WrongBuffer`](Answer::WrongBuffer), the first that applies.
    ///
    /// ```
    /// # use btt::{AlignedBytes, Arena, Geometry, Identifiers, Lane};
    /// # let mut memory = AlignedBytes::zeroed(49_152);
    /// # let mut arena = Arena::new(&mut memory).unwrap();
    /// # arena.make(Geometry { size: 512, sectors: 60, lanes: 4 }, Identifiers::ZEROES).unwrap();
    /// # let mut table = [Lane::default(); 4];
    /// # let handle = arena.open(&mut [0; 64], &mut table).unwrap().handle;
    /// let sector = [5; 512];
    /// arena.start(&handle, &mut table, 2, 30)?;
    /// for _ in 0..handle.steps() {
    ///     let offset = arena.next_store(&handle, &table, 2)?;
    ///     arena.step(&handle, &mut table, 2, &sector)?;
    ///     // Here a host flushes the cache line at `offset` and fences.
    /// #   assert!(offset < 49_152);
    /// }
    /// assert!(table[2].is_idle());
    /// # Ok::<(), btt::Answer>(())
    /// ```
    pub fn step(&mut self, handle: &Handle, table: &mut [Lane], lane: u32, buffer: &[u8]) -> Result<(), Answer> {
        let (bytes, length) = (self.address(), self.bytes.len());
        let (places, records) = (table.as_mut_ptr(), table.len());
        // SAFETY: the pointers are of three slices with their lengths and of a handle; arena and table are borrowed alone, so all lie
        // apart; the arena's address was looked at by `new`, and that of records is a multiple of 4.
        Answer::outcome(unsafe { sys::btt_step(bytes, length, handle, places, records, lane, buffer.as_ptr(), buffer.len()) })
    }

    /// A whole write: a start and all its steps in one call, refused before any store.
    ///
    /// Nothing can be flushed between its stores: see [the crate's page](crate#stores-that-reach-the-medium) for the mediums on which
    /// it withstands a power cut. Elsewhere write step by step.
    ///
    /// Answers [those of handle and table](ArenaRef::read), [`NoSuchLane`](Answer::NoSuchLane), [`LaneBusy`](Answer::LaneBusy),
    /// [`NoSuchSector`](Answer::NoSuchSector), [`WrongBuffer`](Answer::WrongBuffer), [`SectorBusy`](Answer::SectorBusy),
    /// [`BadMapWord`](Answer::BadMapWord) and [`Sloppy`](Answer::Sloppy) (of that sector's word), the first that applies.
    pub fn write(&mut self, handle: &Handle, table: &mut [Lane], lane: u32, sector: u32, buffer: &[u8]) -> Result<(), Answer> {
        let (bytes, length) = (self.address(), self.bytes.len());
        let (places, records) = (table.as_mut_ptr(), table.len());
        // SAFETY: as in `step`.
        Answer::outcome(unsafe {
            sys::btt_write(bytes, length, handle, places, records, lane, sector, buffer.as_ptr(), buffer.len())
        })
    }

    /// The info block that counts: see [`ArenaRef::info_block`].
    pub fn info_block(&self) -> Option<&[u8]> {
        self.view().info_block()
    }

    /// Reads a sector: see [`ArenaRef::read`].
    pub fn read(&self, handle: &Handle, table: &[Lane], sector: u32, buffer: &mut [u8]) -> Result<(), Answer> {
        self.view().read(handle, table, sector, buffer)
    }

    /// Starts a write: see [`ArenaRef::start`].
    pub fn start(&self, handle: &Handle, table: &mut [Lane], lane: u32, sector: u32) -> Result<(), Answer> {
        self.view().start(handle, table, lane, sector)
    }

    /// A lane's record: see [`ArenaRef::lane`].
    pub fn lane(&self, handle: &Handle, table: &[Lane], lane: u32) -> Result<Lane, Answer> {
        self.view().lane(handle, table, lane)
    }

    /// Where the lane's next step stores: see [`ArenaRef::next_store`].
    pub fn next_store(&self, handle: &Handle, table: &[Lane], lane: u32) -> Result<u64, Answer> {
        self.view().next_store(handle, table, lane)
    }
}

impl fmt::Debug for Arena<'_> {
    fn fmt(&self, f: &mut fmt::Formatter<'_>) -> fmt::Result {
        write!(f, "Arena({} bytes)", self.bytes.len())
    }
}
