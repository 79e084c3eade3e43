//! The calls that only read an arena.
use crate::handle::Handle;
use crate::table::Lane;
use crate::{sys, Answer};
use std::error::Error;
use std::fmt;
use std::ptr;

/// Bytes that were lent as an arena do not start at a multiple of 4.
#[derive(Clone, Copy, Debug, PartialEq, Eq, Hash)]
pub struct Misaligned;

impl fmt::Display for Misaligned {
    fn fmt(&self, f: &mut fmt::Formatter<'_>) -> fmt::Result {
        f.write_str("the arena's address is not a multiple of 4, so a step could not be one aligned store")
    }
}

impl Error for Misaligned {}

/// Whether bytes may be lent as an arena: there are none, or their address is a multiple of 4.
pub(crate) fn address_allowed(bytes: &[u8]) -> bool {
    bytes.is_empty() || bytes.as_ptr().addr().is_multiple_of(4)
}

/// An arena in lent bytes, for the calls that only read it.
///
/// ```
/// use btt::{AlignedBytes, Answer, ArenaRef, Handle, Misaligned};
///
/// let memory = AlignedBytes::zeroed(49_152);
/// let arena = ArenaRef::new(&memory).unwrap();
/// assert_eq!(arena.info_block(), None);
/// assert_eq!(arena.read(&Handle::default(), &[], 0, &mut [0; 512]), Err(Answer::BadHandle));
/// assert_eq!(ArenaRef::new(&memory[1..]).unwrap_err(), Misaligned);
/// ```
#[derive(Clone, Copy)]
pub struct ArenaRef<'a> {
    bytes: &'a [u8],
}

impl<'a> ArenaRef<'a> {
    /// Lends bytes as an arena that is only read. Their address must be a multiple of 4, or they are none at all; nothing else is
    /// looked at.
    pub fn new(bytes: &'a [u8]) -> Result<ArenaRef<'a>, Misaligned> {
        if address_allowed(bytes) {
            Ok(ArenaRef { bytes })
        } else {
            Err(Misaligned)
        }
    }

    /// The same for bytes whose address was looked at.
    pub(crate) fn aligned(bytes: &'a [u8]) -> ArenaRef<'a> {
        ArenaRef { bytes }
    }

    /// The arena's bytes.
    pub fn bytes(self) -> &'a [u8] {
        self.bytes
    }

    /// The address for the library: null where there are no bytes.
    fn address(self) -> *const u8 {
        if self.bytes.is_empty() {
            ptr::null()
        } else {
            self.bytes.as_ptr()
        }
    }

    /// The info block that counts, as a part of the bytes lent: the first block if it is sound, else the copy if that is.
    /// None where opening would answer [`WrongLength`](Answer::WrongLength) or [`NoInfoBlock`](Answer::NoInfoBlock).
    ///
    /// ```
    /// # use btt::{AlignedBytes, Arena, ArenaRef, Geometry, Identifiers};
    /// # let mut memory = AlignedBytes::zeroed(49_152);
    /// # Arena::new(&mut memory).unwrap().make(Geometry { size: 512, sectors: 60, lanes: 4 }, Identifiers::ZEROES).unwrap();
    /// let arena = ArenaRef::new(&memory).unwrap();
    /// let block = arena.info_block().unwrap();
    /// assert_eq!(&block[..16], b"BTT_ARENA_INFO\0\0");
    /// assert_eq!(block.as_ptr(), memory.as_ptr());
    /// ```
    pub fn info_block(self) -> Option<&'a [u8]> {
        let (mut offset, mut length) = (0, 0);
        // SAFETY: the arena's pointer is of a slice and goes with its length; the two numbers are this function's own.
        unsafe { sys::btt_info_block(self.address(), self.bytes.len(), &raw mut offset, &raw mut length) };
        let (offset, length) = (offset as usize, length as usize);
        (length != 0).then(|| &self.bytes[offset..offset + length])
    }

    /// Reads a sector into a buffer of [a sector's length](Handle::sector_size): what the last finished write stored, or zeroes where
    /// the sector was never written or its map word has bit 31 (Zero) alone. A write in flight is not seen until its map word, its last
    /// store, is stored.
    ///
    /// Answers [`BadHandle`](Answer::BadHandle) (the handle), [`ShortTable`](Answer::ShortTable), [`BadHandle`](Answer::BadHandle) (a
    /// record of the table), [`NoSuchSector`](Answer::NoSuchSector), [`WrongBuffer`](Answer::WrongBuffer),
    /// [`BadMapWord`](Answer::BadMapWord) and [`Sloppy`](Answer::Sloppy) (of that sector's word), [`BadSector`](Answer::BadSector), the
    /// first that applies. Every call with a handle begins with the first three.
    pub fn read(self, handle: &Handle, table: &[Lane], sector: u32, buffer: &mut [u8]) -> Result<(), Answer> {
        let (bytes, length) = (self.address(), self.bytes.len());
        // SAFETY: the pointers are of three slices with their lengths and of a handle; the buffer is borrowed alone, so it lies apart
        // from the others; the arena's address was looked at by `new`, and that of records is a multiple of 4.
        Answer::outcome(unsafe {
            sys::btt_read(bytes, length, handle, table.as_ptr(), table.len(), sector, buffer.as_mut_ptr(), buffer.len())
        })
    }

    /// Starts a write to a sector on an idle lane. The arena is not changed; the lane's record in the table remembers the write.
    ///
    /// Answers [those of handle and table](ArenaRef::read), [`NoSuchLane`](Answer::NoSuchLane), [`LaneBusy`](Answer::LaneBusy),
    /// [`NoSuchSector`](Answer::NoSuchSector), [`SectorBusy`](Answer::SectorBusy), [`BadMapWord`](Answer::BadMapWord) and
    /// [`Sloppy`](Answer::Sloppy) (of that sector's word), the first that applies.
    pub fn start(self, handle: &Handle, table: &mut [Lane], lane: u32, sector: u32) -> Result<(), Answer> {
        let (bytes, length) = (self.address(), self.bytes.len());
        // SAFETY: the pointers are of two slices with their lengths and of a handle; the table is borrowed alone, so it lies apart from
        // the others; the arena's address was looked at by `new`, and that of records is a multiple of 4.
        Answer::outcome(unsafe { sys::btt_start(bytes, length, handle, table.as_mut_ptr(), table.len(), lane, sector) })
    }

    /// A lane's record, judged with the whole handle and the other lanes' records.
    ///
    /// Answers [those of handle and table](ArenaRef::read), [`NoSuchLane`](Answer::NoSuchLane), the first that applies.
    ///
    /// ```
    /// # use btt::{AlignedBytes, Answer, Arena, Geometry, Identifiers, Lane};
    /// # let mut memory = AlignedBytes::zeroed(49_152);
    /// # let mut arena = Arena::new(&mut memory).unwrap();
    /// # arena.make(Geometry { size: 512, sectors: 60, lanes: 4 }, Identifiers::ZEROES).unwrap();
    /// let mut table = [Lane::default(); 4];
    /// let handle = arena.open(&mut [0; 64], &mut table).unwrap().handle;
    /// let fresh = Lane { block: 61, half: 1, sequence: 2, ..Lane::default() };
    /// assert_eq!(arena.lane(&handle, &table, 1), Ok(fresh));
    /// assert_eq!(arena.lane(&handle, &table, 4), Err(Answer::NoSuchLane));
    /// assert_eq!(arena.lane(&handle, &table[..3], 1), Err(Answer::ShortTable));
    /// ```
    pub fn lane(self, handle: &Handle, table: &[Lane], lane: u32) -> Result<Lane, Answer> {
        let (bytes, length, mut record) = (self.address(), self.bytes.len(), Lane::default());
        // SAFETY: the pointers are of two slices with their lengths, of a handle and of a record of this function's own; the arena's
        // address was looked at by `new`, and that of records is a multiple of 4.
        Answer::outcome(unsafe {
            sys::btt_lane_record(bytes, length, handle, table.as_ptr(), table.len(), lane, &raw mut record)
        })?;
        Ok(record)
    }

    /// The byte offset of the one word that the lane's next step will store, so that a host can flush just its line.
    ///
    /// Answers [those of handle and table](ArenaRef::read), [`NoSuchLane`](Answer::NoSuchLane), [`LaneIdle`](Answer::LaneIdle), the first
    /// that applies.
    ///
    /// ```
    /// # use btt::{AlignedBytes, Answer, Arena, Geometry, Identifiers, Lane};
    /// # let mut memory = AlignedBytes::zeroed(49_152);
    /// # let mut arena = Arena::new(&mut memory).unwrap();
    /// # arena.make(Geometry { size: 512, sectors: 60, lanes: 4 }, Identifiers::ZEROES).unwrap();
    /// # let mut table = [Lane::default(); 4];
    /// let handle = arena.open(&mut [0; 64], &mut table).unwrap().handle;
    /// assert_eq!(arena.next_store(&handle, &table, 0), Err(Answer::LaneIdle));
    /// arena.start(&handle, &mut table, 0, 7).unwrap();
    /// assert_eq!(arena.next_store(&handle, &table, 0), Ok(34_816));
    /// ```
    pub fn next_store(self, handle: &Handle, table: &[Lane], lane: u32) -> Result<u64, Answer> {
        let (bytes, length, mut offset) = (self.address(), self.bytes.len(), 0);
        // SAFETY: as in `lane`, with a number in the place of the record.
        Answer::outcome(unsafe {
            sys::btt_next_store(bytes, length, handle, table.as_ptr(), table.len(), lane, &raw mut offset)
        })?;
        Ok(offset)
    }
}

impl fmt::Debug for ArenaRef<'_> {
    fn fmt(&self, f: &mut fmt::Formatter<'_>) -> fmt::Result {
        write!(f, "ArenaRef({} bytes)", self.bytes.len())
    }
}
