//! The handle that opening gives.
use crate::table::Lane;
use std::mem;

/// The bytes of a handle.
pub const HANDLE_SIZE: usize = 64;

/// What opening gives and every later call judges anew: plain data without a secret. Only an opening writes it.
///
/// The records of the lanes stand in a table of [`Lane`]s beside it, which the caller lends to every call with the handle. Both may be
/// copied, stored and forged: every call answers for every handle and every table. The promises are about the latest handle, which comes
/// with its table as the last call left it; a call that is given an earlier state of the table is answered, but may spoil the arena.
///
/// ```
/// use btt::Handle;
///
/// let handle = Handle::from_bytes(&[0; 64]);
/// assert_eq!(handle.to_bytes(), [0; 64]);
/// assert_eq!(handle, Handle::default());
/// ```
#[derive(Clone, Copy, Debug, Default, PartialEq, Eq, Hash)]
#[repr(C)]
pub struct Handle {
    /// The arena's length in bytes.
    pub length: u64,
    /// The byte offset at which the data blocks start.
    pub data: u64,
    /// The byte offset at which the map starts.
    pub map: u64,
    /// The byte offset at which the flog starts.
    pub flog: u64,
    /// The byte offset at which the copy of the info block starts.
    pub copy: u64,
    /// The bytes of a sector: 512, 520, 528, 4,096 or 4,104.
    pub size: u32,
    /// The number of sectors.
    pub sectors: u32,
    /// The bytes of a block, which are those of a sector rounded up to a multiple of 64. Every call answers
    /// [`BadHandle`](crate::Answer::BadHandle) for a pair that [`SIZES`](crate::SIZES) does not have.
    pub internal: u32,
    /// The number of blocks: sectors and lanes.
    pub blocks: u32,
    /// The number of lanes: 1 to 256.
    pub lanes: u32,
    /// The layout that opening was told, as [`Layout::bytes`](crate::Layout::bytes) gives it: 16 or 32, the bytes from a lane's first
    /// half in the flog to its second. Every call answers [`BadHandle`](crate::Answer::BadHandle) for another value.
    pub layout: u32,
}

const _: () = assert!(size_of::<Handle>() == HANDLE_SIZE);

impl Handle {
    /// The handle that 64 bytes stand for. Any bytes do.
    pub fn from_bytes(bytes: &[u8; HANDLE_SIZE]) -> Handle {
        // SAFETY: a handle is 64 bytes of numbers without padding, and any bytes make numbers.
        unsafe { mem::transmute(*bytes) }
    }

    /// The handle as 64 bytes, little-endian, as the library sees it.
    pub fn to_bytes(&self) -> [u8; HANDLE_SIZE] {
        // SAFETY: a handle is 64 bytes of numbers without padding, so that each byte has a value.
        unsafe { mem::transmute(*self) }
    }

    /// The bytes of a sector, and so of a sector buffer.
    pub fn sector_size(&self) -> usize {
        self.size as usize
    }

    /// The stores that one write makes: a word for each four bytes of a sector, four to the flog and one to the map.
    pub fn steps(&self) -> u32 {
        self.size / 4 + 5
    }

    /// The records of the lanes that the arena has, of a table; all of them where the table is shorter than the lanes.
    pub fn records<'t>(&self, table: &'t [Lane]) -> &'t [Lane] {
        &table[..table.len().min(self.lanes as usize)]
    }

    /// The first lane without a write in flight.
    pub fn idle_lane(&self, table: &[Lane]) -> Option<u32> {
        self.records(table).iter().zip(0..).find(|(record, _)| record.is_idle()).map(|(_, lane)| lane)
    }
}

#[cfg(test)]
mod tests {
    use super::*;

    #[test]
    fn bytes_go_both_ways() {
        let mut bytes = [0; HANDLE_SIZE];
        for (i, byte) in bytes.iter_mut().enumerate() {
            *byte = (i * 7 + 1) as u8;
        }
        let handle = Handle::from_bytes(&bytes);
        assert_eq!(handle.to_bytes(), bytes);
        assert_eq!(handle.layout.to_le_bytes(), bytes[60..]);
    }

    #[test]
    fn the_first_idle_lane_is_found() {
        let mut handle = Handle { lanes: 3, ..Handle::default() };
        let mut table = [Lane::default(); 5];
        assert_eq!(handle.idle_lane(&table), Some(0));
        table[0].busy = 1;
        assert_eq!(handle.idle_lane(&table), Some(1));
        table[1].busy = 1;
        table[2].busy = 1;
        assert_eq!(handle.idle_lane(&table), None, "records past the lanes are not looked at");
        assert_eq!(handle.records(&table[..2]).len(), 2);
        handle.lanes = u32::MAX;
        assert_eq!((handle.records(&table).len(), handle.idle_lane(&table)), (5, Some(3)));
    }
}
