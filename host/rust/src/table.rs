//! The records of the lanes, and the table that holds them.
use std::ops::{Deref, DerefMut};

/// The most lanes that an arena has; a table of as many records serves every arena.
pub const MAX_LANES: usize = 256;

/// The bytes of a lane's record.
pub const LANE_SIZE: usize = 28;

/// The record of one lane.
///
/// A table is a slice of records, which the caller lends to every call with a [`Handle`](crate::Handle): record n is that of lane n. It
/// needs as many as the arena has lanes, else the answer is [`ShortTable`](crate::Answer::ShortTable). Those past the lanes are any
/// values: no call looks at them, and none changes them.
///
/// Opening, the last step of a write and a whole write leave the sector, the old block and the stores made of an idle lane at 0.
#[derive(Clone, Copy, Debug, Default, PartialEq, Eq, Hash)]
#[repr(C)]
pub struct Lane {
    /// 1 with a write in flight, else 0.
    pub busy: u32,
    /// The free block; of a write in flight, its new block.
    pub block: u32,
    /// The half of the lane's pair in the flog that is written next: 0 or 1.
    pub half: u32,
    /// The sequence number that is written next: 1, 2 or 3.
    pub sequence: u32,
    /// Of a write in flight, its sector.
    pub sector: u32,
    /// Of a write in flight, the block that the map had for the sector.
    pub old: u32,
    /// Of a write in flight, how many of its stores are made.
    pub made: u32,
}

const _: () = assert!(size_of::<Lane>() == LANE_SIZE && align_of::<Lane>() == 4);

impl Lane {
    /// Whether the lane has no write in flight.
    pub fn is_idle(&self) -> bool {
        self.busy == 0
    }
}

/// The table of an [`OpenArena`](crate::OpenArena): records that the caller lent, or records on the heap.
#[derive(Debug)]
pub enum Table<'a> {
    /// The caller's own, as many as were lent.
    Lent(&'a mut [Lane]),
    /// Just as many as the arena has lanes.
    Owned(Box<[Lane]>),
}

impl Deref for Table<'_> {
    type Target = [Lane];

    fn deref(&self) -> &[Lane] {
        match self {
            Table::Lent(records) => records,
            Table::Owned(records) => records,
        }
    }
}

impl DerefMut for Table<'_> {
    fn deref_mut(&mut self) -> &mut [Lane] {
        match self {
            Table::Lent(records) => records,
            Table::Owned(records) => records,
        }
    }
}

#[cfg(test)]
mod tests {
    use super::*;

    #[test]
    fn a_table_is_its_records_lent_or_owned() {
        let mut records = [Lane { block: 5, ..Lane::default() }, Lane { busy: 1, ..Lane::default() }];
        let owned = Table::Owned(records.into());
        let mut lent = Table::Lent(&mut records);
        assert_eq!(lent[..], owned[..]);
        assert_eq!([lent[0].is_idle(), lent[1].is_idle()], [true, false]);
        lent[1].made = 9;
        assert_eq!((records[1].made, owned[1].made), (9, 0));
    }
}
