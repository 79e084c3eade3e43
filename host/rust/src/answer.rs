//! The answers of a refused call.
use std::error::Error;
use std::fmt;

/// Why a call was refused. The numbers are those of the library's table; an accepted call has no answer but `Ok`.
///
/// A refused call changes no byte of the arena, of the sector buffer or of the lane table. [`BadRecord`](Answer::BadRecord) is no call's: it
/// says why a [replay](crate::Arena::replay) ended.
///
/// ```
/// use btt::Answer;
///
/// let answer = Answer::from_number(9).unwrap();
/// assert_eq!(answer, Answer::NoSuchSector);
/// assert_eq!(answer.number(), 9);
/// assert_eq!(answer.to_string(), "the arena has no such sector: sectors are numbered from 0 to one less than their count");
/// ```
#[derive(Clone, Copy, Debug, PartialEq, Eq, Hash, PartialOrd, Ord)]
#[repr(u32)]
pub enum Answer {
    /// 1: the length is not allowed, or, in making, not the figure worked out.
    WrongLength = 1,
    /// 2: neither info block is sound.
    NoInfoBlock = 2,
    /// 3: a figure of the info block is forbidden, flags apart. Of the bytes of a sector and of a block, [`SIZES`](crate::SIZES) has the
    /// pairs that are allowed.
    ForbiddenFigure = 3,
    /// 4: flags are not 0.
    FlagsSet = 4,
    /// 5: the work buffer is shorter than the number of blocks.
    ShortWorkBuffer = 5,
    /// 6: a lane has no newer half, or one that is out of range.
    LostLane = 6,
    /// 7: a map word names a block past the last.
    BadMapWord = 7,
    /// 8: mapped and free blocks are not every block once.
    NotValid = 8,
    /// 9: the sector is not below the number of sectors.
    NoSuchSector = 9,
    /// 10: the sector buffer is not a sector long, or an identifier not 16 bytes.
    WrongBuffer = 10,
    /// 11: the lane is not below the number of lanes.
    NoSuchLane = 11,
    /// 12: the lane has a write in flight.
    LaneBusy = 12,
    /// 13: another lane has that sector in flight.
    SectorBusy = 13,
    /// 14: the lane has no write in flight.
    LaneIdle = 14,
    /// 15: the sector read is marked bad: its map word has bit 30 (Error) alone.
    BadSector = 15,
    /// 16: the handle breaks a figure, does not match the arena's length, or has a layout that is neither 16 nor 32; or the record of a
    /// lane is out of range; or an opening of [`sys`](crate::sys) is told such a layout.
    BadHandle = 16,
    /// 18: a map word with neither bit 31 nor bit 30 is not 0, or the padding of a lane is not zero.
    Sloppy = 18,
    /// 20: a record of a run log is short, has another length than its kind, or is of no known kind; or the log is too long.
    BadRecord = 20,
    /// 21: the lane table is shorter than the lanes. It comes after the faults of the handle's figures, and before those of a record.
    ShortTable = 21,
}

impl Answer {
    /// All the answers, in the order of their numbers.
    pub const ALL: [Answer; 19] = [
        Answer::WrongLength,
        Answer::NoInfoBlock,
        Answer::ForbiddenFigure,
        Answer::FlagsSet,
        Answer::ShortWorkBuffer,
        Answer::LostLane,
        Answer::BadMapWord,
        Answer::NotValid,
        Answer::NoSuchSector,
        Answer::WrongBuffer,
        Answer::NoSuchLane,
        Answer::LaneBusy,
        Answer::SectorBusy,
        Answer::LaneIdle,
        Answer::BadSector,
        Answer::BadHandle,
        Answer::Sloppy,
        Answer::BadRecord,
        Answer::ShortTable,
    ];

    /// The answer's number in the library's table, 1 to 16, 18, 20 or 21.
    pub fn number(self) -> u32 {
        self as u32
    }

    /// The answer of that number; none for 0, which is acceptance, and for numbers that the table does not have.
    pub fn from_number(number: u32) -> Option<Answer> {
        Answer::ALL.into_iter().find(|answer| answer.number() == number)
    }

    /// The result that a number of the library stands for.
    pub(crate) fn outcome(number: u32) -> Result<(), Answer> {
        match (number, Answer::from_number(number)) {
            (0, _) => Ok(()),
            (_, Some(answer)) => Err(answer),
            (_, None) => unreachable!("the library answers 0 to 16, 18, 20 or 21, not {number}"),
        }
    }
}

impl fmt::Display for Answer {
    fn fmt(&self, f: &mut fmt::Formatter<'_>) -> fmt::Result {
        f.write_str(match self {
            Answer::WrongLength => {
                "the arena's length is wrong: a multiple of 4,096 from 20,480 to 16,777,216 is allowed, and making needs just the \
                 length that its figures give"
            }
            Answer::NoInfoBlock => "this is no arena: neither its first 4,096 bytes nor its last are a sound info block",
            Answer::ForbiddenFigure => {
                "a figure is forbidden: sectors are of 512, 520, 528, 4,096 or 4,104 bytes, blocks of as many rounded up to a multiple of 64, \
                 lanes are 1 to 256 and not more than sectors, and the parts lie in order"
            }
            Answer::FlagsSet => "the info block has flags set, of which none is known",
            Answer::ShortWorkBuffer => "the work buffer is too short: opening needs a byte for each block, that is for each sector and each lane",
            Answer::LostLane => "the flog of a lane is damaged: it has no newer half, or one that names a sector or a block that is not there",
            Answer::BadMapWord => "the map is damaged: a word of it names a block that is not there",
            Answer::NotValid => "the arena is damaged: some block is mapped or free more than once, and another not at all",
            Answer::NoSuchSector => "the arena has no such sector: sectors are numbered from 0 to one less than their count",
            Answer::WrongBuffer => "the bytes given are not of the right length: a sector's bytes for a sector, 16 for an identifier",
            Answer::NoSuchLane => "the arena has no such lane: lanes are numbered from 0 to one less than their count",
            Answer::LaneBusy => "the lane has a write in flight, and takes another only when that is done",
            Answer::SectorBusy => "another lane has a write to that sector in flight",
            Answer::LaneIdle => "the lane has no write in flight to go on with",
            Answer::BadSector => "the sector is marked bad, and cannot be read until it is written",
            Answer::BadHandle => {
                "the handle does not belong to an arena of this length, or it or the record of a lane is damaged, or the layout told is \
                 neither 16 nor 32"
            }
            Answer::Sloppy => "the arena is sloppy: a map word that should be zero is not, or the padding of a lane in the flog is not zero",
            Answer::BadRecord => {
                "the log has a record that is short, of another length than its kind's or of no known kind, or is longer than 8,192 bytes"
            }
            Answer::ShortTable => "the lane table is too short: every call needs a record in it for each lane of the arena",
        })
    }
}

impl Error for Answer {}

#[cfg(test)]
mod tests {
    use super::Answer;

    #[test]
    fn numbers_go_both_ways() {
        for (answer, number) in Answer::ALL.into_iter().zip((1..=16).chain([18, 20, 21])) {
            assert_eq!(answer.number(), number);
            assert_eq!(Answer::from_number(answer.number()), Some(answer));
            assert_eq!(Answer::outcome(answer.number()), Err(answer));
            assert!(answer.to_string().len() > 20);
        }
        assert_eq!(Answer::from_number(0), None);
        assert!([17, 19, 22, u32::MAX].into_iter().all(|number| Answer::from_number(number).is_none()));
        assert_eq!(Answer::outcome(0), Ok(()));
    }
}
