//! The figures from which an arena is made.
use crate::table::MAX_LANES;

/// The least length of an arena in bytes. A length is a multiple of 4,096.
pub const MIN_ARENA: usize = 20_480;

/// The greatest length of an arena in bytes.
pub const MAX_ARENA: usize = 16_777_216;

/// The bytes of an info block: the first of an arena, and, as a copy, the last.
pub const INFO_SIZE: usize = 4_096;

/// The bytes of an identifier.
pub const ID_SIZE: usize = 16;

/// The most blocks that an arena has; a work buffer of that length serves every arena.
pub const MAX_BLOCKS: usize = 32_488;

/// The bytes of a sector, each with the bytes of the block that holds it: every pair that there is.
///
/// The bytes of a block, the internal size, are those of a sector rounded up to a multiple of 64. The rest of a block, its bytes after
/// the sector's, is never stored to, and nothing depends on it.
pub const SIZES: [(u32, u32); 5] = [(512, 512), (520, 576), (528, 576), (4096, 4096), (4104, 4160)];

/// The bytes of the longest sector; a buffer of that length has room for a sector of every arena.
pub const MAX_SECTOR: usize = 4_104;

/// The bytes of a block for sectors of so many bytes, or none if there are no such sectors.
///
/// ```
/// use btt::internal_size;
///
/// assert_eq!(internal_size(512), Some(512));
/// assert_eq!(internal_size(520), Some(576));
/// assert_eq!(internal_size(4104), Some(4160));
/// assert_eq!(internal_size(576), None, "of a block, and not of a sector");
/// ```
pub fn internal_size(size: u32) -> Option<u32> {
    SIZES.into_iter().find(|pair| pair.0 == size).map(|pair| pair.1)
}

/// What an arena is made of.
#[derive(Clone, Copy, Debug, PartialEq, Eq, Hash)]
pub struct Geometry {
    /// The bytes of a sector: 512, 520, 528, 4,096 or 4,104. [`internal_size`] gives those of a block.
    pub size: u32,
    /// The number of sectors, at least the lanes.
    pub sectors: u32,
    /// The number of lanes, 1 to 256: how many writes can be in flight at once.
    pub lanes: u32,
}

impl Geometry {
    /// The length in bytes of the arena that these figures make, or none if no arena is made of them.
    ///
    /// This is a convenience for getting memory of the right length: it is worked out here and is not proved.
    /// [`Arena::make`](crate::Arena::make) works the length out itself, by proved code, and answers
    /// [`WrongLength`](crate::Answer::WrongLength) if this differed.
    ///
    /// ```
    /// use btt::Geometry;
    ///
    /// assert_eq!(Geometry { size: 512, sectors: 60, lanes: 4 }.made_length(), Some(49_152));
    /// assert_eq!(Geometry { size: 512, sectors: 1, lanes: 1 }.made_length(), Some(20_480));
    /// assert_eq!(Geometry { size: 520, sectors: 60, lanes: 4 }.made_length(), Some(53_248));
    /// assert_eq!(Geometry { size: 4096, sectors: 1, lanes: 1 }.made_length(), Some(24_576));
    /// assert_eq!(Geometry { size: 4104, sectors: 1, lanes: 1 }.made_length(), Some(28_672));
    /// assert_eq!(Geometry { size: 512, sectors: 256, lanes: 256 }.made_length(), Some(290_816));
    /// assert_eq!(Geometry { size: 512, sectors: 257, lanes: 257 }.made_length(), None);
    /// assert_eq!(Geometry { size: 1024, sectors: 1, lanes: 1 }.made_length(), None);
    /// assert_eq!(Geometry { size: 4096, sectors: 1_000_000, lanes: 1 }.made_length(), None);
    /// ```
    pub fn made_length(&self) -> Option<u64> {
        let Geometry { size, sectors, lanes } = *self;
        let internal = internal_size(size)?;
        if !(1..=MAX_LANES as u32).contains(&lanes) || sectors < lanes {
            return None;
        }
        let [internal, sectors, lanes] = [internal, sectors, lanes].map(u64::from);
        let data = (sectors + lanes) * internal;
        let length = [4096, data, 4 * sectors, 64 * lanes, 4096].map(|part| part.next_multiple_of(4096)).iter().sum();
        (length <= MAX_ARENA as u64).then_some(length)
    }

    /// The figures with the most sectors whose arena is at most so many bytes long, or none if no arena of that size and so many lanes
    /// is.
    ///
    /// ```
    /// use btt::Geometry;
    ///
    /// let most = Geometry::fitting(16_777_216, 4096, 4).unwrap();
    /// assert_eq!(most, Geometry { size: 4096, sectors: 4085, lanes: 4 });
    /// assert_eq!(Geometry::fitting(49_152, 512, 4).unwrap().made_length(), Some(49_152));
    /// assert_eq!(Geometry::fitting(49_152, 520, 4).unwrap().sectors, 52);
    /// assert_eq!(Geometry::fitting(20_479, 512, 1), None);
    /// ```
    pub fn fitting(bytes: u64, size: u32, lanes: u32) -> Option<Geometry> {
        let most = (bytes.min(MAX_ARENA as u64) / u64::from(internal_size(size)?)) as u32;
        let fits = |geometry: &Geometry| geometry.made_length().is_some_and(|length| length <= bytes);
        (lanes..=most).rev().map(|sectors| Geometry { size, sectors, lanes }).find(fits)
    }
}

/// The two identifiers that an arena carries, 16 bytes each; the library has no use for them.
#[derive(Clone, Copy, Debug, PartialEq, Eq, Hash)]
pub struct Identifiers<'a> {
    /// The arena's own, at byte 16 of the info block.
    pub own: &'a [u8],
    /// That of the volume or device around it, at byte 32.
    pub parent: &'a [u8],
}

impl Identifiers<'static> {
    /// Identifiers of zeroes.
    pub const ZEROES: Identifiers<'static> = Identifiers { own: &[0; ID_SIZE], parent: &[0; ID_SIZE] };
}

#[cfg(test)]
mod tests {
    use super::*;

    #[test]
    fn five_numbers_are_sizes() {
        let known: Vec<u32> = (0..=70_000).filter(|size| internal_size(*size).is_some()).collect();
        assert_eq!(known, SIZES.map(|pair| pair.0));
        assert_eq!(known, [512, 520, 528, 4096, 4104]);
        assert!(known.iter().all(|size| internal_size(*size) == Some(size.next_multiple_of(64))));
        assert_eq!(known.iter().max(), Some(&(MAX_SECTOR as u32)));
        assert_eq!([1 << 31, u32::MAX].map(internal_size), [None, None]);
    }

    /// From the shortest arena of a size and so many lanes on there is one for every number of bytes, and with one sector more it is too long.
    #[test]
    fn an_arena_fits_into_every_number_of_bytes() {
        for ((size, _), lanes) in SIZES.into_iter().flat_map(|pair| [1, 4, 256].map(|lanes| (pair, lanes))) {
            let least = Geometry { size, sectors: lanes, lanes }.made_length().unwrap();
            assert_eq!(Geometry::fitting(least - 1, size, lanes), None);
            for bytes in (least..least + 100_000).step_by(1000).chain([1 << 22, MAX_ARENA as u64, u64::MAX]) {
                let most = Geometry::fitting(bytes, size, lanes).unwrap();
                assert!(most.made_length().is_some_and(|length| length <= bytes));
                let more = Geometry { sectors: most.sectors + 1, ..most };
                assert!(more.made_length().is_none_or(|length| length > bytes), "{bytes} bytes, {more:?}");
            }
        }
    }
}
