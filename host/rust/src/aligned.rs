//! Bytes at an address that an arena may have.
use std::fmt;
use std::ops::{Deref, DerefMut};
use std::slice;

/// Bytes on the heap whose address is a multiple of 4, as an arena's must be. A `Vec<u8>` does not promise that.
///
/// ```
/// use btt::{AlignedBytes, Arena};
///
/// let mut memory = AlignedBytes::from(&[1, 2, 3][..]);
/// assert_eq!(&memory[..], [1, 2, 3]);
/// assert!(Arena::new(&mut memory).is_ok());
/// ```
#[derive(Clone, Default, PartialEq, Eq)]
pub struct AlignedBytes {
    words: Vec<u32>,
    length: usize,
}

impl AlignedBytes {
    /// So many zeroes.
    pub fn zeroed(length: usize) -> AlignedBytes {
        AlignedBytes { words: vec![0; length.div_ceil(4)], length }
    }
}

impl From<&[u8]> for AlignedBytes {
    fn from(bytes: &[u8]) -> AlignedBytes {
        let mut copy = AlignedBytes::zeroed(bytes.len());
        copy.copy_from_slice(bytes);
        copy
    }
}

impl Deref for AlignedBytes {
    type Target = [u8];

    fn deref(&self) -> &[u8] {
        // SAFETY: the words hold at least `length` bytes, every byte of them is initialised, and they live as long as `self`.
        unsafe { slice::from_raw_parts(self.words.as_ptr().cast(), self.length) }
    }
}

impl DerefMut for AlignedBytes {
    fn deref_mut(&mut self) -> &mut [u8] {
        // SAFETY: as above; any bytes make words, and `self` is borrowed for as long as the bytes are.
        unsafe { slice::from_raw_parts_mut(self.words.as_mut_ptr().cast(), self.length) }
    }
}

impl fmt::Debug for AlignedBytes {
    fn fmt(&self, f: &mut fmt::Formatter<'_>) -> fmt::Result {
        write!(f, "AlignedBytes({} bytes)", self.length)
    }
}

#[cfg(test)]
mod tests {
    use super::AlignedBytes;

    #[test]
    fn every_length_is_held() {
        for length in 0..20 {
            let bytes: Vec<u8> = (1..=length).collect();
            let mut held = AlignedBytes::from(&bytes[..]);
            assert_eq!(&held[..], &bytes[..]);
            assert_eq!(held.as_ptr() as usize % 4, 0);
            held.fill(0);
            assert_eq!(held, AlignedBytes::zeroed(bytes.len()));
        }
    }
}
