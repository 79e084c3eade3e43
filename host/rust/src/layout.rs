//! The two layouts of a lane's pair in the flog.
use std::error::Error;
use std::fmt;

/// Where a lane keeps the second half of its pair in the flog.
///
/// A lane has 64 bytes there: two halves of 16 bytes and padding, which is zero. The first half stands at byte 0. Nothing in an arena
/// says where the second stands, so the caller says it at opening, and the [handle](crate::Handle::layout) carries it. An arena that
/// is just made opens in both layouts. From the first write that reaches a lane's second half on it opens in one only: in the other
/// that half is padding, and the answer is [`Sloppy`](crate::Answer::Sloppy) where none before it applies.
///
/// ```
/// use btt::Layout;
///
/// assert_eq!(Layout::default(), Layout::Near);
/// assert_eq!(Layout::Far.bytes(), 32);
/// assert_eq!(Layout::try_from(16), Ok(Layout::Near));
/// assert_eq!(Layout::try_from(48).unwrap_err().to_string(), "the layout is 16 or 32, not 48");
/// ```
#[derive(Clone, Copy, Debug, Default, PartialEq, Eq, Hash)]
#[repr(u32)]
pub enum Layout {
    /// At byte 16, next to the first half: what [`Arena::open`](crate::Arena::open) takes, and [`Arena::replay`](crate::Arena::replay)
    /// always.
    #[default]
    Near = 16,
    /// At byte 32, 16 bytes of padding after the first half.
    Far = 32,
}

impl Layout {
    /// Both layouts.
    pub const ALL: [Layout; 2] = [Layout::Near, Layout::Far];

    /// The bytes from a lane's first half to its second, 16 or 32: the number by which the library knows the layout.
    pub fn bytes(self) -> u32 {
        self as u32
    }
}

/// A number that is no layout.
#[derive(Clone, Copy, Debug, PartialEq, Eq, Hash)]
pub struct UnknownLayout(pub u32);

impl fmt::Display for UnknownLayout {
    fn fmt(&self, f: &mut fmt::Formatter<'_>) -> fmt::Result {
        write!(f, "the layout is 16 or 32, not {}", self.0)
    }
}

impl Error for UnknownLayout {}

impl TryFrom<u32> for Layout {
    type Error = UnknownLayout;

    fn try_from(bytes: u32) -> Result<Layout, UnknownLayout> {
        Layout::ALL.into_iter().find(|layout| layout.bytes() == bytes).ok_or(UnknownLayout(bytes))
    }
}

#[cfg(test)]
mod tests {
    use super::*;

    #[test]
    fn two_numbers_are_layouts() {
        let known: Vec<u32> = (0..=70_000).filter(|bytes| Layout::try_from(*bytes).is_ok()).collect();
        assert_eq!(known, [16, 32]);
        assert_eq!(known, Layout::ALL.map(Layout::bytes));
        assert_eq!(Layout::try_from(u32::MAX), Err(UnknownLayout(u32::MAX)));
    }
}
