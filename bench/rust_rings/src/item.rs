//! The items of the rings.

pub trait Item: Copy + PartialEq + Ord + std::hash::Hash + 'static {
    fn numbered(number: u64) -> Self;
    fn number(&self) -> u64;
}

impl Item for u8 {
    #[inline]
    fn numbered(number: u64) -> u8 {
        number as u8
    }

    #[inline]
    fn number(&self) -> u64 {
        u64::from(*self)
    }
}

impl Item for u64 {
    #[inline]
    fn numbered(number: u64) -> u64 {
        number
    }

    #[inline]
    fn number(&self) -> u64 {
        *self
    }
}

impl<const N: usize> Item for [u64; N] {
    #[inline]
    fn numbered(number: u64) -> [u64; N] {
        [number; N]
    }

    #[inline]
    fn number(&self) -> u64 {
        self[N - 1]
    }
}
