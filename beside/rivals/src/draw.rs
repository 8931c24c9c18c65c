//! The numbers that choose keys and calls. The library's side draws the same ones.

/// Spreads the first keys of a map over all keys.
pub const SCATTER: u64 = 2_654_435_761;

/// Numbers that look random, by shifts of one word.
pub struct Draw(u64);

impl Draw {
    pub fn of(thread: u64, round: u64) -> Draw {
        Draw(0x9E37_79B9_7F4A_7C15u64.wrapping_mul(thread + 1) ^ (round << 17) ^ 0x1234_5678)
    }

    #[inline(always)]
    pub fn number(&mut self) -> u64 {
        self.0 ^= self.0 << 13;
        self.0 ^= self.0 >> 7;
        self.0 ^= self.0 << 17;
        self.0
    }
}

/// The key that a number chooses, below `SPACE`: each as often as any other; or, with `SKEW` 15, about by Zipf's law,
/// half as often as one that is half as large.
#[inline(always)]
pub fn key<const SPACE: u64, const SKEW: u64>(number: u64) -> u64 {
    ((number >> 32) * (SPACE >> ((number & SKEW) % 16)).max(1)) >> 32
}

/// Which of a hundred calls a number chooses.
#[inline(always)]
pub fn percent(number: u64) -> u64 {
    (((number >> 16) & 0xFFFF) * 100) >> 16
}
