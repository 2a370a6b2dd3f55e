//! Chance: numbers drawn evenly, by their length in bits, and at the edges.
use super::walks::Mood;
use super::Maker;
use crate::limits::*;
use crate::stream::Answer;

impl Maker {
    pub(super) fn next(&mut self) -> u64 {
        self.state = self.state.wrapping_add(0x9e37_79b9_7f4a_7c15);
        let mut n = self.state;
        n = (n ^ (n >> 30)).wrapping_mul(0xbf58_476d_1ce4_e5b9);
        n = (n ^ (n >> 27)).wrapping_mul(0x94d0_49bb_1331_11eb);
        n ^ (n >> 31)
    }

    pub(super) fn below(&mut self, n: u64) -> u64 {
        self.next() % n
    }

    /// Every number from one to another as often.
    pub(super) fn even(&mut self, from: u64, to: u64) -> u64 {
        from + self.below(to - from + 1)
    }

    pub(super) fn one_in(&mut self, n: u64) -> bool {
        self.below(n) == 0
    }

    pub(super) fn pick<T: Copy>(&mut self, of: &[T]) -> T {
        of[self.below(of.len() as u64) as usize]
    }

    pub(super) fn bytes(&mut self, n: usize) -> Vec<u8> {
        let words = (0..n.div_ceil(8)).flat_map(|_| self.next().to_le_bytes());
        let mut bytes: Vec<u8> = words.collect();
        bytes.truncate(n);
        bytes
    }

    /// A number of up to `most`: of each length in bits as often, at a power of two, or (seldom, as
    /// most of those are large) drawn evenly.
    pub(super) fn length(&mut self, most: u64) -> u64 {
        let bits = 64 - most.saturating_sub(1).leading_zeros();
        let power = 1 << self.below(bits as u64 + 1).min(63);
        let n = match self.below(16) {
            0 => power - 1,
            1 => power + 1,
            2..6 => power,
            6 => self.next() % most.max(1),
            _ => self.below(power),
        };
        n.min(most)
    }

    /// A counter near 0, R, a multiple of it, 2^31 or 2^32; or any.
    pub(super) fn counter(&mut self, size: u32) -> u32 {
        let bases = [
            0,
            5,
            size,
            size.wrapping_mul(2),
            size.wrapping_neg(),
            1 << 31,
            u32::MAX,
        ];
        match self.below(4) {
            0 => self.next() as u32,
            _ => self
                .pick(&bases)
                .wrapping_add(self.below(9) as u32)
                .wrapping_sub(4),
        }
    }

    /// A clock at 0, around the timer, at the largest, or (seldom) past that; or any.
    pub(super) fn clock(&mut self, timer: Option<u64>) -> u64 {
        let t = timer.unwrap_or(3_000).min(MAX_CLOCK_MS - 1);
        match self.below(60) {
            0 => self.pick(&[MAX_CLOCK_MS + 1, u64::MAX]),
            1..5 => MAX_CLOCK_MS - self.below(2),
            5..15 => self.pick(&[0, 1, 1_000]),
            15..40 => self.pick(&[t, t.saturating_sub(1), t + 1]),
            40..50 => self.length(MAX_CLOCK_MS),
            _ => self.below(5_000),
        }
    }

    /// An answer to an offer, or a request, of n bytes; one in ten or so counts too much.
    pub(super) fn answer(&mut self, n: u64) -> Answer {
        let fails = match self.mood {
            Mood::Wild => true,
            Mood::Gentle => self.one_in(10),
            Mood::Steady => false,
        };
        match self.below(20) {
            0..3 => Answer::WouldBlock,
            3..5 if fails => Answer::Failed,
            5..7 => Answer::Count(0),
            7..11 => Answer::Count(self.even(0, n)),
            11..13 => Answer::Count(n.saturating_sub(1)),
            13 => Answer::Count(n + 1),
            14 if self.one_in(4) => Answer::Count(self.pick(&[u64::MAX, 1 << 32, 1 << 63])),
            _ => Answer::Count(n),
        }
    }

    /// A room for the outgoing bytes, mostly enough for n.
    pub(super) fn room(&mut self, n: u64) -> Vec<u8> {
        let n = n.min(self.lent as u64) as usize;
        let length = match self.below(24) {
            0 => 0,
            1 => n.saturating_sub(1),
            2 => n,
            3 => n / 2,
            _ => n + self.below(4) as usize,
        };
        self.bytes(length)
    }
}
