//! Rings, and calls on a ring by itself.
use super::Maker;
use crate::entries::*;
use crate::frame::*;
use crate::limits::*;
use crate::record::Ring;

/// The largest ring that is walked on, as every call of a walk carries its storage. Larger ones are
/// met by single calls, and only those that lend the storage carry it.
pub(super) const WALKED: u32 = MAX_PKT_BUF_SIZE as u32;

impl Maker {
    /// A size: small ones most often, as their edges are near; at times one over those that are walked
    /// on, more often where such are lent; seldom one that is out of range.
    fn size(&mut self) -> u32 {
        let wrong = [
            0,
            MIN_RING_SIZE / 2,
            MIN_RING_SIZE - 1,
            MIN_RING_SIZE + 1,
            MIN_RING_SIZE + 8,
            MAX_RING_SIZE - 1,
            MAX_RING_SIZE + 1,
            MAX_RING_SIZE.wrapping_mul(2),
            u32::MAX,
        ];
        let powers = (MAX_RING_SIZE / MIN_RING_SIZE).ilog2() as u64;
        let large = if self.lent > WALKED { 19 } else { 12 };
        match self.below(100) {
            0 => self.pick(&wrong),
            1..3 => WALKED,
            3..9 => MIN_RING_SIZE << self.even(0, powers),
            n @ 9..40 if n < large => {
                WALKED << self.even(1, (MAX_RING_SIZE / WALKED).ilog2() as u64)
            }
            9..40 => MIN_RING_SIZE << self.below(5),
            _ => MIN_RING_SIZE,
        }
    }

    /// The bytes of a ring's storage: as many as its size, but for a few.
    pub(super) fn storage(&mut self, size: u32) -> Vec<u8> {
        let size = size.min(self.lent) as usize;
        let length = match self.below(200) {
            0 => size + 1,
            1 => size.saturating_sub(1),
            2 => 0,
            _ => size,
        };
        match self.one_in(12) {
            true => vec![0; length],
            false => self.bytes(length),
        }
    }

    /// Whether a call may meet a ring of this size: not where it would lend more than is lent.
    pub(super) fn may_meet(&self, entry: u8, size: u32) -> bool {
        !lends(entry) || size <= self.lent || !Ring::is_size(size)
    }

    /// What of a storage the call's frame carries: little, where that of a large ring is not lent.
    pub(super) fn carried(&self, entry: u8, size: u32, mut storage: Vec<u8>) -> Vec<u8> {
        if size > WALKED && !lends(entry) {
            storage.truncate(MIN_RING_SIZE as usize);
        }
        storage
    }

    pub(super) fn any_ring(&mut self) -> (Ring, Vec<u8>) {
        let ring = self.ring_record();
        let storage = self.storage(ring.size);
        (ring, storage)
    }

    pub(super) fn ring_record(&mut self) -> Ring {
        let size = self.size();
        let tail = self.counter(size);
        let held = match self.below(80) {
            0 => size.wrapping_add(1),
            1 => u32::MAX,
            2..22 => 0,
            22..34 => size,
            34..42 => size.wrapping_sub(1),
            42..50 => 1,
            _ => self.below(size.max(1) as u64) as u32,
        };
        Ring {
            size,
            head: tail.wrapping_add(held),
            tail,
        }
    }

    pub(super) fn ring_call(&mut self) -> Frame {
        let entry = match self.below(40) {
            0 if !self.is_long() => RING_NEW,
            0..4 => RING_LEN,
            4..7 => RING_IS_EMPTY,
            7..22 => RING_PUSH,
            22..36 => RING_FLUSH_TO,
            36..38 => RING_FIRST_PIECE,
            _ => RING_SECOND_PIECE,
        };
        let (mut ring, mut storage) = match self.walks {
            true => self.ring_walk(),
            false => self.any_ring(),
        };
        while !self.may_meet(entry, ring.size) {
            (ring, storage) = self.any_ring();
        }
        let mut call = Frame::new(entry);
        ring.put(&mut call);
        call.runs[STORAGE] = self.carried(entry, ring.size, storage);
        let held = ring.held() as u64;
        let first = ring.first() as u64;
        match entry {
            RING_NEW => {
                let size = self.size();
                call.set_u32(at::SIZE, size);
                let storage = self.storage(size);
                call.runs[STORAGE] = self.carried(entry, size, storage);
            }
            RING_PUSH => {
                let most = MAX_PKT_BUF_SIZE as u64;
                let room = (ring.size as u64).saturating_sub(held).min(most);
                let n = match self.below(60) {
                    0 => most + self.below(2),
                    1..20 => self.even(0, room),
                    _ => self.pick(&[0, 1, room, room, room + 1, room.saturating_sub(1), room / 2]),
                };
                call.runs[BYTES] = self.bytes(n.min(most + 1) as usize);
            }
            RING_FLUSH_TO => {
                let answers = [self.answer(first), self.answer(held.saturating_sub(first))];
                call.set_answers(answers);
                call.runs[OUT] = self.room(held);
            }
            _ => (),
        }
        call
    }
}
