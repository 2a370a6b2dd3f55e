//! Walks, in which each call is given what the last one left. Of connections and rings there are two
//! at a time: one that opens anew every fifty calls or so, and one that starts just below 2^32, where
//! the counters wrap, and goes on for thousands of calls.
use super::ring::WALKED;
use super::Maker;
use crate::entries::*;
use crate::frame::*;
use crate::limits::*;
use crate::record::*;

/// How much goes wrong in a walk: as much as may, little, or nothing that would end it.
#[derive(Clone, Copy, PartialEq)]
pub(super) enum Mood {
    Wild,
    Gentle,
    Steady,
}

/// Where a walk is.
#[derive(Clone)]
pub(super) struct Walk<T> {
    pub(super) record: T,
    pub(super) storage: Vec<u8>,
    pub(super) mood: Mood,
    /// How many calls a long one still has.
    left: u64,
}

impl<T> Walk<T> {
    pub(super) fn from(place: (T, Vec<u8>)) -> Self {
        Walk {
            record: place.0,
            storage: place.1,
            mood: Mood::Wild,
            left: 0,
        }
    }
}

/// The place of the long walks.
const LONG: usize = 1;

impl Maker {
    /// Whether the call that is being made belongs to a long walk, which makes no opening.
    pub(super) fn is_long(&self) -> bool {
        self.walks && self.walk == LONG
    }

    /// Where the connection's walk is; a long one starts anew at its end.
    pub(super) fn conn_walk(&mut self) -> (Conn, Vec<u8>) {
        if self.walk == LONG {
            let walk = &self.conns[LONG];
            if walk.left == 0 || walk.record.state != State::Established {
                self.conns[LONG] = Walk::from(self.old_conn());
                self.conns[LONG].mood = Mood::Steady;
                self.conns[LONG].left = self.even(2_000, 6_000);
            }
            self.conns[LONG].left -= 1;
        }
        let walk = &self.conns[self.walk];
        (walk.record.clone(), walk.storage.clone())
    }

    pub(super) fn ring_walk(&mut self) -> (Ring, Vec<u8>) {
        if self.walk == LONG {
            if self.rings[LONG].left == 0 {
                self.rings[LONG] = Walk::from(self.old_ring());
                self.rings[LONG].left = self.even(2_000, 6_000);
            }
            self.rings[LONG].left -= 1;
        }
        let walk = &self.rings[self.walk];
        (walk.record.clone(), walk.storage.clone())
    }

    /// A counter so far below 2^32 that a walk on a ring of this size comes to it.
    fn old_counter(&mut self, size: u32) -> u32 {
        (self.length(64 * size as u64) as u32).wrapping_neg()
    }

    /// A ring in use. Its size is small, as every call of the walk carries it.
    fn old_ring(&mut self) -> (Ring, Vec<u8>) {
        let size = MIN_RING_SIZE << self.below(7);
        let tail = self.old_counter(size);
        let head = tail.wrapping_add(self.even(0, size as u64) as u32);
        let storage = self.bytes(size as usize);
        (Ring { size, head, tail }, storage)
    }

    /// A connection that has been talking for long: all its counters stand below 2^32.
    fn old_conn(&mut self) -> (Conn, Vec<u8>) {
        let (mut conn, _) = self.any_conn();
        let (ring, storage) = self.old_ring();
        conn.state = State::Established;
        conn.threshold = self.even(1, ring.size as u64) as u32;
        conn.request_ms = self.sound_timeout();
        conn.shutdown_ms = self.sound_timeout();
        conn.fwd_cnt = self.old_counter(ring.size);
        conn.last_fwd_cnt_to_peer = conn.fwd_cnt.wrapping_sub(self.below(9) as u32);
        conn.rx_cnt = self.old_counter(ring.size);
        conn.peer_fwd_cnt = conn.rx_cnt;
        conn.peer_buf_alloc = self.credit();
        conn.pending = 0;
        conn.ring = ring;
        (conn, storage)
    }

    /// What a call left is where its walk goes on.
    pub(super) fn go_on(&mut self, reply: &Frame) {
        let ring = &mut self.rings[self.walk];
        let conn = &mut self.conns[self.walk];
        match reply.entry() {
            RING_NEW | NEW_PEER_INIT | NEW_LOCAL_INIT if reply.u32(at::SIZE) > WALKED => (),
            RING_NEW => {
                ring.record = Ring::read(reply);
                ring.storage = vec![0; ring.record.size as usize];
            }
            RING_PUSH | RING_FLUSH_TO => {
                ring.record = Ring::read(reply);
                ring.storage = reply.runs[STORAGE].clone();
            }
            NEW_PEER_INIT | NEW_LOCAL_INIT => {
                conn.record = Conn::read(reply);
                conn.storage = vec![0; conn.record.ring.size as usize];
                let wild = self.one_in(4);
                self.conns[self.walk].mood = if wild { Mood::Wild } else { Mood::Gentle };
            }
            SEND_PKT | RECV_PKT | NOTIFY | KILL => {
                conn.record = Conn::read(reply);
                conn.storage = reply.runs[STORAGE].clone();
            }
            RXQ_NEW | RXQ_FROM_CONN_MAP | RXQ_PUSH | RXQ_POP => self.rxq = Queue::read(reply),
            KILLQ_NEW | KILLQ_FROM_CONN_MAP | KILLQ_PUSH | KILLQ_POP => {
                self.killq = Queue::read(reply)
            }
            _ => (),
        }
    }
}
