//! Connections, and the calls on one.
use super::walks::Mood;
use super::Maker;
use crate::entries::*;
use crate::frame::*;
use crate::limits::*;
use crate::record::{Conn, State};
use crate::stream::Answer;

impl Maker {
    pub(super) fn any_conn(&mut self) -> (Conn, Vec<u8>) {
        let mut ring = self.ring_record();
        if self.one_in(4) {
            ring.head = ring.tail;
        }
        let size = ring.size;
        let threshold = match self.below(40) {
            0 => self.pick(&[0, size.wrapping_add(1)]),
            1..20 => self.even(1, size.max(1) as u64) as u32,
            _ => self.pick(&[1, 4, size / 2, size.wrapping_sub(1), size]),
        };
        let fwd_cnt = self.counter(size);
        let less = size.wrapping_sub(threshold);
        let ahead = match self.below(4) {
            0 => self.even(0, size as u64) as u32,
            1 => self.pick(&[0, 3, size, size.wrapping_add(1)]),
            _ => self.pick(&[less.wrapping_sub(1), less, less.wrapping_add(1)]),
        };
        let rx_cnt = self.counter(size);
        let (peer_buf_alloc, peer_fwd_cnt) = self.guest_says(size, rx_cnt);
        let late = [0, 1, MAX_CLOCK_MS, MAX_CLOCK_MS + MAX_TIMEOUT_MS, u64::MAX];
        let expiry = match self.below(8) {
            0..4 => None,
            4 => Some(self.pick(&late)),
            5 => Some(self.below(5_000)),
            _ => Some(self.length(u64::MAX)),
        };
        let pending = self.below(32) as u8;
        let conn = Conn {
            threshold,
            request_ms: self.timeout(),
            shutdown_ms: self.timeout(),
            state: self.state(),
            local_cid: self.cid(),
            peer_cid: self.cid(),
            local_port: self.counter(size),
            peer_port: self.counter(size),
            fwd_cnt,
            peer_buf_alloc,
            peer_fwd_cnt,
            rx_cnt,
            last_fwd_cnt_to_peer: fwd_cnt.wrapping_sub(ahead),
            pending: self.pick(&[0, 8, 8, 24, 16, pending, pending, pending]),
            expiry,
            ring,
        };
        (conn, self.storage(size))
    }

    fn timeout(&mut self) -> u64 {
        match self.below(60) {
            0 => self.pick(&[0, MAX_TIMEOUT_MS + 1, u64::MAX]),
            _ => self.sound_timeout(),
        }
    }

    pub(super) fn sound_timeout(&mut self) -> u64 {
        match self.one_in(2) {
            true => self.even(MIN_TIMEOUT_MS, MAX_TIMEOUT_MS),
            false => self.pick(&[MIN_TIMEOUT_MS, 2_000, MAX_TIMEOUT_MS]),
        }
    }

    fn cid(&mut self) -> u64 {
        match self.one_in(2) {
            true => self.next(),
            false => self.pick(&[0, 2, 3, 1 << 32, u64::MAX]),
        }
    }

    fn state(&mut self) -> State {
        match self.below(12) {
            0 => State::LocalInit,
            1 => State::PeerInit,
            2..6 => State::Established,
            6 => State::LocalClosed,
            7..11 => State::PeerClosed(self.one_in(2), self.one_in(2)),
            _ => State::Killed,
        }
    }

    pub(super) fn credit(&mut self) -> u32 {
        let most = MAX_PKT_BUF_SIZE as u32;
        match self.one_in(2) {
            true => self.length(u32::MAX as u64) as u32,
            false => self.pick(&[0, 0, 1, 2, 7, 40, most - 1, most, most + 1, u32::MAX - 1]),
        }
    }

    /// The guest's allocation and forwarded count, when so much was sent to it. Mostly little is
    /// outstanding; else any count, also of a guest that forwarded more. The allocation leaves room
    /// (if 32 bits do), or is used up, or shrunk below what is outstanding.
    pub(super) fn guest_says(&mut self, size: u32, sent: u32) -> (u32, u32) {
        let fwd_cnt = match self.one_in(3) {
            true => self.counter(size),
            false => sent.wrapping_sub(self.length(1 << 17) as u32),
        };
        let outstanding = sent.wrapping_sub(fwd_cnt);
        let alloc = match self.below(16) {
            0 => outstanding,
            1..5 => outstanding - self.length(outstanding as u64) as u32,
            _ => outstanding.saturating_add(self.credit()),
        };
        (alloc, fwd_cnt)
    }

    fn conn_entry(&mut self) -> u8 {
        match self.below(100) {
            0 if !self.is_long() => NEW_PEER_INIT,
            1 if !self.is_long() => NEW_LOCAL_INIT,
            0..32 => SEND_PKT,
            32..58 => RECV_PKT,
            58..76 => NOTIFY,
            76..79 => SEND_BYTES_RAW,
            79 if self.mood == Mood::Wild => KILL,
            79..82 => HAS_PENDING_RX,
            82..84 => GET_POLLED_EVSET,
            84..86 => WILL_EXPIRE,
            86..88 => HAS_EXPIRED,
            88 => EXPIRY,
            89 => STATE,
            90..93 => SEND_ASKED,
            93..96 => RECV_ASKED,
            96..99 => NOTIFY_ASKED,
            _ => RAW_ASKED,
        }
    }

    pub(super) fn conn_call(&mut self) -> Frame {
        if self.walks {
            self.mood = self.conns[self.walk].mood;
        }
        let entry = self.conn_entry();
        let opens = matches!(entry, NEW_PEER_INIT | NEW_LOCAL_INIT);
        let (mut conn, mut storage) = match self.walks && !opens {
            true => self.conn_walk(),
            false => self.any_conn(),
        };
        while !self.may_meet(entry, conn.ring.size) {
            (conn, storage) = self.any_conn();
        }
        let mut call = Frame::new(entry);
        conn.put(&mut call);
        call.runs[STORAGE] = self.carried(entry, conn.ring.size, storage);
        match entry {
            SEND_PKT | SEND_ASKED => self.packet_in(&mut call, &conn),
            RECV_PKT | RECV_ASKED => self.packet_out(&mut call, &conn),
            NOTIFY | NOTIFY_ASKED => {
                let (held, first) = (conn.ring.held() as u64, conn.ring.first() as u64);
                let rest = held.saturating_sub(first);
                let answers = match self.below(8) {
                    0..2 => [Answer::Count(first), Answer::Count(rest)],
                    2 if self.mood == Mood::Wild => [Answer::Failed, self.answer(rest)],
                    _ => [self.answer(first), self.answer(rest)],
                };
                call.set_answers(answers);
                call.set_yes(at::READABLE, self.one_in(3));
                call.set_yes(at::WRITABLE, !self.one_in(6));
                call.runs[OUT] = self.room(held);
            }
            SEND_BYTES_RAW | RAW_ASKED => {
                let most = MAX_PKT_BUF_SIZE as u64;
                let n = match self.below(60) {
                    0 => most + self.below(2),
                    1..30 => self.length(most),
                    _ => self.below(12),
                };
                call.runs[BYTES] = self.bytes(n as usize);
                let answers = [self.answer(n), self.answer(n)];
                call.set_answers(answers);
                call.runs[OUT] = self.room(n);
            }
            WILL_EXPIRE | HAS_EXPIRED => {
                let clock = self.clock(conn.expiry);
                call.set_u64(at::CLOCK, clock);
            }
            _ => (),
        }
        call
    }
}
