//! The records of 01, from and to frames, and when each is sound: rings and connections here.
mod queue;

pub use queue::{limits, table, Item, Queue, Slot};

use crate::frame::{at, Frame};
use crate::limits::*;

#[derive(Clone, Copy, Debug, PartialEq)]
pub enum State {
    LocalInit,
    PeerInit,
    Established,
    LocalClosed,
    PeerClosed(bool, bool),
    Killed,
}

impl State {
    pub fn read(frame: &Frame) -> Self {
        match frame.u8(at::STATE) {
            0 => State::LocalInit,
            1 => State::PeerInit,
            2 => State::Established,
            3 => State::LocalClosed,
            4 => State::PeerClosed(frame.yes(at::RECV_OFF), frame.yes(at::SEND_OFF)),
            _ => State::Killed,
        }
    }

    pub fn put(&self, frame: &mut Frame) {
        let (number, recv_off, send_off) = match *self {
            State::LocalInit => (0, false, false),
            State::PeerInit => (1, false, false),
            State::Established => (2, false, false),
            State::LocalClosed => (3, false, false),
            State::PeerClosed(recv_off, send_off) => (4, recv_off, send_off),
            State::Killed => (5, false, false),
        };
        frame.set_u8(at::STATE, number);
        frame.set_yes(at::RECV_OFF, recv_off);
        frame.set_yes(at::SEND_OFF, send_off);
    }
}

pub fn timer(frame: &Frame) -> Option<u64> {
    frame.yes(at::TIMER_SET).then(|| frame.u64(at::TIME))
}

pub fn put_timer(frame: &mut Frame, timer: Option<u64>) {
    frame.set_yes(at::TIMER_SET, timer.is_some());
    frame.set_u64(at::TIME, timer.unwrap_or(0));
}

#[derive(Clone, Debug, PartialEq)]
pub struct Ring {
    pub size: u32,
    pub head: u32,
    pub tail: u32,
}

impl Ring {
    pub fn read(frame: &Frame) -> Self {
        Ring {
            size: frame.u32(at::SIZE),
            head: frame.u32(at::HEAD_CNT),
            tail: frame.u32(at::TAIL_CNT),
        }
    }

    pub fn put(&self, frame: &mut Frame) {
        frame.set_u32(at::SIZE, self.size);
        frame.set_u32(at::HEAD_CNT, self.head);
        frame.set_u32(at::TAIL_CNT, self.tail);
    }

    pub fn held(&self) -> u32 {
        self.head.wrapping_sub(self.tail)
    }

    /// The length of the piece that is offered first.
    pub fn first(&self) -> u32 {
        match self.size {
            0 => 0,
            size => self.held().min(size - self.tail % size),
        }
    }

    pub fn is_size(size: u32) -> bool {
        size.is_power_of_two() && (MIN_RING_SIZE..=MAX_RING_SIZE).contains(&size)
    }

    pub fn is_sound(&self) -> bool {
        Ring::is_size(self.size) && self.held() <= self.size
    }
}

#[derive(Clone, Debug, PartialEq)]
pub struct Conn {
    pub ring: Ring,
    pub threshold: u32,
    pub request_ms: u64,
    pub shutdown_ms: u64,
    pub state: State,
    pub local_cid: u64,
    pub peer_cid: u64,
    pub local_port: u32,
    pub peer_port: u32,
    pub fwd_cnt: u32,
    pub peer_buf_alloc: u32,
    pub peer_fwd_cnt: u32,
    pub rx_cnt: u32,
    pub last_fwd_cnt_to_peer: u32,
    pub pending: u8,
    pub expiry: Option<u64>,
}

impl Conn {
    pub fn read(frame: &Frame) -> Self {
        Conn {
            ring: Ring::read(frame),
            threshold: frame.u32(at::THRESHOLD),
            request_ms: frame.u64(at::REQUEST_MS),
            shutdown_ms: frame.u64(at::SHUTDOWN_MS),
            state: State::read(frame),
            local_cid: frame.u64(at::LOCAL_CID),
            peer_cid: frame.u64(at::PEER_CID),
            local_port: frame.u32(at::LOCAL_PORT),
            peer_port: frame.u32(at::PEER_PORT),
            fwd_cnt: frame.u32(at::FWD_CNT),
            peer_buf_alloc: frame.u32(at::PEER_BUF_ALLOC),
            peer_fwd_cnt: frame.u32(at::PEER_FWD_CNT),
            rx_cnt: frame.u32(at::RX_CNT),
            last_fwd_cnt_to_peer: frame.u32(at::LAST_FWD_CNT),
            pending: frame.u8(at::PENDING) & 31,
            expiry: timer(frame),
        }
    }

    pub fn put(&self, frame: &mut Frame) {
        self.ring.put(frame);
        self.state.put(frame);
        put_timer(frame, self.expiry);
        frame.set_u32(at::THRESHOLD, self.threshold);
        frame.set_u64(at::REQUEST_MS, self.request_ms);
        frame.set_u64(at::SHUTDOWN_MS, self.shutdown_ms);
        frame.set_u64(at::LOCAL_CID, self.local_cid);
        frame.set_u64(at::PEER_CID, self.peer_cid);
        frame.set_u32(at::LOCAL_PORT, self.local_port);
        frame.set_u32(at::PEER_PORT, self.peer_port);
        frame.set_u32(at::FWD_CNT, self.fwd_cnt);
        frame.set_u32(at::PEER_BUF_ALLOC, self.peer_buf_alloc);
        frame.set_u32(at::PEER_FWD_CNT, self.peer_fwd_cnt);
        frame.set_u32(at::RX_CNT, self.rx_cnt);
        frame.set_u32(at::LAST_FWD_CNT, self.last_fwd_cnt_to_peer);
        frame.set_u8(at::PENDING, self.pending);
    }

    /// What was sent and is not yet forwarded at the guest.
    fn outstanding(&self) -> u32 {
        self.rx_cnt.wrapping_sub(self.peer_fwd_cnt)
    }

    pub fn credit(&self) -> u32 {
        self.peer_buf_alloc.saturating_sub(self.outstanding())
    }

    /// The guest allocates less than is outstanding.
    pub fn is_shrunk(&self) -> bool {
        self.peer_buf_alloc < self.outstanding()
    }

    /// Data is what a turn comes to first, in a state that gives it.
    pub fn data_first(&self) -> bool {
        let gives = matches!(self.state, State::Established | State::PeerClosed(false, _));
        gives && self.pending & 15 == 8
    }

    /// The guest's data is taken.
    pub fn takes(&self) -> bool {
        matches!(self.state, State::Established | State::PeerClosed(_, false))
    }

    /// The threshold rule: the guest would be told of freed space.
    pub fn falls_short(&self) -> bool {
        let ahead = self.fwd_cnt.wrapping_sub(self.last_fwd_cnt_to_peer);
        self.ring.size.wrapping_sub(ahead) < self.threshold
    }

    /// The state is one in which data is polled for.
    pub fn polls(&self) -> bool {
        let closed = matches!(self.state, State::LocalClosed | State::PeerClosed(true, _));
        !closed && self.state != State::Killed
    }

    pub fn has_settings(&self) -> bool {
        let is_timeout = |ms| (MIN_TIMEOUT_MS..=MAX_TIMEOUT_MS).contains(&ms);
        Ring::is_size(self.ring.size)
            && (MIN_THRESHOLD..=self.ring.size).contains(&self.threshold)
            && is_timeout(self.request_ms)
            && is_timeout(self.shutdown_ms)
    }

    pub fn is_sound(&self) -> bool {
        self.has_settings() && self.ring.is_sound()
    }
}
