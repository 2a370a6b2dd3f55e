//! Packets: what a send is given, what a turn to speak is given, and headers by themselves.
use super::walks::Mood;
use super::Maker;
use crate::entries::*;
use crate::frame::*;
use crate::limits::*;
use crate::record::Conn;
use crate::stream::Answer;

const MOST: u64 = MAX_PKT_BUF_SIZE as u64;

impl Maker {
    fn hdr_bytes(&mut self, wrong: u64) -> Vec<u8> {
        let n = match self.one_in(wrong) {
            true => self.pick(&[0, VSOCK_PKT_HDR_SIZE - 1, VSOCK_PKT_HDR_SIZE + 1, 64]),
            false => VSOCK_PKT_HDR_SIZE,
        };
        self.bytes(n)
    }

    /// A packet of the guest's.
    pub(super) fn packet_in(&mut self, call: &mut Frame, conn: &Conn) {
        let held = conn.ring.held() as u64;
        let room = (conn.ring.size as u64).saturating_sub(held).min(MOST);
        let len = self.payload(room);
        let buf_len = match self.below(60) {
            0 => MOST + self.below(2),
            1..4 => len.saturating_sub(1),
            4..10 => len + self.below(9),
            10 => 0,
            _ => len,
        };
        let lack = len.saturating_sub(room);
        let first = match self.below(6) {
            0 => Answer::Count(lack),
            1 => Answer::Count(lack.saturating_sub(1)),
            2 if self.mood == Mood::Wild => Answer::Failed,
            _ => self.answer(len),
        };
        call.set_answers([first, self.answer(3)]);
        let clock = self.clock(conn.expiry);
        call.set_u64(at::CLOCK, clock);
        call.set_yes(at::PRESENT, !self.one_in(12));
        call.runs[BUF] = self.bytes(buf_len as usize);
        call.runs[OUT] = self.room(len);
        call.runs[HDR] = self.hdr_bytes(150);
        if call.runs[HDR].len() == VSOCK_PKT_HDR_SIZE {
            self.fill_hdr(&mut call.runs[HDR], conn, len);
        }
    }

    /// The length of a packet: around what the ring has room for, or any.
    fn payload(&mut self, room: u64) -> u64 {
        let near = [
            0,
            1,
            5,
            room,
            room,
            room.saturating_sub(1),
            room + 1,
            2 * room,
        ];
        let len = match self.below(100) {
            0..30 => self.length(MOST),
            30..34 => self.page(),
            34..46 => room + self.below(5),
            46..56 => self.even(0, room),
            _ => self.pick(&near),
        };
        match self.mood {
            Mood::Wild => len.min(MOST),
            _ => len.min(room),
        }
    }

    /// A page, as guests like to fill, or a byte beside it.
    fn page(&mut self) -> u64 {
        self.even(4_095, 4_097)
    }

    fn op(&mut self) -> u16 {
        let shuts = match self.mood {
            Mood::Wild => true,
            Mood::Gentle => self.one_in(6),
            Mood::Steady => false,
        };
        match self.below(20) {
            0..12 => 5,
            12..16 if shuts => 4,
            16 if shuts => self.next() as u16,
            _ => self.pick(&[0, 1, 2, 2, 3, 6, 7, 7, 8, 0x0105, 0x0502, u16::MAX]),
        }
    }

    fn fill_hdr(&mut self, hdr: &mut [u8], conn: &Conn, len: u64) {
        let op = self.op();
        let flags = match self.below(8) {
            0 => self.next() as u32,
            1..4 => 3,
            _ => self.below(4) as u32,
        };
        let (alloc, fwd_cnt) = self.guest_says(conn.ring.size, conn.rx_cnt);
        let len = match self.one_in(80) {
            true => self.next() as u32,
            false => len as u32,
        };
        hdr[24..28].copy_from_slice(&len.to_le_bytes());
        hdr[30..32].copy_from_slice(&op.to_le_bytes());
        hdr[32..36].copy_from_slice(&flags.to_le_bytes());
        hdr[36..40].copy_from_slice(&alloc.to_le_bytes());
        hdr[40..44].copy_from_slice(&fwd_cnt.to_le_bytes());
    }

    /// A turn to speak. In a steady walk no read is of 0 bytes, as that would close the connection.
    pub(super) fn packet_out(&mut self, call: &mut Frame, conn: &Conn) {
        let steady = self.mood == Mood::Steady;
        let buf_len = match self.below(100) {
            0 => self.pick(&[MOST - 1, MOST, MOST, MOST + 1]),
            1..46 => self.length(MOST),
            46..50 => self.page(),
            _ => self.pick(&[0, 1, 2, 7, 8, 20, 40]),
        };
        let buf_len = buf_len.max(steady as u64);
        let ask = buf_len.min(conn.credit() as u64);
        let answer = match self.answer(ask) {
            Answer::Count(0) if steady => Answer::Count(ask),
            answer => answer,
        };
        let supplied = match answer {
            Answer::Count(n) if n <= MOST => match self.below(20) {
                0 => n.saturating_sub(1),
                1..4 => n + 3,
                _ => n,
            },
            _ => self.below(4),
        };
        call.set_answer(at::FIRST_KIND, at::FIRST_COUNT, answer);
        let clock = self.clock(conn.expiry);
        call.set_u64(at::CLOCK, clock);
        call.set_yes(at::PRESENT, !self.one_in(5));
        call.runs[BUF] = self.bytes(buf_len as usize);
        call.runs[BYTES] = self.bytes(supplied as usize);
        call.runs[HDR] = self.hdr_bytes(150);
    }

    pub(super) fn hdr_call(&mut self) -> Frame {
        let mut call = Frame::new(self.pick(&[HDR_READ, HDR_WRITE]));
        for place in (12..56).step_by(4) {
            call.set_u32(place, self.next() as u32);
        }
        call.set_u32(at::HEAD_CNT, self.below(1 << 16) as u32);
        call.set_u32(at::TAIL_CNT, self.below(1 << 16) as u32);
        call.set_u64(at::LOCAL_CID, self.next());
        call.set_u64(at::PEER_CID, self.next());
        call.runs[HDR] = self.hdr_bytes(30);
        call
    }
}
