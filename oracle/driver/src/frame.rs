//! Frames: a call or a reply as bytes (oracle/FRAMES.md).
use std::io::{Read, Result, Write};

use crate::stream::Answer;

pub const HEAD: usize = 144;
pub const LENGTHS: usize = 120;

/// Places in a head; where two names share one, no entry uses both.
pub mod at {
    pub const ENTRY: usize = 0;
    pub const MARK: usize = 1;
    pub const FIRST_KIND: usize = 2;
    pub const SECOND_KIND: usize = 3;
    pub const NUMBER: usize = 2;
    pub const WHICH: usize = 3;
    pub const STATE: usize = 4;
    pub const SYNCED: usize = 4;
    pub const RECV_OFF: usize = 5;
    pub const RST: usize = 5;
    pub const SEND_OFF: usize = 6;
    pub const PENDING: usize = 7;
    pub const TIMER_SET: usize = 8;
    pub const PRESENT: usize = 9;
    pub const FOUND: usize = 9;
    pub const READABLE: usize = 10;
    pub const WRITABLE: usize = 11;
    pub const SIZE: usize = 12;
    pub const HEAD_CNT: usize = 16;
    pub const TAIL_CNT: usize = 20;
    pub const THRESHOLD: usize = 24;
    pub const LOCAL_PORT: usize = 28;
    pub const PEER_PORT: usize = 32;
    pub const FWD_CNT: usize = 36;
    pub const OTHER_LOCAL_PORT: usize = 36;
    pub const PEER_BUF_ALLOC: usize = 40;
    pub const OTHER_PEER_PORT: usize = 40;
    pub const PEER_FWD_CNT: usize = 44;
    pub const RX_CNT: usize = 48;
    pub const LAST_FWD_CNT: usize = 52;
    pub const REQUEST_MS: usize = 56;
    pub const LIMIT: usize = 56;
    pub const SHUTDOWN_MS: usize = 64;
    pub const QUEUE_LEN: usize = 64;
    pub const LOCAL_CID: usize = 72;
    pub const PEER_CID: usize = 80;
    pub const TIME: usize = 88;
    pub const CLOCK: usize = 96;
    pub const OTHER_TIME: usize = 96;
    pub const FIRST_COUNT: usize = 104;
    pub const VALUE: usize = 104;
    pub const SECOND_COUNT: usize = 112;
}

/// The runs of bytes behind a head.
pub const STORAGE: usize = 0;
pub const HDR: usize = 1;
pub const BUF: usize = 2;
pub const BYTES: usize = 3;
pub const OUT: usize = 4;
/// The same runs in a queue's call.
pub const PLACES: usize = 0;
pub const PORTS: usize = 1;
pub const USED: usize = 2;
pub const MARKS: usize = 3;

/// A mark says whether the reply is the Rust's, or what 01 says of a call that the Rust is not asked.
pub const BY_RUST: u8 = b'R';
pub const BY_01: u8 = b'-';

#[derive(Clone, PartialEq)]
pub struct Frame {
    pub head: [u8; HEAD],
    pub runs: [Vec<u8>; 5],
}

impl Frame {
    pub fn new(entry: u8) -> Self {
        let mut head = [0; HEAD];
        head[at::ENTRY] = entry;
        Frame {
            head,
            runs: Default::default(),
        }
    }

    pub fn entry(&self) -> u8 {
        self.head[at::ENTRY]
    }

    pub fn u8(&self, place: usize) -> u8 {
        self.head[place]
    }

    pub fn yes(&self, place: usize) -> bool {
        self.head[place] != 0
    }

    pub fn u32(&self, place: usize) -> u32 {
        u32::from_le_bytes(self.head[place..place + 4].try_into().unwrap())
    }

    pub fn u64(&self, place: usize) -> u64 {
        u64::from_le_bytes(self.head[place..place + 8].try_into().unwrap())
    }

    pub fn set_u8(&mut self, place: usize, n: u8) {
        self.head[place] = n;
    }

    pub fn set_yes(&mut self, place: usize, yes: bool) {
        self.head[place] = yes as u8;
    }

    pub fn set_u32(&mut self, place: usize, n: u32) {
        self.head[place..place + 4].copy_from_slice(&n.to_le_bytes());
    }

    pub fn set_u64(&mut self, place: usize, n: u64) {
        self.head[place..place + 8].copy_from_slice(&n.to_le_bytes());
    }

    /// An answer of the stream: its kind at one place, its count at another.
    pub fn answer(&self, kind: usize, count: usize) -> Answer {
        match self.head[kind] {
            0 => Answer::Count(self.u64(count)),
            1 => Answer::WouldBlock,
            _ => Answer::Failed,
        }
    }

    pub fn set_answer(&mut self, kind: usize, count: usize, answer: Answer) {
        let (number, n) = match answer {
            Answer::Count(n) => (0, n),
            Answer::WouldBlock => (1, 0),
            Answer::Failed => (2, 0),
        };
        self.head[kind] = number;
        self.set_u64(count, n);
    }

    pub fn answers(&self) -> [Answer; 2] {
        [
            self.answer(at::FIRST_KIND, at::FIRST_COUNT),
            self.answer(at::SECOND_KIND, at::SECOND_COUNT),
        ]
    }

    pub fn set_answers(&mut self, answers: [Answer; 2]) {
        self.set_answer(at::FIRST_KIND, at::FIRST_COUNT, answers[0]);
        self.set_answer(at::SECOND_KIND, at::SECOND_COUNT, answers[1]);
    }

    /// The length of the whole frame.
    pub fn bytes(&self) -> u64 {
        (HEAD + self.runs.iter().map(Vec::len).sum::<usize>()) as u64
    }

    /// The next frame, or none at the end of the input.
    pub fn read(input: &mut impl Read) -> Result<Option<Frame>> {
        let mut frame = Frame::new(0);
        let mut got = 0;
        while got < HEAD {
            match input.read(&mut frame.head[got..])? {
                0 if got == 0 => return Ok(None),
                0 => return Err(std::io::ErrorKind::UnexpectedEof.into()),
                n => got += n,
            }
        }
        for run in 0..5 {
            let mut bytes = vec![0; frame.u32(LENGTHS + 4 * run) as usize];
            input.read_exact(&mut bytes)?;
            frame.runs[run] = bytes;
        }
        Ok(Some(frame))
    }

    pub fn write(&self, output: &mut impl Write) -> Result<()> {
        let mut head = self.head;
        for (run, bytes) in self.runs.iter().enumerate() {
            let place = LENGTHS + 4 * run;
            head[place..place + 4].copy_from_slice(&(bytes.len() as u32).to_le_bytes());
        }
        output.write_all(&head)?;
        self.runs.iter().try_for_each(|run| output.write_all(run))
    }
}
