//! Runs a call through the Rust. A call that 01 refuses by 1 to 6 is outside of what is compared:
//! its reply is what 01 says, the number and nothing changed, and is marked so.
mod ask;
mod conn;
mod hdr;
mod killq;
mod look;
mod queue;
mod ring;
mod rxq;

use std::io::ErrorKind;

pub use conn::{brings_data, flags, len, op, zero_conn};
pub use killq::{killq_read, ties_by_slot};
pub use queue::conn_map;
pub use ring::{ring_of, rust_ring};

use crate::entries::*;
use crate::frame::*;
use crate::stream::Seen;
use crate::vsock::csm::Error;

pub fn reply(call: &Frame) -> Frame {
    match call.entry() {
        RING_NEW..=RING_SECOND_PIECE => ring::ring(call),
        NEW_PEER_INIT..=RAW_ASKED => conn::conn(call),
        RXQ_NEW..=RXQ_IS_FULL => rxq::rxq(call),
        KILLQ_NEW..=KILLQ_PEEK => killq::killq(call),
        _ => hdr::hdr(call),
    }
}

fn answered(call: &Frame, number: u8) -> Frame {
    let mut reply = Frame::new(call.entry());
    reply.set_u8(at::NUMBER, number);
    let refused = (1..=6).contains(&number);
    reply.set_u8(at::MARK, if refused { BY_01 } else { BY_RUST });
    reply
}

fn valued(mut reply: Frame, value: u64) -> Frame {
    reply.set_u64(at::VALUE, value);
    reply
}

fn flushed(mut reply: Frame, result: Result<usize, Error>, seen: &Seen) -> Frame {
    match result {
        Ok(count) => reply.set_u64(at::VALUE, count as u64),
        Err(error) => {
            let (number, which) = stopped(error);
            reply.set_u8(at::NUMBER, number);
            reply.set_u8(at::WHICH, which);
        }
    }
    take(&mut reply, seen);
    reply
}

/// Number 10, by the error of a first write.
fn stopped(error: Error) -> (u8, u8) {
    let error = match error {
        Error::TxBufFlush(error) | Error::StreamWrite(error) => error,
        Error::TxBufFull => panic!("a full ring on a write"),
    };
    match error.kind() {
        ErrorKind::WouldBlock => (10, 1),
        _ => (10, 2),
    }
}

/// Refusals 5 and 6.
fn late(seen: &Seen, out: &[u8]) -> u8 {
    if seen.bad {
        5
    } else if seen.taken.len() > out.len() {
        6
    } else {
        0
    }
}

fn take(reply: &mut Frame, seen: &Seen) {
    reply.runs[OUT][..seen.taken.len()].copy_from_slice(&seen.taken);
}
