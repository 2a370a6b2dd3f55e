//! The ring's calls.
use std::num::Wrapping;

use super::{answered, flushed, late, valued};
use crate::entries::*;
use crate::frame::*;
use crate::limits::*;
use crate::record::Ring;
use crate::settings;
use crate::stream::{self, Answer, Scripted};
use crate::vsock::csm::txbuf::TxBuf;

pub(super) fn ring(call: &Frame) -> Frame {
    let ring = Ring::read(call);
    let storage = &call.runs[STORAGE];
    let over = ring.is_sound() && storage.len() == ring.size as usize;
    let left = |number: u8, ring: &Ring| {
        let mut reply = answered(call, number);
        ring.put(&mut reply);
        reply.runs[STORAGE] = storage.clone();
        reply.runs[OUT] = call.runs[OUT].clone();
        reply
    };
    settings::set_ring(ring.size);
    let tx_buf = || rust_ring(&ring, storage);
    match call.entry() {
        RING_NEW if !Ring::is_size(ring.size) => left(1, &ring_of(0, 0, 0)),
        RING_NEW => {
            let made = TxBuf::default();
            left(0, &ring_of(ring.size, made.head.0, made.tail.0))
        }
        RING_LEN | RING_IS_EMPTY if !ring.is_sound() => left(1, &ring),
        RING_LEN => valued(left(0, &ring), tx_buf().len() as u64),
        RING_IS_EMPTY => valued(left(0, &ring), tx_buf().is_empty() as u64),
        RING_FIRST_PIECE | RING_SECOND_PIECE if !over => {
            let mut reply = left(0, &ring);
            reply.set_u8(at::MARK, BY_01);
            reply
        }
        RING_FIRST_PIECE | RING_SECOND_PIECE => {
            let seen = stream::offers(|| drop(tx_buf().flush_to(&mut Scripted)));
            let piece = (call.entry() - RING_FIRST_PIECE) as usize;
            let mut reply = left(0, &ring);
            reply.runs[BYTES] = seen.offered.get(piece).cloned().unwrap_or_default();
            reply
        }
        _ if !over => left(1, &ring),
        RING_PUSH => {
            let bytes = &call.runs[BYTES];
            if bytes.len() > MAX_PKT_BUF_SIZE {
                return left(4, &ring);
            }
            let mut tx_buf = tx_buf();
            let number = if tx_buf.push(bytes).is_ok() { 0 } else { 9 };
            let mut reply = left(number, &ring_of(ring.size, tx_buf.head.0, tx_buf.tail.0));
            if let Some(data) = tx_buf.data {
                reply.runs[STORAGE] = data.to_vec();
            }
            reply
        }
        _ => {
            let mut tx_buf = tx_buf();
            let (result, seen) = stream::during(call.answers(), Answer::Failed, &[], || {
                tx_buf.flush_to(&mut Scripted)
            });
            let refusal = late(&seen, &call.runs[OUT]);
            if refusal != 0 {
                return left(refusal, &ring);
            }
            let ring = ring_of(ring.size, tx_buf.head.0, tx_buf.tail.0);
            flushed(left(0, &ring), result, &seen)
        }
    }
}

pub fn ring_of(size: u32, head: u32, tail: u32) -> Ring {
    Ring { size, head, tail }
}

pub fn rust_ring(ring: &Ring, storage: &[u8]) -> TxBuf {
    let bare = ring.head == ring.tail && storage.iter().all(|b| *b == 0);
    TxBuf {
        data: (!bare).then(|| storage.to_vec().into_boxed_slice()),
        head: Wrapping(ring.head),
        tail: Wrapping(ring.tail),
    }
}
