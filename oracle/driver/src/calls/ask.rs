//! What a call would offer to the stream, or ask of it. The Rust has no such calls: the call itself is
//! made on a stream that records, and then forgotten.
use super::{answered, conn::events, valued};
use crate::entries::*;
use crate::frame::*;
use crate::record::Conn;
use crate::stream;
use crate::vsock::csm::connection::probe::{self as conn_probe, hdr_probe::HdrBytes};
use crate::vsock::{VsockChannel, VsockEpollListener};

pub(super) fn asked(call: &Frame, was: &Conn) -> Frame {
    let mut rust = conn_probe::make(was, &call.runs[STORAGE]);
    let mut buf = call.runs[BUF].clone();
    let lent = call.yes(at::PRESENT).then_some(&mut buf[..]);
    let hdr = || HdrBytes::new(&call.runs[HDR]);
    let seen = stream::offers(|| match call.entry() {
        SEND_ASKED => drop(rust.send_pkt(&hdr().packet(lent))),
        RECV_ASKED => drop(rust.recv_pkt(&mut hdr().packet(lent))),
        NOTIFY_ASKED => rust.notify(events(call)),
        _ => drop(rust.send_bytes_raw(&call.runs[BYTES])),
    });
    let mut offered = seen.offered.into_iter();
    let mut reply = valued(answered(call, 0), seen.asked.unwrap_or(0) as u64);
    match call.entry() {
        SEND_ASKED => reply.set_yes(at::FOUND, offered.len() == 1),
        RECV_ASKED => reply.set_yes(at::FOUND, seen.asked.is_some()),
        _ => (),
    }
    reply.runs[BYTES] = offered.next().unwrap_or_default();
    reply.runs[OUT] = offered.next().unwrap_or_default();
    reply
}
