//! A connection's calls that change it.
use super::ask::asked;
use super::look::seen_of;
use super::{answered, flushed, late, take};
use crate::entries::*;
use crate::frame::*;
use crate::limits::*;
use crate::record::Conn;
use crate::settings;
use crate::shim::time::Instant;
use crate::stream::{self, Answer, Scripted, Seen};
use crate::vsock::csm::connection::probe::{self as conn_probe, hdr_probe};
use crate::vsock::csm::VsockConnection;
use crate::vsock::{VsockChannel, VsockEpollListener, VsockError};

const RW: u16 = 5;

/// Refusals 1 to 4 of a connection's call.
fn conn_door(call: &Frame, conn: &Conn) -> u8 {
    let entry = call.entry();
    let sound = match entry {
        NEW_PEER_INIT | NEW_LOCAL_INIT => conn.has_settings(),
        SEND_PKT | NOTIFY | SEND_ASKED | NOTIFY_ASKED => {
            conn.is_sound() && call.runs[STORAGE].len() == conn.ring.size as usize
        }
        _ => conn.is_sound(),
    };
    let hdr = &call.runs[HDR];
    let buf = &call.runs[BUF];
    let packet = matches!(entry, SEND_PKT | RECV_PKT | SEND_ASKED | RECV_ASKED);
    let timed = packet || matches!(entry, WILL_EXPIRE | HAS_EXPIRED);
    if !sound {
        return 1;
    }
    if packet && hdr.len() != VSOCK_PKT_HDR_SIZE {
        return 2;
    }
    if timed && call.u64(at::CLOCK) > MAX_CLOCK_MS {
        return 3;
    }
    let long = match entry {
        SEND_BYTES_RAW | RAW_ASKED => call.runs[BYTES].len() > MAX_PKT_BUF_SIZE,
        _ if packet && !call.yes(at::PRESENT) => false,
        SEND_PKT | SEND_ASKED => {
            buf.len() > MAX_PKT_BUF_SIZE || op(hdr) == RW && len(hdr) as usize > buf.len()
        }
        RECV_PKT | RECV_ASKED => buf.len() > MAX_PKT_BUF_SIZE,
        _ => false,
    };
    if long {
        return 4;
    }
    0
}

pub fn op(hdr: &[u8]) -> u16 {
    u16::from_le_bytes(hdr[30..32].try_into().unwrap())
}

pub fn len(hdr: &[u8]) -> u32 {
    u32::from_le_bytes(hdr[24..28].try_into().unwrap())
}

pub fn flags(hdr: &[u8]) -> u32 {
    u32::from_le_bytes(hdr[32..36].try_into().unwrap())
}

/// RW with a buffer, in a state that takes it.
pub fn brings_data(call: &Frame, conn: &Conn) -> bool {
    conn.takes() && call.yes(at::PRESENT) && op(&call.runs[HDR]) == RW
}

/// A reply with a record and the runs that this entry hands back, as they came.
pub(super) fn conn_left(call: &Frame, number: u8, conn: &Conn) -> Frame {
    let mut reply = answered(call, number);
    let entry = call.entry();
    if !matches!(entry, EXPIRY | STATE) {
        conn.put(&mut reply);
    }
    let mut keep = |run: usize| reply.runs[run] = call.runs[run].clone();
    keep(STORAGE);
    if matches!(entry, SEND_PKT | RECV_PKT) {
        keep(HDR);
        keep(BUF);
    }
    if matches!(
        entry,
        NEW_PEER_INIT | NEW_LOCAL_INIT | SEND_PKT | NOTIFY | SEND_BYTES_RAW
    ) {
        keep(OUT);
    }
    reply
}

pub fn zero_conn() -> Conn {
    Conn::read(&Frame::new(0))
}

pub(super) fn conn(call: &Frame) -> Frame {
    let was = Conn::read(call);
    let entry = call.entry();
    let opening = matches!(entry, NEW_PEER_INIT | NEW_LOCAL_INIT);
    let refusal = conn_door(call, &was);
    if refusal != 0 {
        return match entry {
            SEND_ASKED..=RAW_ASKED => answered(call, refusal),
            _ => conn_left(call, refusal, &if opening { zero_conn() } else { was }),
        };
    }
    settings::set_ring(was.ring.size);
    settings::set_conn(was.threshold, was.request_ms, was.shutdown_ms);
    Instant::set_now(call.u64(at::CLOCK));
    match entry {
        NEW_PEER_INIT | NEW_LOCAL_INIT => opened(call, &was),
        SEND_PKT => sent(call, &was),
        RECV_PKT => received(call, &was),
        NOTIFY => notified(call, &was),
        SEND_BYTES_RAW => raw_sent(call, &was),
        KILL => {
            let mut rust = conn_probe::make(&was, &call.runs[STORAGE]);
            rust.kill();
            conn_left(call, 0, &conn_probe::read(&rust, &was, &mut vec![]))
        }
        SEND_ASKED..=RAW_ASKED => asked(call, &was),
        _ => seen_of(call, &was),
    }
}

fn opened(call: &Frame, asked: &Conn) -> Frame {
    let (local_cid, peer_cid) = (asked.local_cid, asked.peer_cid);
    let (local_port, peer_port) = (asked.local_port, asked.peer_port);
    let stream = Box::new(Scripted);
    let rust = match call.entry() {
        NEW_PEER_INIT => VsockConnection::new_peer_init(
            stream,
            local_cid,
            peer_cid,
            local_port,
            peer_port,
            asked.peer_buf_alloc,
        ),
        _ => VsockConnection::new_local_init(stream, local_cid, peer_cid, local_port, peer_port),
    };
    conn_left(call, 0, &conn_probe::read(&rust, asked, &mut vec![]))
}

// What a call that may write leaves of record, storage and outgoing bytes; or 5 or 6, and nothing changed.
fn wrote(call: &Frame, was: &Conn, rust: &VsockConnection, seen: &Seen) -> Frame {
    let refusal = late(seen, &call.runs[OUT]);
    if refusal != 0 {
        return conn_left(call, refusal, was);
    }
    let mut storage = call.runs[STORAGE].clone();
    let mut reply = conn_left(call, 0, &conn_probe::read(rust, was, &mut storage));
    reply.runs[STORAGE] = storage;
    take(&mut reply, seen);
    reply
}

fn sent(call: &Frame, was: &Conn) -> Frame {
    let mut rust = conn_probe::make(was, &call.runs[STORAGE]);
    let mut hdr = hdr_probe::HdrBytes::new(&call.runs[HDR]);
    let mut buf = call.runs[BUF].clone();
    let lent = call.yes(at::PRESENT).then_some(&mut buf[..]);
    let (result, seen) = stream::during(call.answers(), Answer::Failed, &[], || {
        rust.send_pkt(&hdr.packet(lent))
    });
    result.expect("send_pkt always gives Ok");
    let mut reply = wrote(call, was, &rust, &seen);
    reply.runs[HDR] = hdr.bytes();
    reply.runs[BUF] = buf;
    reply
}

fn received(call: &Frame, was: &Conn) -> Frame {
    let mut rust = conn_probe::make(was, &call.runs[STORAGE]);
    let mut hdr = hdr_probe::HdrBytes::new(&call.runs[HDR]);
    let mut buf = call.runs[BUF].clone();
    let lent = call.yes(at::PRESENT).then_some(&mut buf[..]);
    let [read, _] = call.answers();
    let nothing = [Answer::Failed; 2];
    let (result, seen) = stream::during(nothing, read, &call.runs[BYTES], || {
        rust.recv_pkt(&mut hdr.packet(lent))
    });
    if seen.bad {
        return conn_left(call, 5, was);
    }
    let number = match result {
        Ok(()) => 0,
        Err(VsockError::NoData) => 7,
        Err(VsockError::PktBufMissing) => 8,
        Err(error) => panic!("{error:?}"),
    };
    let mut reply = conn_left(call, number, &conn_probe::read(&rust, was, &mut vec![]));
    reply.runs[HDR] = hdr.bytes();
    reply.runs[BUF] = buf;
    reply
}

fn notified(call: &Frame, was: &Conn) -> Frame {
    let mut rust = conn_probe::make(was, &call.runs[STORAGE]);
    let events = events(call);
    let (_, seen) = stream::during(call.answers(), Answer::Failed, &[], || rust.notify(events));
    wrote(call, was, &rust, &seen)
}

/// The events of a call.
pub(super) fn events(call: &Frame) -> epoll::Events {
    let mut events = epoll::Events::empty();
    if call.yes(at::READABLE) {
        events.insert(epoll::Events::EPOLLIN);
    }
    if call.yes(at::WRITABLE) {
        events.insert(epoll::Events::EPOLLOUT);
    }
    events
}

fn raw_sent(call: &Frame, was: &Conn) -> Frame {
    let mut rust = conn_probe::make(was, &call.runs[STORAGE]);
    let (result, seen) = stream::during(call.answers(), Answer::Failed, &[], || {
        rust.send_bytes_raw(&call.runs[BYTES])
    });
    let refusal = late(&seen, &call.runs[OUT]);
    if refusal != 0 {
        return conn_left(call, refusal, was);
    }
    let conn = conn_probe::read(&rust, was, &mut vec![]);
    flushed(conn_left(call, 0, &conn), result, &seen)
}
