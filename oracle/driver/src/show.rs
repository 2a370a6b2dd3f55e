//! Calls and replies as text.
use std::fmt::Write;

use crate::calls;
use crate::entries::*;
use crate::frame::*;
use crate::limits::*;
use crate::record::*;
use crate::stream::Answer;

fn hex(bytes: &[u8]) -> String {
    let shown: String = bytes.iter().take(64).map(|b| format!("{b:02x}")).collect();
    match bytes.len() {
        0..=64 => format!("{} bytes {shown}", bytes.len()),
        n => format!("{n} bytes {shown}.."),
    }
}

/// The names of what is pending.
pub fn pending(set: u8) -> Vec<&'static str> {
    let names = ["Request", "Response", "Rst", "Rw", "CreditUpdate"];
    let set = (0..5).filter(|i| set >> i & 1 == 1);
    set.map(|i| names[i]).collect()
}

fn conn(frame: &Frame) -> String {
    let c = Conn::read(frame);
    format!(
        "  R {}, T {}, timeouts {} and {}, {:?}, head {}, tail {}
  fwd_cnt {}, last told {}, peer alloc {}, peer fwd {}, sent {}, credit {}
  cids {} and {}, ports {} and {}, pending {:?}, timer {:?}
",
        c.ring.size,
        c.threshold,
        c.request_ms,
        c.shutdown_ms,
        c.state,
        c.ring.head,
        c.ring.tail,
        c.fwd_cnt,
        c.last_fwd_cnt_to_peer,
        c.peer_buf_alloc,
        c.peer_fwd_cnt,
        c.rx_cnt,
        c.credit(),
        c.local_cid,
        c.peer_cid,
        c.local_port,
        c.peer_port,
        pending(c.pending),
        c.expiry
    )
}

fn queue(frame: &Frame) -> String {
    let q = Queue::read(frame);
    let mut text = format!(
        "  limit {}, length {}, synced {}\n",
        q.limit, q.len, q.synced
    );
    for item in &q.places {
        let kind = if item.rst { "RST" } else { "connection" };
        let (local_port, peer_port) = (item.local_port, item.peer_port);
        writeln!(text, "  {kind} {local_port} {peer_port} at {}", item.time).unwrap();
    }
    text
}

/// What both a call and a reply have: the record and the runs.
fn body(frame: &Frame) -> String {
    let mut text = match frame.entry() {
        RING_NEW..=RING_SECOND_PIECE => {
            let ring = Ring::read(frame);
            format!(
                "  R {}, head {}, tail {}\n",
                ring.size, ring.head, ring.tail
            )
        }
        NEW_PEER_INIT..=RAW_ASKED => conn(frame),
        RXQ_NEW..=KILLQ_PEEK => queue(frame),
        _ => format!("  head {}\n", hex(&frame.head[..])),
    };
    let names = match frame.entry() {
        RXQ_NEW..=KILLQ_PEEK => ["", "ports", "used", "pending or times", ""],
        _ => ["storage", "header", "buffer", "bytes", "outgoing"],
    };
    for (name, run) in names.iter().zip(&frame.runs) {
        if !name.is_empty() && !run.is_empty() {
            writeln!(text, "  {name}: {}", hex(run)).unwrap();
        }
    }
    text
}

fn answer(answer: Answer) -> String {
    match answer {
        Answer::Count(n) => format!("{n}"),
        Answer::WouldBlock => "would-block".into(),
        Answer::Failed => "failure".into(),
    }
}

/// What a call is given beside its record and its runs.
fn arguments(frame: &Frame) -> String {
    let [first, second] = frame.answers().map(answer);
    let clock = frame.u64(at::CLOCK);
    let present = if frame.yes(at::PRESENT) {
        "a buffer"
    } else {
        "no buffer"
    };
    let kind = if frame.yes(at::RST) {
        "RST"
    } else {
        "connection"
    };
    let (local_port, peer_port) = (frame.u32(at::LOCAL_PORT), frame.u32(at::PEER_PORT));
    match frame.entry() {
        RING_FLUSH_TO => format!("  stream: {first}, then {second}"),
        SEND_PKT | SEND_ASKED => format!(
            "  clock {clock}, {present}, {}\n  stream: {first}, then {second}",
            packet(&frame.runs[HDR])
        ),
        RECV_PKT | RECV_ASKED => format!("  clock {clock}, {present}, read: {first}"),
        NOTIFY | NOTIFY_ASKED => format!(
            "  in {}, out {}, stream: {first}, then {second}",
            frame.yes(at::READABLE),
            frame.yes(at::WRITABLE)
        ),
        SEND_BYTES_RAW => format!("  stream: {first}"),
        WILL_EXPIRE | HAS_EXPIRED | KILLQ_POP | KILLQ_FROM_CONN_MAP => format!("  clock {clock}"),
        RXQ_PUSH => format!("  item: {kind} {local_port} {peer_port}"),
        KILLQ_PUSH => format!(
            "  item: {local_port} {peer_port} at {}",
            frame.u64(at::TIME)
        ),
        KILLQ_ITEM_EQ => format!(
            "  items: {local_port} {peer_port} at {}, {} {} at {}",
            frame.u64(at::TIME),
            frame.u32(at::OTHER_LOCAL_PORT),
            frame.u32(at::OTHER_PEER_PORT),
            frame.u64(at::OTHER_TIME)
        ),
        _ => String::new(),
    }
}

fn packet(hdr: &[u8]) -> String {
    if hdr.len() != VSOCK_PKT_HDR_SIZE {
        return format!("a header of {} bytes", hdr.len());
    }
    let number = |place: usize| u32::from_le_bytes(hdr[place..place + 4].try_into().unwrap());
    format!(
        "op {}, len {}, flags {}, alloc {}, fwd {}",
        calls::op(hdr),
        calls::len(hdr),
        number(32),
        number(36),
        number(40)
    )
}

pub fn call(frame: &Frame) -> String {
    let text = format!(
        "{}\n{}{}",
        name(frame.entry()),
        body(frame),
        arguments(frame)
    );
    text.trim_end().to_string()
}

pub fn reply(frame: &Frame) -> String {
    format!(
        "{}: {} ({}), value {}, {}, against {}\n{}",
        name(frame.entry()),
        frame.u8(at::NUMBER),
        frame.u8(at::WHICH),
        frame.u64(at::VALUE),
        frame.yes(at::FOUND),
        if frame.u8(at::MARK) == BY_RUST {
            "the Rust"
        } else {
            "01"
        },
        body(frame)
    )
}
