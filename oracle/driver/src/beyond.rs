//! What the Rust does with the calls of docs/DIFFERENCES.md: each is the smallest that shows the
//! difference, and most of them are calls that the port refuses.
use std::io::{Result, Write};
use std::panic::{catch_unwind, AssertUnwindSafe};

use crate::calls;
use crate::limits::*;
use crate::record::*;
use crate::settings;
use crate::shim::time::Instant;
use crate::show;
use crate::stream::{self, Answer, Scripted};
use crate::vsock::csm::connection::probe::{self as conn_probe, hdr_probe::HdrBytes};
use crate::vsock::csm::VsockConnection;
use crate::vsock::muxer::muxer_killq::MuxerKillQ;
use crate::vsock::muxer::muxer_rxq::MuxerRxQ;
use crate::vsock::{VsockChannel, VsockEpollListener};

const BLOCKED: [Answer; 2] = [Answer::WouldBlock; 2];

/// One byte more than a packet may have.
const LONG: usize = MAX_PKT_BUF_SIZE + 1;

/// A number with its thousands apart, as the documents write it.
fn apart(n: usize) -> String {
    match n {
        0..1_000 => n.to_string(),
        _ => format!("{},{:03}", apart(n / 1_000), n % 1_000),
    }
}

/// R 16, T 4, timeouts 2,000, as in 01's readings; everything else 0.
fn conn(state: State) -> Conn {
    let mut conn = calls::zero_conn();
    conn.ring.size = 16;
    conn.threshold = 4;
    conn.request_ms = 2_000;
    conn.shutdown_ms = 2_000;
    conn.state = state;
    conn
}

fn rust(conn: &Conn) -> VsockConnection {
    settings::set_ring(conn.ring.size);
    settings::set_conn(conn.threshold, conn.request_ms, conn.shutdown_ms);
    conn_probe::make(conn, &[7; 16])
}

fn now(rust: &VsockConnection) -> Conn {
    conn_probe::read(rust, &conn(State::Killed), &mut vec![])
}

fn header(op: u16, len: u32, flags: u32) -> HdrBytes {
    let mut hdr = [0u8; VSOCK_PKT_HDR_SIZE];
    hdr[24..28].copy_from_slice(&len.to_le_bytes());
    hdr[30..32].copy_from_slice(&op.to_le_bytes());
    hdr[32..36].copy_from_slice(&flags.to_le_bytes());
    hdr[36] = 9;
    HdrBytes::new(&hdr)
}

fn send(rust: &mut VsockConnection, op: u16, len: u32, flags: u32, buf: &mut [u8]) -> String {
    let call = AssertUnwindSafe(|| {
        rust.send_pkt(&header(op, len, flags).packet(Some(buf)))
            .is_ok()
    });
    let (result, _) = stream::lying(BLOCKED, Answer::Failed, &[], || catch_unwind(call));
    match result {
        Ok(_) => "Ok".into(),
        Err(_) => "panics".into(),
    }
}

fn op_of(hdr: &HdrBytes) -> (u16, u32) {
    (calls::op(&hdr.bytes()), calls::len(&hdr.bytes()))
}

fn recv(rust: &mut VsockConnection, buf: &mut [u8], read: Answer) -> (u16, u32) {
    let mut hdr = header(0, 0, 0);
    stream::lying(BLOCKED, read, &[7; LONG], || {
        rust.recv_pkt(&mut hdr.packet(Some(buf))).is_ok()
    });
    op_of(&hdr)
}

pub fn all(output: &mut impl Write) -> Result<()> {
    std::panic::set_hook(Box::new(|_| ()));
    let say = &mut |text: String| writeln!(output, "{text}");
    rings(say)?;
    connections(say)?;
    readings(say)?;
    queues(say)
}

fn rings(say: &mut impl FnMut(String) -> Result<()>) -> Result<()> {
    let size = MAX_PKT_BUF_SIZE as u32;
    settings::set_ring(size);
    let pushed = calls::rust_ring(&calls::ring_of(size, 0, 0), &[]).push(&[0; LONG]);
    say(format!(
        "push of {} bytes on an empty ring of {}: {pushed:?}",
        apart(LONG),
        apart(MAX_PKT_BUF_SIZE)
    ))?;
    settings::set_ring(2 * size);
    let pushed = calls::rust_ring(&calls::ring_of(2 * size, 0, 0), &[]).push(&[0; LONG]);
    let twice = apart(2 * MAX_PKT_BUF_SIZE);
    say(format!("the same on one of {twice}: {pushed:?}"))?;
    settings::set_ring(16);
    let long = calls::rust_ring(&calls::ring_of(16, 17, 0), &[7; 16]).len();
    say(format!(
        "len of a ring of 16 with head 17 and tail 0: {long}"
    ))?;
    let mut ring = calls::rust_ring(&calls::ring_of(16, 1, 0), &[7; 16]);
    let answers = [Answer::Count(2), Answer::WouldBlock];
    let (count, _) = stream::lying(answers, Answer::Failed, &[], || {
        ring.flush_to(&mut Scripted)
    });
    say(format!(
        "flush of 1 byte to a stream that says 2: {count:?}, then {} held",
        ring.len()
    ))
}

fn connections(say: &mut impl FnMut(String) -> Result<()>) -> Result<()> {
    let mut reads = conn(State::Established);
    reads.peer_buf_alloc = 1;
    reads.pending = 8;
    let mut c = rust(&reads);
    let said = recv(&mut c, &mut [0], Answer::Count(2));
    let sent = now(&c).rx_cnt;
    say(format!(
        "read of 1 byte that says 2: op and len {said:?}, sent {sent}"
    ))?;
    let long = Answer::Count(LONG as u64);
    reads.peer_buf_alloc = LONG as u32;
    let said = recv(&mut rust(&reads), &mut [0; LONG], long);
    say(format!(
        "receive with a buffer of {}: op and len {said:?}",
        apart(LONG)
    ))?;
    for state in [State::Established, State::Killed] {
        let mut c = rust(&conn(state));
        let how = send(&mut c, 5, 1, 0, &mut []);
        let alloc = now(&c).peer_buf_alloc;
        say(format!(
            "RW of len 1 with a buffer of 0 in {state:?}: {how}, peer alloc {alloc}"
        ))?;
    }
    let mut timed = conn(State::Established);
    timed.expiry = Some(MAX_CLOCK_MS + 2);
    Instant::set_now(MAX_CLOCK_MS + 1);
    let log = MAX_CLOCK_MS.ilog2();
    say(format!(
        "will_expire of 2^{log} + 2 at 2^{log} + 1: {}",
        rust(&timed).will_expire()
    ))?;
    let mut c = rust(&conn(State::Established));
    let (count, _) = stream::lying([long; 2], Answer::Failed, &[], || {
        c.send_bytes_raw(&[0; LONG])
    });
    say(format!("raw send of {} bytes: {count:?}", apart(LONG)))
}

fn readings(say: &mut impl FnMut(String) -> Result<()>) -> Result<()> {
    Instant::set_now(1_000);
    let mut h = conn(State::Established);
    h.peer_buf_alloc = 10;
    h.rx_cnt = 14;
    h.peer_fwd_cnt = 2;
    h.pending = 8;
    let in_event = rust(&h).get_polled_evset().contains(epoll::Events::EPOLLIN);
    let said = recv(&mut rust(&h), &mut [0; 20], Answer::Count(20));
    say(format!(
        "h: polls for data {in_event}; op and len of a read of 20 {said:?}"
    ))?;
    h.peer_fwd_cnt = 15;
    let said = recv(&mut rust(&h), &mut [0; 20], Answer::Count(11));
    say(format!(
        "h, but more forwarded than sent: op and len of a read of 11 {said:?}"
    ))?;
    let mut k = conn(State::Established);
    k.ring.head = 1;
    for (flags, expiry) in [(&[3][..], None), (&[1, 2], None), (&[3], Some(2_000))] {
        k.expiry = expiry;
        let mut c = rust(&k);
        flags
            .iter()
            .for_each(|f| drop(send(&mut c, 4, 0, *f, &mut [])));
        let left = now(&c);
        say(format!(
            "k: SHUTDOWN {flags:?}, timer {expiry:?}: {:?}, timer {:?}",
            left.state, left.expiry
        ))?;
    }
    let mut l = conn(State::PeerInit);
    l.pending = 2;
    let mut c = rust(&l);
    c.kill();
    let first = recv(&mut c, &mut [], Answer::WouldBlock);
    let second = recv(&mut c, &mut [], Answer::WouldBlock);
    let state = now(&c).state;
    say(format!(
        "l: kill in PeerInit, ops {} and {}: {state:?}",
        first.0, second.0
    ))?;
    let failing = [Answer::Failed; 2];
    let mut owing = conn(State::Established);
    owing.pending = 8;
    let mut c = rust(&owing);
    stream::lying(failing, Answer::Failed, &[], || {
        c.send_pkt(&header(5, 1, 0).packet(Some(&mut [0]))).is_ok()
    });
    let written = show::pending(now(&c).pending);
    owing.ring.head = 1;
    owing.fwd_cnt = 13;
    let mut c = rust(&owing);
    stream::lying(failing, Answer::Failed, &[], || {
        c.notify(epoll::Events::EPOLLOUT)
    });
    let flushed = show::pending(now(&c).pending);
    say(format!(
        "a failed write, then pending {written:?}; a failed flush, 13 bytes untold: {flushed:?}"
    ))?;
    let mut early = conn(State::LocalInit);
    early.pending = 1;
    let mut c = rust(&early);
    send(&mut c, 2, 0, 0, &mut []);
    let said = recv(&mut c, &mut [], Answer::WouldBlock);
    let left = now(&c);
    say(format!(
        "RESPONSE before our REQUEST: op {}, {:?}, timer {:?}",
        said.0, left.state, left.expiry
    ))
}

fn slots(marks: &[u64]) -> Vec<Slot> {
    let slot = |(i, mark): (usize, &u64)| Slot {
        used: true,
        local_port: i as u32,
        peer_port: 0,
        mark: *mark,
    };
    marks.iter().enumerate().map(slot).collect()
}

fn queues(say: &mut impl FnMut(String) -> Result<()>) -> Result<()> {
    settings::set_rxq(MAX_RXQ_SIZE);
    let many = MAX_CONNECTIONS + 1;
    let pending = calls::conn_map(&slots(&vec![8; many]), |slot, conn| {
        conn.pending = slot.mark as u8
    });
    let built = MuxerRxQ::from_conn_map(&pending);
    say(format!(
        "a build of {} slots: {} items, synced {}",
        apart(many),
        built.q.len(),
        built.synced
    ))?;
    settings::set_killq(MAX_KILLQ_SIZE);
    Instant::set_now(0);
    for n in 2..=MAX_KILLQ_SIZE {
        for pattern in 1..2_000u64 {
            let mixed = pattern.wrapping_mul(0x9e37_79b9_7f4a_7c15);
            let times: Vec<u64> = (0..n).map(|i| 1 + (mixed >> (i % 64) & 1)).collect();
            let slots = slots(&times);
            let map = calls::conn_map(&slots, |slot, conn| conn.expiry = Some(slot.mark));
            let built = calls::killq_read(&MuxerKillQ::from_conn_map(&map), n as u64);
            if calls::ties_by_slot(built.clone(), &slots) != built {
                return say(format!("ties: {n} slots at {times:?}: not in slot order"));
            }
        }
    }
    say("ties: in slot order in every table that was tried".into())
}
