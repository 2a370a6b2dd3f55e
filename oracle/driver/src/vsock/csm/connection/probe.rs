//! A child of `connection`, so that it sees the private fields: makes a VsockConnection from any
//! record and reads it back.
use super::*;
use crate::record::{Conn, State};
use crate::shim::time::Instant;
use crate::stream::Scripted;

/// The packet's probe, whose parent is private.
pub use crate::vsock::packet::probe as hdr_probe;

impl From<State> for ConnState {
    fn from(state: State) -> Self {
        match state {
            State::LocalInit => ConnState::LocalInit,
            State::PeerInit => ConnState::PeerInit,
            State::Established => ConnState::Established,
            State::LocalClosed => ConnState::LocalClosed,
            State::PeerClosed(recv_off, send_off) => ConnState::PeerClosed(recv_off, send_off),
            State::Killed => ConnState::Killed,
        }
    }
}

impl From<ConnState> for State {
    fn from(state: ConnState) -> Self {
        match state {
            ConnState::LocalInit => State::LocalInit,
            ConnState::PeerInit => State::PeerInit,
            ConnState::Established => State::Established,
            ConnState::LocalClosed => State::LocalClosed,
            ConnState::PeerClosed(recv_off, send_off) => State::PeerClosed(recv_off, send_off),
            ConnState::Killed => State::Killed,
        }
    }
}

/// The connection that a record tells of. Its ring is not allocated where the record can't tell:
/// where it is empty and its storage all 0, or is not lent.
pub fn make(conn: &Conn, storage: &[u8]) -> VsockConnection {
    let ring = &conn.ring;
    let bare = ring.head == ring.tail && storage.iter().all(|b| *b == 0);
    let lent = storage.len() == ring.size as usize;
    VsockConnection {
        state: conn.state.into(),
        local_cid: conn.local_cid,
        peer_cid: conn.peer_cid,
        local_port: conn.local_port,
        peer_port: conn.peer_port,
        stream: Box::new(Scripted),
        tx_buf: TxBuf {
            data: (lent && !bare).then(|| storage.to_vec().into_boxed_slice()),
            head: Wrapping(ring.head),
            tail: Wrapping(ring.tail),
        },
        fwd_cnt: Wrapping(conn.fwd_cnt),
        peer_buf_alloc: conn.peer_buf_alloc,
        peer_fwd_cnt: Wrapping(conn.peer_fwd_cnt),
        rx_cnt: Wrapping(conn.rx_cnt),
        last_fwd_cnt_to_peer: Wrapping(conn.last_fwd_cnt_to_peer),
        pending_rx: PendingRxSet {
            data: conn.pending.into(),
        },
        expiry: conn.expiry.map(Instant::at_ms),
    }
}

/// What a connection is now; `was` gives the settings, which it does not hold.
pub fn read(rust: &VsockConnection, was: &Conn, storage: &mut Vec<u8>) -> Conn {
    if let Some(data) = rust.tx_buf.data.as_ref() {
        *storage = data.to_vec();
    }
    let mut conn = was.clone();
    conn.state = rust.state.into();
    conn.local_cid = rust.local_cid;
    conn.peer_cid = rust.peer_cid;
    conn.local_port = rust.local_port;
    conn.peer_port = rust.peer_port;
    conn.ring.head = rust.tx_buf.head.0;
    conn.ring.tail = rust.tx_buf.tail.0;
    conn.fwd_cnt = rust.fwd_cnt.0;
    conn.peer_buf_alloc = rust.peer_buf_alloc;
    conn.peer_fwd_cnt = rust.peer_fwd_cnt.0;
    conn.rx_cnt = rust.rx_cnt.0;
    conn.last_fwd_cnt_to_peer = rust.last_fwd_cnt_to_peer.0;
    conn.pending = rust.pending_rx.data.try_into().unwrap();
    conn.expiry = rust.expiry.map(|time| time.ms());
    conn
}
