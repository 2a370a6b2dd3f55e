//! The entries, by their numbers in a frame.
pub const RING_NEW: u8 = 1;
pub const RING_LEN: u8 = 2;
pub const RING_IS_EMPTY: u8 = 3;
pub const RING_PUSH: u8 = 4;
pub const RING_FLUSH_TO: u8 = 5;
pub const RING_FIRST_PIECE: u8 = 6;
pub const RING_SECOND_PIECE: u8 = 7;
pub const NEW_PEER_INIT: u8 = 11;
pub const NEW_LOCAL_INIT: u8 = 12;
pub const SEND_PKT: u8 = 13;
pub const RECV_PKT: u8 = 14;
pub const NOTIFY: u8 = 15;
pub const SEND_BYTES_RAW: u8 = 16;
pub const KILL: u8 = 17;
pub const HAS_PENDING_RX: u8 = 18;
pub const GET_POLLED_EVSET: u8 = 19;
pub const WILL_EXPIRE: u8 = 20;
pub const HAS_EXPIRED: u8 = 21;
pub const EXPIRY: u8 = 22;
pub const STATE: u8 = 23;
pub const SEND_ASKED: u8 = 24;
pub const RECV_ASKED: u8 = 25;
pub const NOTIFY_ASKED: u8 = 26;
pub const RAW_ASKED: u8 = 27;
pub const RXQ_NEW: u8 = 31;
pub const RXQ_FROM_CONN_MAP: u8 = 32;
pub const RXQ_PUSH: u8 = 33;
pub const RXQ_PEEK: u8 = 34;
pub const RXQ_POP: u8 = 35;
pub const RXQ_IS_SYNCED: u8 = 36;
pub const RXQ_LEN: u8 = 37;
pub const RXQ_IS_EMPTY: u8 = 38;
pub const RXQ_IS_FULL: u8 = 39;
pub const KILLQ_NEW: u8 = 41;
pub const KILLQ_FROM_CONN_MAP: u8 = 42;
pub const KILLQ_PUSH: u8 = 43;
pub const KILLQ_POP: u8 = 44;
pub const KILLQ_IS_SYNCED: u8 = 45;
pub const KILLQ_IS_EMPTY: u8 = 46;
pub const KILLQ_IS_FULL: u8 = 47;
pub const KILLQ_ITEM_EQ: u8 = 48;
pub const KILLQ_PEEK: u8 = 49;
pub const HDR_READ: u8 = 51;
pub const HDR_WRITE: u8 = 52;

/// The calls that are lent a ring's storage.
pub fn lends(entry: u8) -> bool {
    matches!(
        entry,
        RING_PUSH..=RING_SECOND_PIECE | SEND_PKT | NOTIFY | SEND_ASKED | NOTIFY_ASKED
    )
}

/// The names in the Rust; behind a comma what it has no name for.
pub const NAMES: [(u8, &str); 44] = [
    (RING_NEW, "TxBuf::default"),
    (RING_LEN, "TxBuf::len"),
    (RING_IS_EMPTY, "TxBuf::is_empty"),
    (RING_PUSH, "TxBuf::push"),
    (RING_FLUSH_TO, "TxBuf::flush_to"),
    (RING_FIRST_PIECE, "TxBuf, first piece"),
    (RING_SECOND_PIECE, "TxBuf, second piece"),
    (NEW_PEER_INIT, "VsockConnection::new_peer_init"),
    (NEW_LOCAL_INIT, "VsockConnection::new_local_init"),
    (SEND_PKT, "VsockConnection::send_pkt"),
    (RECV_PKT, "VsockConnection::recv_pkt"),
    (NOTIFY, "VsockConnection::notify"),
    (SEND_BYTES_RAW, "VsockConnection::send_bytes_raw"),
    (KILL, "VsockConnection::kill"),
    (HAS_PENDING_RX, "VsockConnection::has_pending_rx"),
    (GET_POLLED_EVSET, "VsockConnection::get_polled_evset"),
    (WILL_EXPIRE, "VsockConnection::will_expire"),
    (HAS_EXPIRED, "VsockConnection::has_expired"),
    (EXPIRY, "VsockConnection::expiry"),
    (STATE, "VsockConnection::state"),
    (SEND_ASKED, "VsockConnection::send_pkt, asked"),
    (RECV_ASKED, "VsockConnection::recv_pkt, asked"),
    (NOTIFY_ASKED, "VsockConnection::notify, asked"),
    (RAW_ASKED, "VsockConnection::send_bytes_raw, asked"),
    (RXQ_NEW, "MuxerRxQ::default"),
    (RXQ_FROM_CONN_MAP, "MuxerRxQ::from_conn_map"),
    (RXQ_PUSH, "MuxerRxQ::push"),
    (RXQ_PEEK, "MuxerRxQ::peek"),
    (RXQ_POP, "MuxerRxQ::pop"),
    (RXQ_IS_SYNCED, "MuxerRxQ::is_synced"),
    (RXQ_LEN, "MuxerRxQ::len"),
    (RXQ_IS_EMPTY, "MuxerRxQ::is_empty"),
    (RXQ_IS_FULL, "MuxerRxQ::is_full"),
    (KILLQ_NEW, "MuxerKillQ::default"),
    (KILLQ_FROM_CONN_MAP, "MuxerKillQ::from_conn_map"),
    (KILLQ_PUSH, "MuxerKillQ::push"),
    (KILLQ_POP, "MuxerKillQ::pop"),
    (KILLQ_IS_SYNCED, "MuxerKillQ::is_synced"),
    (KILLQ_IS_EMPTY, "MuxerKillQ::is_empty"),
    (KILLQ_IS_FULL, "MuxerKillQ::is_full"),
    (KILLQ_ITEM_EQ, "MuxerKillQItem::eq"),
    (KILLQ_PEEK, "MuxerKillQ, peek"),
    (HDR_READ, "VsockPacket, getters"),
    (HDR_WRITE, "VsockPacket, setters"),
];

pub fn name(entry: u8) -> &'static str {
    let found = NAMES.iter().find(|(number, _)| *number == entry);
    found.expect("an entry").1
}
