//! A connection's calls that only look.
use super::conn::conn_left;
use crate::entries::*;
use crate::frame::*;
use crate::record::{put_timer, Conn, State};
use crate::vsock::csm::connection::probe as conn_probe;
use crate::vsock::{VsockChannel, VsockEpollListener};

/// The calls that only look.
pub(super) fn seen_of(call: &Frame, was: &Conn) -> Frame {
    let rust = conn_probe::make(was, &call.runs[STORAGE]);
    let mut reply = conn_left(call, 0, was);
    match call.entry() {
        HAS_PENDING_RX => reply.set_u64(at::VALUE, rust.has_pending_rx() as u64),
        GET_POLLED_EVSET => {
            let events = rust.get_polled_evset();
            let readable = events.contains(epoll::Events::EPOLLIN) as u64;
            let writable = events.contains(epoll::Events::EPOLLOUT) as u64;
            assert!(events.bits() & !5 == 0);
            reply.set_u64(at::VALUE, readable + 2 * writable);
        }
        WILL_EXPIRE => reply.set_u64(at::VALUE, rust.will_expire() as u64),
        HAS_EXPIRED => reply.set_u64(at::VALUE, rust.has_expired() as u64),
        EXPIRY => put_timer(&mut reply, rust.expiry().map(|time| time.ms())),
        _ => State::from(rust.state()).put(&mut reply),
    }
    reply
}
