//! What the two queues share: replies, and the Rust's table.
use super::answered;
use super::conn::zero_conn;
use crate::frame::*;
use crate::record::{Conn, Item, Queue, Slot};
use crate::shim::collections::HashMap;
use crate::vsock::csm::connection::probe as conn_probe;
use crate::vsock::csm::VsockConnection;
use crate::vsock::muxer::muxer_impl::{probe as key_probe, ConnMapKey};

pub(super) fn queue_left(call: &Frame, number: u8, queue: &Queue) -> Frame {
    let mut reply = answered(call, number);
    queue.put(&mut reply);
    reply
}

pub(super) fn put_found(reply: &mut Frame, item: Item) {
    reply.set_yes(at::FOUND, true);
    reply.set_yes(at::RST, item.rst);
    reply.set_u32(at::LOCAL_PORT, item.local_port);
    reply.set_u32(at::PEER_PORT, item.peer_port);
}

pub(super) fn told(call: &Frame, holds: bool) -> Frame {
    let mut reply = answered(call, 0);
    reply.set_yes(at::FOUND, holds);
    reply
}

/// The Rust's table, in slot order; `mark` puts a slot's mark into its connection.
pub fn conn_map(
    slots: &[Slot],
    mark: impl Fn(&Slot, &mut Conn),
) -> HashMap<ConnMapKey, VsockConnection> {
    let made = |slot: &Slot| {
        let mut conn = zero_conn();
        conn.local_port = slot.local_port;
        conn.peer_port = slot.peer_port;
        mark(slot, &mut conn);
        let key = key_probe::key(slot.local_port, slot.peer_port);
        (key, conn_probe::make(&conn, &[]))
    };
    HashMap {
        slots: slots
            .iter()
            .map(|slot| slot.used.then(|| made(slot)))
            .collect(),
    }
}
