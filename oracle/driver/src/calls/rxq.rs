//! The RX queue's calls.
use super::queue::{conn_map, put_found, queue_left, told};
use super::{answered, valued};
use crate::entries::*;
use crate::frame::*;
use crate::record::{limits, table, Item, Queue};
use crate::settings;
use crate::vsock::muxer::muxer_impl::{probe as key_probe, MuxerRx};
use crate::vsock::muxer::muxer_rxq::MuxerRxQ;

pub(super) fn rxq(call: &Frame) -> Frame {
    let entry = call.entry();
    let limit = call.u64(at::LIMIT);
    let limited = limits(false).contains(&limit);
    settings::set_rxq(limit as usize);
    if entry == RXQ_NEW {
        return match limited {
            true => queue_left(call, 0, &rxq_read(&MuxerRxQ::default(), limit)),
            false => queue_left(call, 1, &Queue::empty(0)),
        };
    }
    if entry == RXQ_FROM_CONN_MAP {
        return match table(call, false) {
            Some(slots) if limited => {
                let map = conn_map(&slots, |slot, conn| conn.pending = slot.mark as u8);
                queue_left(call, 0, &rxq_read(&MuxerRxQ::from_conn_map(&map), limit))
            }
            _ => queue_left(call, 1, &Queue::empty(0)),
        };
    }
    let queue = Queue::read(call);
    if !queue.is_sound(false) {
        return match entry {
            RXQ_PUSH | RXQ_PEEK | RXQ_POP => queue_left(call, 1, &queue),
            _ => answered(call, 1),
        };
    }
    let mut rust = MuxerRxQ {
        q: queue.items().iter().map(rx_of).collect(),
        synced: queue.synced,
    };
    match entry {
        RXQ_PUSH => {
            let queued = rust.push(rx_of(&Item {
                rst: call.yes(at::RST),
                local_port: call.u32(at::LOCAL_PORT),
                peer_port: call.u32(at::PEER_PORT),
                time: 0,
            }));
            queue_left(call, if queued { 0 } else { 11 }, &rxq_read(&rust, limit))
        }
        RXQ_PEEK | RXQ_POP => {
            let item = if entry == RXQ_POP {
                rust.pop()
            } else {
                rust.peek()
            };
            let mut reply = queue_left(call, 0, &rxq_read(&rust, limit));
            if let Some(rx) = item {
                put_found(&mut reply, item_of(rx));
            }
            reply
        }
        RXQ_IS_SYNCED => told(call, rust.is_synced()),
        RXQ_LEN => valued(answered(call, 0), rust.len() as u64),
        RXQ_IS_EMPTY => told(call, rust.is_empty()),
        _ => told(call, rust.is_full()),
    }
}

fn rx_of(item: &Item) -> MuxerRx {
    let (local_port, peer_port) = (item.local_port, item.peer_port);
    match item.rst {
        true => MuxerRx::RstPkt {
            local_port,
            peer_port,
        },
        false => MuxerRx::ConnRx(key_probe::key(local_port, peer_port)),
    }
}

fn item_of(rx: MuxerRx) -> Item {
    let (rst, (local_port, peer_port)) = match rx {
        MuxerRx::ConnRx(key) => (false, key_probe::ports(&key)),
        MuxerRx::RstPkt {
            local_port,
            peer_port,
        } => (true, (local_port, peer_port)),
    };
    Item {
        rst,
        local_port,
        peer_port,
        time: 0,
    }
}

pub fn rxq_read(rust: &MuxerRxQ, limit: u64) -> Queue {
    Queue::of(
        limit,
        rust.synced,
        rust.q.iter().copied().map(item_of).collect(),
    )
}
