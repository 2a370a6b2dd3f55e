//! The kill queue's calls.
use super::answered;
use super::queue::{conn_map, put_found, queue_left, told};
use crate::entries::*;
use crate::frame::*;
use crate::limits::*;
use crate::record::{limits, table, Item, Queue, Slot};
use crate::settings;
use crate::shim::time::{Duration, Instant};
use crate::vsock::muxer::muxer_impl::probe as key_probe;
use crate::vsock::muxer::muxer_killq::{MuxerKillQ, MuxerKillQItem};

pub(super) fn killq(call: &Frame) -> Frame {
    let entry = call.entry();
    let limit = call.u64(at::LIMIT);
    let clock = call.u64(at::CLOCK);
    let limited = limits(true).contains(&limit);
    let late = clock > MAX_CLOCK_MS;
    settings::set_killq(limit as usize);
    Instant::set_now(clock);
    match entry {
        KILLQ_NEW if limited => {
            return queue_left(call, 0, &killq_read(&MuxerKillQ::default(), limit));
        }
        KILLQ_NEW => return queue_left(call, 1, &Queue::empty(0)),
        KILLQ_FROM_CONN_MAP => {
            return match table(call, true) {
                Some(_) if limited && late => queue_left(call, 3, &Queue::empty(0)),
                Some(slots) if limited => {
                    let timed = |time: u64| (time != 0).then_some(time);
                    let map = conn_map(&slots, |slot, conn| conn.expiry = timed(slot.mark));
                    let built = killq_read(&MuxerKillQ::from_conn_map(&map), limit);
                    queue_left(call, 0, &ties_by_slot(built, &slots))
                }
                _ => queue_left(call, 1, &Queue::empty(0)),
            };
        }
        KILLQ_ITEM_EQ => return told(call, kill_item(&one(call)) == kill_item(&other(call))),
        _ => (),
    }
    let queue = Queue::read(call);
    let door = match queue.is_sound(true) {
        false => 1,
        true if entry == KILLQ_POP && late => 3,
        true => 0,
    };
    if door != 0 {
        return match entry {
            KILLQ_PUSH | KILLQ_POP | KILLQ_PEEK => queue_left(call, door, &queue),
            _ => answered(call, door),
        };
    }
    let mut rust = MuxerKillQ {
        q: queue.items().iter().map(kill_item).collect(),
        synced: queue.synced,
    };
    match entry {
        KILLQ_PUSH => {
            let item = one(call);
            let key = key_probe::key(item.local_port, item.peer_port);
            rust.push(key, Instant::at_ms(item.time));
            let queued = rust.q.len() as u64 > queue.len;
            queue_left(call, if queued { 0 } else { 11 }, &killq_read(&rust, limit))
        }
        KILLQ_POP => {
            let key = rust.pop();
            let mut reply = queue_left(call, 0, &killq_read(&rust, limit));
            if let Some(key) = key {
                let (local_port, peer_port) = key_probe::ports(&key);
                put_found(
                    &mut reply,
                    Item {
                        local_port,
                        peer_port,
                        ..Item::default()
                    },
                );
            }
            reply
        }
        KILLQ_PEEK => peeked(call, &queue, rust),
        KILLQ_IS_SYNCED => told(call, rust.is_synced()),
        KILLQ_IS_EMPTY => told(call, rust.is_empty()),
        _ => told(call, rust.is_full()),
    }
}

/// The Rust has no such call: the front is what a pop takes just after its time, and not at it.
fn peeked(call: &Frame, queue: &Queue, mut rust: MuxerKillQ) -> Frame {
    let mut reply = queue_left(call, 0, queue);
    let Some(time) = rust.q.front().map(|item| item.kill_time) else {
        return reply;
    };
    Instant::set(time);
    assert!(rust.pop().is_none());
    Instant::set(time + Duration::from_nanos(1));
    let (local_port, peer_port) = key_probe::ports(&rust.pop().expect("a front"));
    let item = Item {
        local_port,
        peer_port,
        ..Item::default()
    };
    put_found(&mut reply, item);
    reply.set_u64(at::TIME, time.ms());
    reply
}

fn one(call: &Frame) -> Item {
    Item {
        rst: false,
        local_port: call.u32(at::LOCAL_PORT),
        peer_port: call.u32(at::PEER_PORT),
        time: call.u64(at::TIME),
    }
}

fn other(call: &Frame) -> Item {
    Item {
        rst: false,
        local_port: call.u32(at::OTHER_LOCAL_PORT),
        peer_port: call.u32(at::OTHER_PEER_PORT),
        time: call.u64(at::OTHER_TIME),
    }
}

pub fn kill_item(item: &Item) -> MuxerKillQItem {
    MuxerKillQItem {
        key: key_probe::key(item.local_port, item.peer_port),
        kill_time: Instant::at_ms(item.time),
    }
}

pub fn item_of_kill(item: &MuxerKillQItem) -> Item {
    let (local_port, peer_port) = key_probe::ports(&item.key);
    Item {
        rst: false,
        local_port,
        peer_port,
        time: item.kill_time.ms(),
    }
}

pub fn killq_read(rust: &MuxerKillQ, limit: u64) -> Queue {
    Queue::of(
        limit,
        rust.synced,
        rust.q.iter().map(item_of_kill).collect(),
    )
}

/// The Rust leaves open in what order equal times stand; 01 has slot order. What it gives must be
/// in order of time; then equal times are put in slot order.
pub fn ties_by_slot(mut queue: Queue, slots: &[Slot]) -> Queue {
    assert!(queue.places.is_sorted_by_key(|item| item.time));
    let place = |item: &Item| {
        let ports = (item.local_port, item.peer_port);
        let found = |slot: &Slot| slot.used && (slot.local_port, slot.peer_port) == ports;
        slots.iter().position(found)
    };
    queue
        .places
        .sort_by_cached_key(|item| (item.time, place(item)));
    queue
}
