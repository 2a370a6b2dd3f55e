//! Queues, and the calls on the two.
use super::Maker;
use crate::entries::*;
use crate::frame::*;
use crate::limits::*;
use crate::record::{limits, Item, Queue};

impl Maker {
    pub(super) fn limit(&mut self, kill: bool) -> u64 {
        let (least, most) = limits(kill).into_inner();
        match self.below(40) {
            0 => self.pick(&[0, most + 1, u64::MAX]),
            1..4 => self.pick(&[most - 1, most]),
            4..24 => self.even(least, most),
            _ => self.pick(&[1, 2, 3, 5, 8]),
        }
    }

    fn port(&mut self) -> u32 {
        match self.one_in(2) {
            true => self.next() as u32,
            false => self.below(4) as u32,
        }
    }

    pub(super) fn time(&mut self) -> u64 {
        let late = [MAX_CLOCK_MS - 1, MAX_CLOCK_MS, MAX_CLOCK_MS + 1, u64::MAX];
        match self.below(16) {
            0 => self.pick(&late),
            1 => 0,
            2..8 => 2_998 + self.below(6),
            8..12 => self.even(0, 20_000),
            _ => self.length(u64::MAX),
        }
    }

    fn item(&mut self, kill: bool) -> Item {
        Item {
            rst: !kill && self.one_in(2),
            local_port: self.port(),
            peer_port: self.port(),
            time: if kill { self.time() } else { 0 },
        }
    }

    fn any_queue(&mut self, kill: bool) -> Queue {
        let most = *limits(kill).end();
        let limit = self.limit(kill);
        let places = limit.min(most);
        let n = match self.below(8) {
            0 => 0,
            1..3 => places,
            3 => places.saturating_sub(1),
            _ => self.even(0, places),
        };
        let mut items: Vec<Item> = (0..n).map(|_| self.item(kill)).collect();
        if !kill && n > 0 && self.one_in(3) {
            // All RSTs, half of the time with one connection anywhere.
            items.iter_mut().for_each(|item| item.rst = true);
            let one = self.below(n) as usize;
            items[one].rst = self.one_in(2);
        }
        let mut queue = Queue::of(limit, !self.one_in(3), items);
        match self.below(40) {
            0 => queue.len = self.pick(&[limit.wrapping_add(1), n + 1, u64::MAX]),
            1 => {
                let stray = self
                    .pick(&[n, limit, most - 1])
                    .clamp(n.min(most - 1), most - 1);
                queue.places.resize(stray as usize + 1, Item::default());
                queue.places[stray as usize] = self.item(kill);
            }
            _ => (),
        }
        queue
    }

    pub(super) fn rxq_call(&mut self) -> Frame {
        let entry = match self.below(40) {
            0..2 => RXQ_NEW,
            2..7 => return self.build_call(false),
            7..23 => RXQ_PUSH,
            23..26 => RXQ_PEEK,
            26..32 => RXQ_POP,
            32..34 => RXQ_IS_SYNCED,
            34..36 => RXQ_LEN,
            36..38 => RXQ_IS_EMPTY,
            _ => RXQ_IS_FULL,
        };
        let mut call = Frame::new(entry);
        if entry == RXQ_NEW {
            call.set_u64(at::LIMIT, self.limit(false));
            return call;
        }
        let queue = match self.walks {
            true => self.rxq.clone(),
            false => self.any_queue(false),
        };
        queue.put(&mut call);
        if entry == RXQ_PUSH {
            let item = self.item(false);
            call.set_yes(at::RST, item.rst);
            call.set_u32(at::LOCAL_PORT, item.local_port);
            call.set_u32(at::PEER_PORT, item.peer_port);
        }
        call
    }

    pub(super) fn killq_call(&mut self) -> Frame {
        let entry = match self.below(40) {
            0..2 => KILLQ_NEW,
            2..8 => return self.build_call(true),
            8..17 => KILLQ_PUSH,
            17..28 => KILLQ_POP,
            28..30 => KILLQ_IS_SYNCED,
            30..32 => KILLQ_IS_EMPTY,
            32..34 => KILLQ_IS_FULL,
            34..36 => KILLQ_PEEK,
            _ => return self.eq_call(),
        };
        let mut call = Frame::new(entry);
        if entry == KILLQ_NEW {
            call.set_u64(at::LIMIT, self.limit(true));
            return call;
        }
        let queue = match self.walks {
            true => self.killq.clone(),
            false => self.any_queue(true),
        };
        queue.put(&mut call);
        match entry {
            KILLQ_PUSH => {
                let item = self.item(true);
                call.set_u32(at::LOCAL_PORT, item.local_port);
                call.set_u32(at::PEER_PORT, item.peer_port);
                call.set_u64(at::TIME, item.time);
            }
            KILLQ_POP => {
                let clock = self.clock(queue.places.first().map(|item| item.time));
                call.set_u64(at::CLOCK, clock);
            }
            _ => (),
        }
        call
    }

    /// Two items, mostly of one key, around 10 ms apart or by any number.
    fn eq_call(&mut self) -> Frame {
        let mut call = Frame::new(KILLQ_ITEM_EQ);
        let one = self.item(true);
        let other = if self.one_in(4) { self.item(true) } else { one };
        let apart = match self.one_in(2) {
            true => self.length(u64::MAX),
            false => self.pick(&[0, 1, 9, 10, 10, 11, 11, 12, 1_000]),
        };
        let mut times = [one.time, one.time.saturating_add(apart)];
        if self.one_in(2) {
            times.reverse();
        }
        call.set_u32(at::LOCAL_PORT, one.local_port);
        call.set_u32(at::PEER_PORT, one.peer_port);
        call.set_u64(at::TIME, times[0]);
        call.set_u32(at::OTHER_LOCAL_PORT, other.local_port);
        call.set_u32(at::OTHER_PEER_PORT, other.peer_port);
        call.set_u64(at::OTHER_TIME, times[1]);
        call
    }
}
