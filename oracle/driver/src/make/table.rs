//! Tables, and the builds from one.
use super::Maker;
use crate::entries::*;
use crate::frame::*;
use crate::limits::*;
use crate::record::{limits, table};

impl Maker {
    /// A build. Its limit is mostly the number of slots that are to be queued, or one beside it.
    pub(super) fn build_call(&mut self, kill: bool) -> Frame {
        let mut call = Frame::new(if kill {
            KILLQ_FROM_CONN_MAP
        } else {
            RXQ_FROM_CONN_MAP
        });
        self.put_table(&mut call, kill);
        let slots = table(&call, kill).unwrap_or_default();
        if kill {
            let around = match slots.is_empty() {
                true => None,
                false => Some(self.pick(&slots).mark),
            };
            let clock = self.clock(around);
            call.set_u64(at::CLOCK, clock);
        }
        let after = if kill { call.u64(at::CLOCK) } else { 0 };
        let due = slots.iter().filter(|slot| slot.used && slot.mark > after);
        let count = due.count() as u64;
        let limit = match self.below(4) {
            0 => self.limit(kill),
            _ => (count + self.below(3)).saturating_sub(1),
        };
        let limit = if self.one_in(40) {
            limit
        } else {
            limit.clamp(*limits(kill).start(), *limits(kill).end())
        };
        call.set_u64(at::LIMIT, limit);
        call
    }

    /// How many slots: a few, any number, or about as many as a queue may hold.
    fn slots(&mut self, kill: bool) -> u64 {
        let most = MAX_CONNECTIONS as u64;
        match self.below(60) {
            0 => self.pick(&[0, most + 1]),
            1 => most,
            2..16 => self.even(1, most),
            16..30 => self.even(1, limits(kill).end() + limits(kill).end() / 2),
            _ => self.even(1, 9),
        }
    }

    /// A table; the marks are what is pending, or times.
    fn put_table(&mut self, call: &mut Frame, kill: bool) {
        let n = self.slots(kill);
        let twice = self.one_in(12);
        let far = self.one_in(2);
        let used = self.pick(&[1, 4, 4, 100]);
        for i in 0..n {
            let ports = match (twice, far) {
                (true, _) => self.below(n) << 32 | self.below(3),
                (false, true) => self.next(),
                (false, false) => i << 32 | self.below(3),
            };
            call.runs[PORTS].extend(ports.to_le_bytes());
            call.runs[USED].push(match self.one_in(used + 1) {
                true => 0,
                false => 1 + self.below(3) as u8,
            });
            match kill {
                true => {
                    let time = self.time();
                    call.runs[MARKS].extend(time.to_le_bytes())
                }
                false => {
                    let pending = match self.one_in(3) {
                        true => 0,
                        false => self.below(32) as u8,
                    };
                    call.runs[MARKS].push(pending)
                }
            }
        }
        if self.one_in(60) {
            let run = self.pick(&[PORTS, USED, MARKS]);
            let slot = if run == USED { 1 } else { 8 };
            let fewer = call.runs[run].len().saturating_sub(slot);
            call.runs[run].truncate(fewer);
        }
    }
}
