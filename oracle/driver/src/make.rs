//! Makes calls, half of them by the edges of their numbers and half by numbers drawn evenly: single
//! calls on records of any kind, and walks. It runs the Rust as it goes, to walk.
mod chance;
mod conn;
mod packets;
mod queue;
mod ring;
mod table;
mod walks;

use crate::calls;
use crate::frame::*;
use crate::record::*;
use ring::WALKED;
use walks::{Mood, Walk};

pub struct Maker {
    /// The state of chance.
    state: u64,
    /// The largest ring whose storage is lent; larger ones are met by calls that lend none.
    lent: u32,
    /// The call that is being made belongs to a walk; and to which of two.
    walks: bool,
    walk: usize,
    /// How much goes wrong in it.
    mood: Mood,
    conns: [Walk<Conn>; 2],
    rings: [Walk<Ring>; 2],
    rxq: Queue,
    killq: Queue,
}

impl Maker {
    pub fn new(seed: u64, batch: u64, lent: u32) -> Self {
        let conn = || Walk::from((calls::zero_conn(), vec![]));
        let ring = || Walk::from((calls::ring_of(0, 0, 0), vec![]));
        let mut maker = Maker {
            // By another factor than `next` adds, or one seed's draws would be the next one's.
            state: seed.wrapping_mul(0xbf58_476d_1ce4_e5b9)
                ^ batch.wrapping_mul(0xd134_2543_de82_ef95),
            lent,
            walks: false,
            walk: 0,
            mood: Mood::Wild,
            conns: [conn(), conn()],
            rings: [ring(), ring()],
            rxq: Queue::empty(1),
            killq: Queue::empty(1),
        };
        maker.conns[0] = maker.start(Self::any_conn, |conn| conn.ring.size);
        maker.rings[0] = maker.start(Self::any_ring, |ring| ring.size);
        maker
    }

    /// Where a walk starts: on a ring that is walked on.
    fn start<T>(&mut self, draw: fn(&mut Self) -> (T, Vec<u8>), size: fn(&T) -> u32) -> Walk<T> {
        loop {
            let place = draw(self);
            if size(&place.0) <= WALKED {
                return Walk::from(place);
            }
        }
    }

    /// The next call, marked.
    pub fn next_call(&mut self) -> Frame {
        self.walks = self.one_in(2);
        self.walk = self.below(2) as usize;
        self.mood = Mood::Wild;
        let mut call = match self.below(100) {
            0..18 => self.ring_call(),
            18..70 => self.conn_call(),
            70..86 => self.rxq_call(),
            86..98 => self.killq_call(),
            _ => self.hdr_call(),
        };
        let reply = calls::reply(&call);
        call.set_u8(at::MARK, reply.u8(at::MARK));
        if self.walks && !(1..=6).contains(&reply.u8(at::NUMBER)) {
            self.go_on(&reply);
        }
        call
    }
}
