//! Stands in for the crate `epoll`: event sets, and calls that do nothing.
use std::io::Result;
use std::os::unix::io::RawFd;

#[derive(Clone, Copy, Debug, PartialEq, Eq)]
pub struct Events(pub u32);

impl Events {
    pub const EPOLLIN: Events = Events(1);
    pub const EPOLLOUT: Events = Events(4);

    pub fn empty() -> Self {
        Events(0)
    }

    pub fn bits(&self) -> u32 {
        self.0
    }

    pub fn from_bits(bits: u32) -> Option<Self> {
        Some(Events(bits))
    }

    pub fn insert(&mut self, other: Events) {
        self.0 |= other.0
    }

    pub fn contains(&self, other: Events) -> bool {
        self.0 & other.0 == other.0
    }

    pub fn is_empty(&self) -> bool {
        self.0 == 0
    }
}

impl std::ops::BitOr for Events {
    type Output = Events;

    fn bitor(self, other: Events) -> Events {
        Events(self.0 | other.0)
    }
}

#[derive(Clone, Copy)]
pub struct Event {
    pub events: u32,
    pub data: u64,
}

impl Event {
    pub fn new(events: Events, data: u64) -> Self {
        Event {
            events: events.0,
            data,
        }
    }
}

#[allow(non_camel_case_types)]
pub enum ControlOptions {
    EPOLL_CTL_ADD,
    EPOLL_CTL_DEL,
    EPOLL_CTL_MOD,
}

pub fn create(_: bool) -> Result<RawFd> {
    Ok(1000)
}

pub fn ctl(_: RawFd, _: ControlOptions, _: RawFd, _: Event) -> Result<()> {
    Ok(())
}

pub fn wait(_: RawFd, _: i32, _: &mut [Event]) -> Result<usize> {
    Ok(0)
}
