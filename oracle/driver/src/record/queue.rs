//! Queues and tables.
use crate::frame::{at, Frame, MARKS, PLACES, PORTS, USED};
use crate::limits::*;

/// The bytes of a place.
const PLACE: usize = 20;

#[derive(Clone, Copy, Debug, Default, PartialEq)]
pub struct Item {
    pub rst: bool,
    pub local_port: u32,
    pub peer_port: u32,
    pub time: u64,
}

impl Item {
    fn read(place: &[u8]) -> Self {
        Item {
            rst: place[0] != 0,
            local_port: u32::from_le_bytes(place[4..8].try_into().unwrap()),
            peer_port: u32::from_le_bytes(place[8..12].try_into().unwrap()),
            time: u64::from_le_bytes(place[12..20].try_into().unwrap()),
        }
    }

    fn bytes(&self) -> [u8; PLACE] {
        let mut place = [0; PLACE];
        place[0] = self.rst as u8;
        place[4..8].copy_from_slice(&self.local_port.to_le_bytes());
        place[8..12].copy_from_slice(&self.peer_port.to_le_bytes());
        place[12..20].copy_from_slice(&self.time.to_le_bytes());
        place
    }
}

/// The limits of a kill queue or of an RX queue.
pub fn limits(kill: bool) -> std::ops::RangeInclusive<u64> {
    match kill {
        true => MIN_KILLQ_SIZE as u64..=MAX_KILLQ_SIZE as u64,
        false => MIN_RXQ_SIZE as u64..=MAX_RXQ_SIZE as u64,
    }
}

/// A queue: its places are those up to the last that is not the zero item.
#[derive(Clone, Debug, PartialEq)]
pub struct Queue {
    pub limit: u64,
    pub len: u64,
    pub synced: bool,
    pub places: Vec<Item>,
}

impl Queue {
    pub fn empty(limit: u64) -> Self {
        Queue::of(limit, true, vec![])
    }

    pub fn of(limit: u64, synced: bool, items: Vec<Item>) -> Self {
        Queue {
            limit,
            len: items.len() as u64,
            synced,
            places: items,
        }
    }

    pub fn read(frame: &Frame) -> Self {
        Queue {
            limit: frame.u64(at::LIMIT),
            len: frame.u64(at::QUEUE_LEN),
            synced: frame.yes(at::SYNCED),
            places: frame.runs[PLACES].chunks(PLACE).map(Item::read).collect(),
        }
    }

    /// The run of places ends at the last that is not the zero item.
    pub fn put(&self, frame: &mut Frame) {
        frame.set_u64(at::LIMIT, self.limit);
        frame.set_u64(at::QUEUE_LEN, self.len);
        frame.set_yes(at::SYNCED, self.synced);
        let zero = Item::default();
        let end = self.places.iter().rposition(|item| *item != zero);
        let places = &self.places[..end.map_or(0, |last| last + 1)];
        frame.runs[PLACES] = places.iter().flat_map(Item::bytes).collect();
    }

    pub fn is_sound(&self, kill: bool) -> bool {
        let zero = Item::default();
        limits(kill).contains(&self.limit)
            && self.len <= self.limit
            && self
                .places
                .iter()
                .skip(self.len as usize)
                .all(|i| *i == zero)
    }

    /// The items of a sound queue, the zero items at its rear too.
    pub fn items(&self) -> Vec<Item> {
        let mut items = self.places.clone();
        items.resize(self.len as usize, Item::default());
        items
    }
}

#[derive(Clone, Copy, Debug, PartialEq)]
pub struct Slot {
    pub used: bool,
    pub local_port: u32,
    pub peer_port: u32,
    /// What is pending, or a time; 0 is none.
    pub mark: u64,
}

/// The slots of a frame's table, if it is sound; the marks are bytes, or numbers of 8.
pub fn table(frame: &Frame, wide: bool) -> Option<Vec<Slot>> {
    let number = |bytes: &[u8]| u64::from_le_bytes(bytes.try_into().unwrap());
    let ports: Vec<u64> = frame.runs[PORTS].chunks_exact(8).map(number).collect();
    let marks: Vec<u64> = match wide {
        true => frame.runs[MARKS].chunks_exact(8).map(number).collect(),
        false => frame.runs[MARKS].iter().map(|b| *b as u64).collect(),
    };
    let used = &frame.runs[USED];
    if !(MIN_CONNECTIONS..=MAX_CONNECTIONS).contains(&ports.len())
        || used.len() != ports.len()
        || marks.len() != used.len()
    {
        return None;
    }
    let mut seen = std::collections::HashSet::new();
    if (0..ports.len()).any(|i| used[i] != 0 && !seen.insert(ports[i])) {
        return None;
    }
    let slot = |i: usize| Slot {
        used: used[i] != 0,
        local_port: (ports[i] >> 32) as u32,
        peer_port: ports[i] as u32,
        mark: marks[i],
    };
    Some((0..ports.len()).map(slot).collect())
}
