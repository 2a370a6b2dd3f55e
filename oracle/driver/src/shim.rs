//! Stands in for `std` inside the original files: a settable clock, and a map that is a list
//! walked in slot order.
pub use ::std::*;

pub mod time {
    use ::std::cell::Cell;
    use ::std::ops::Add;
    pub use ::std::time::Duration;

    const NANOS: u128 = 1_000_000;

    thread_local!(static NOW: Cell<Instant> = const { Cell::new(Instant(0)) });

    /// Nanoseconds; wide enough for every time that a record can hold.
    #[derive(Clone, Copy, Debug, PartialEq, Eq, PartialOrd, Ord, Hash)]
    pub struct Instant(u128);

    impl Instant {
        pub fn now() -> Instant {
            NOW.get()
        }

        pub fn set(now: Instant) {
            NOW.set(now)
        }

        pub fn set_now(ms: u64) {
            Instant::set(Instant::at_ms(ms))
        }

        pub fn at_ms(ms: u64) -> Instant {
            Instant(ms as u128 * NANOS)
        }

        pub fn ms(&self) -> u64 {
            (self.0 / NANOS).try_into().unwrap()
        }

        pub fn checked_duration_since(&self, earlier: Instant) -> Option<Duration> {
            let nanos = self.0.checked_sub(earlier.0)?;
            let second = 1_000 * NANOS;
            Some(Duration::new(
                (nanos / second) as u64,
                (nanos % second) as u32,
            ))
        }
    }

    impl Add<Duration> for Instant {
        type Output = Instant;

        fn add(self, duration: Duration) -> Instant {
            Instant(self.0 + duration.as_nanos())
        }
    }
}

pub mod collections {
    pub use ::std::collections::{HashSet, VecDeque};

    pub struct HashMap<K, V> {
        pub slots: Vec<Option<(K, V)>>,
    }

    impl<K: PartialEq, V> HashMap<K, V> {
        pub fn new() -> Self {
            Self { slots: Vec::new() }
        }

        pub fn with_capacity(_: usize) -> Self {
            Self::new()
        }

        pub fn iter(&self) -> impl Iterator<Item = (&K, &V)> {
            self.slots.iter().flatten().map(|(key, value)| (key, value))
        }

        pub fn len(&self) -> usize {
            self.iter().count()
        }

        fn place(&self, key: &K) -> Option<usize> {
            self.slots
                .iter()
                .position(|slot| matches!(slot, Some((k, _)) if k == key))
        }

        pub fn contains_key(&self, key: &K) -> bool {
            self.place(key).is_some()
        }

        pub fn get(&self, key: &K) -> Option<&V> {
            self.slots[self.place(key)?].as_ref().map(|slot| &slot.1)
        }

        pub fn get_mut(&mut self, key: &K) -> Option<&mut V> {
            let place = self.place(key)?;
            self.slots[place].as_mut().map(|slot| &mut slot.1)
        }

        pub fn insert(&mut self, key: K, value: V) -> Option<V> {
            let old = self.remove(&key);
            self.slots.push(Some((key, value)));
            old
        }

        pub fn remove(&mut self, key: &K) -> Option<V> {
            let place = self.place(key)?;
            self.slots[place].take().map(|slot| slot.1)
        }

        pub fn entry(&mut self, key: K) -> Entry<'_, V> {
            Entry(self.get_mut(&key))
        }
    }

    pub struct Entry<'a, V>(Option<&'a mut V>);

    impl<V> Entry<'_, V> {
        pub fn and_modify(mut self, change: impl FnOnce(&mut V)) -> Self {
            if let Some(value) = self.0.as_mut() {
                change(value)
            }
            self
        }
    }
}
