//! The scripted stream: it gives the answers of the call that runs, and remembers what was asked.
use std::cell::RefCell;
use std::io::{Error, ErrorKind, Read, Result, Write};
use std::os::unix::io::{AsRawFd, RawFd};

use crate::vsock::backend::{VsockBackendType, VsockStream};

#[derive(Clone, Copy, Debug, PartialEq)]
pub enum Answer {
    Count(u64),
    WouldBlock,
    Failed,
}

#[derive(Default)]
struct Script {
    writes: Vec<Answer>,
    read: Option<Answer>,
    read_bytes: Vec<u8>,
    lies: bool,
    seen: Seen,
}

/// What the stream saw of a call.
#[derive(Clone, Default)]
pub struct Seen {
    /// The bytes that it took.
    pub taken: Vec<u8>,
    /// What each write offered.
    pub offered: Vec<Vec<u8>>,
    /// For how many bytes a read asked, if there was one.
    pub asked: Option<usize>,
    /// An answer was reached that counts more than was asked, or more than the bytes supplied.
    pub bad: bool,
}

thread_local!(static SCRIPT: RefCell<Script> = RefCell::new(Script::default()));

/// Runs a call whose writes are answered so, and its read so.
pub fn during<T>(
    writes: [Answer; 2],
    read: Answer,
    read_bytes: &[u8],
    call: impl FnOnce() -> T,
) -> (T, Seen) {
    scripted(writes, read, read_bytes, false, call)
}

/// The same with a stream that takes all of a first write, then blocks: to see what is offered.
pub fn offers(call: impl FnOnce()) -> Seen {
    let writes = [Answer::Count(u64::MAX), Answer::WouldBlock];
    scripted(writes, Answer::WouldBlock, &[], false, call).1
}

/// The same with a stream that gives its counts as they are, also where they are too large.
pub fn lying<T>(
    writes: [Answer; 2],
    read: Answer,
    read_bytes: &[u8],
    call: impl FnOnce() -> T,
) -> (T, Seen) {
    scripted(writes, read, read_bytes, true, call)
}

fn scripted<T>(
    writes: [Answer; 2],
    read: Answer,
    read_bytes: &[u8],
    lies: bool,
    call: impl FnOnce() -> T,
) -> (T, Seen) {
    SCRIPT.set(Script {
        writes: writes.into(),
        read: Some(read),
        read_bytes: read_bytes.to_vec(),
        lies,
        seen: Seen::default(),
    });
    let result = call();
    (result, SCRIPT.take().seen)
}

pub struct Scripted;

fn stopped(kind: ErrorKind) -> Result<usize> {
    Err(Error::from(kind))
}

impl Write for Scripted {
    fn write(&mut self, bytes: &[u8]) -> Result<usize> {
        SCRIPT.with_borrow_mut(|script| {
            assert!(!script.writes.is_empty(), "a third write");
            script.seen.offered.push(bytes.to_vec());
            match script.writes.remove(0) {
                Answer::Count(count) => {
                    script.seen.bad |= count > bytes.len() as u64;
                    let taken = count.min(bytes.len() as u64) as usize;
                    script.seen.taken.extend_from_slice(&bytes[..taken]);
                    Ok(if script.lies { count as usize } else { taken })
                }
                Answer::WouldBlock => stopped(ErrorKind::WouldBlock),
                Answer::Failed => stopped(ErrorKind::Other),
            }
        })
    }

    fn flush(&mut self) -> Result<()> {
        Ok(())
    }
}

impl Read for Scripted {
    fn read(&mut self, room: &mut [u8]) -> Result<usize> {
        SCRIPT.with_borrow_mut(|script| {
            script.seen.asked = Some(room.len());
            match script.read.take().expect("a second read") {
                Answer::Count(count) => {
                    let most = room.len().min(script.read_bytes.len());
                    script.seen.bad |= count > most as u64;
                    let read = count.min(most as u64) as usize;
                    room[..read].copy_from_slice(&script.read_bytes[..read]);
                    Ok(if script.lies { count as usize } else { read })
                }
                Answer::WouldBlock => stopped(ErrorKind::WouldBlock),
                Answer::Failed => stopped(ErrorKind::Other),
            }
        })
    }
}

impl AsRawFd for Scripted {
    fn as_raw_fd(&self) -> RawFd {
        -1
    }
}

impl VsockStream for Scripted {
    fn backend_type(&self) -> VsockBackendType {
        VsockBackendType::Inner
    }

    fn as_any(&self) -> &dyn std::any::Any {
        self
    }
}
