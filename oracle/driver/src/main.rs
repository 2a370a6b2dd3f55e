//! The oracle: makes calls, runs them through the Rust, and shows them (oracle/README.md).
#![allow(dead_code, unused_doc_comments, unused_imports)]
mod beyond;
mod calls;
mod entries;
mod frame;
mod limits;
mod make;
mod record;
mod settings;
mod shim;
mod show;
mod stream;
mod vsock;

use std::collections::BTreeMap;
use std::fs::File;
use std::io::{BufReader, BufWriter, Read, Result, Write};

use frame::{at, Frame};

const USAGE: &str = "usage: oracle COMMAND
  gen SEED BATCH CALLS [LENT] >calls
                                  makes calls; rings are lent up to LENT bytes, a packet's if not said
  run <calls >replies             runs calls through the Rust
  sized OVER MOST CALLS <calls    keeps the first calls whose bytes are over one number and at most another
  tally <replies                  counts replies by entry, answer and mark
  states <calls                   counts a connection's compared calls by state
  shrunk <calls                   counts those that meet an allocation below what is outstanding,
                                  those that go by credit, and those that do both
  shut <calls                     counts SHUTDOWNs that leave both flags set while bytes are held, by
                                  state (Established, PeerClosed, with both set before) and by timer
  killed <calls                   counts calls that kill while more than a reset is pending, by what
                                  kills (a failed write, a full ring, a failed flush, `kill`), and
                                  failed flushes that fall short of the threshold
  larger <calls                   counts compared calls over the limits before 2026-10: on rings those
                                  that lend the storage, of which so many go round its end and so
                                  many take a piece longer than a packet, and those that lend none;
                                  builds from tables; calls on RX queues, of which so many hold
                                  more items than before
  show calls|replies <frames      prints them
  differ CALLS REPLIES OTHERS     prints the first call whose replies differ
  beyond                          what the Rust does where docs/DIFFERENCES.md says that it differs";

fn main() -> Result<()> {
    let words: Vec<String> = std::env::args().skip(1).collect();
    let words: Vec<&str> = words.iter().map(String::as_str).collect();
    let input = &mut BufReader::with_capacity(1 << 16, std::io::stdin().lock());
    let output = &mut BufWriter::with_capacity(1 << 16, std::io::stdout().lock());
    match words[..] {
        ["gen", seed, batch, calls, ref lent @ ..] if lent.len() < 2 => {
            let packet = limits::MAX_PKT_BUF_SIZE as u64;
            let lent = lent.first().map_or(packet, |word| number(word)) as u32;
            let maker = make::Maker::new(number(seed), number(batch), lent);
            gen(maker, number(calls), output)?
        }
        ["run"] => run(input, output)?,
        ["states"] => states(input, output)?,
        ["shrunk"] => shrunk(input, output)?,
        ["shut"] => shut(input, output)?,
        ["killed"] => killed(input, output)?,
        ["larger"] => larger(input, output)?,
        ["show", what] => {
            while let Some(frame) = Frame::read(input)? {
                let text = match what {
                    "calls" => show::call(&frame),
                    _ => show::reply(&frame),
                };
                writeln!(output, "{text}\n")?;
            }
        }
        ["sized", over, most, calls] => {
            sized(number(over)..number(most), number(calls), input, output)?
        }
        ["beyond"] => beyond::all(output)?,
        ["tally"] => tally(input, output)?,
        ["differ", calls, replies, others] => differ(calls, replies, others, output)?,
        _ => {
            eprintln!("{USAGE}");
            std::process::exit(2);
        }
    }
    output.flush()
}

fn number(word: &str) -> u64 {
    word.parse().expect("a number")
}

fn gen(mut maker: make::Maker, calls: u64, output: &mut impl Write) -> Result<()> {
    (0..calls).try_for_each(|_| maker.next_call().write(output))
}

fn run(input: &mut impl Read, output: &mut impl Write) -> Result<()> {
    while let Some(call) = Frame::read(input)? {
        let reply = calls::reply(&call);
        let mark = at::MARK;
        assert_eq!(call.u8(mark), reply.u8(mark), "{}", show::call(&call));
        reply.write(output)?;
    }
    Ok(())
}

fn sized(
    bytes: std::ops::Range<u64>,
    calls: u64,
    input: &mut impl Read,
    output: &mut impl Write,
) -> Result<()> {
    let mut kept = 0;
    while let Some(call) = Frame::read(input)? {
        if kept < calls && bytes.contains(&(call.bytes() - 1)) {
            call.write(output)?;
            kept += 1;
        }
    }
    Ok(())
}

/// A line for each entry and answer: how often it came, by the mark.
fn tally(input: &mut impl Read, output: &mut impl Write) -> Result<()> {
    let mut counts = BTreeMap::new();
    while let Some(reply) = Frame::read(input)? {
        let key = (reply.entry(), reply.u8(at::NUMBER), reply.u8(at::MARK));
        *counts.entry(key).or_insert(0u64) += 1;
    }
    for ((entry, answer, mark), count) in counts {
        let name = entries::name(entry).replace(' ', "_");
        writeln!(output, "{entry} {name} {answer} {} {count}", mark as char)?;
    }
    Ok(())
}

/// A line for each state, with how often each kind of call met it.
fn states(input: &mut impl Read, output: &mut impl Write) -> Result<()> {
    let mut counts: BTreeMap<String, [u64; 7]> = BTreeMap::new();
    while let Some(call) = Frame::read(input)? {
        let kind = match call.entry() {
            _ if call.u8(at::MARK) != frame::BY_RUST => continue,
            entries::SEND_PKT => match calls::op(&call.runs[frame::HDR]) {
                5 => 0,
                2 => 1,
                4 => 2,
                7 => 3,
                _ => 4,
            },
            entries::RECV_PKT => 5,
            entries::NOTIFY => 6,
            _ => continue,
        };
        let state = format!("{:?}", record::State::read(&call));
        counts.entry(state).or_default()[kind] += 1;
    }
    writeln!(
        output,
        "state: RW, RESPONSE, SHUTDOWN, CREDIT_REQUEST, other ops; receive; notify"
    )?;
    counts
        .iter()
        .try_for_each(|(state, counts)| writeln!(output, "{state}: {counts:?}"))
}

/// How many of a connection's compared calls meet a guest that allocates less than is outstanding; how
/// many go by credit; and how many do both.
fn shrunk(input: &mut impl Read, output: &mut impl Write) -> Result<()> {
    let (mut met, mut by_credit, mut both) = (0u64, 0u64, 0u64);
    while let Some(call) = Frame::read(input)? {
        if call.u8(at::MARK) != frame::BY_RUST {
            continue;
        }
        let conn = record::Conn::read(&call);
        let goes = match call.entry() {
            entries::RECV_PKT | entries::RECV_ASKED => conn.data_first(),
            entries::GET_POLLED_EVSET => conn.polls(),
            entries::SEND_PKT..=entries::RAW_ASKED => false,
            _ => continue,
        };
        met += conn.is_shrunk() as u64;
        by_credit += goes as u64;
        both += (goes && conn.is_shrunk()) as u64;
    }
    writeln!(output, "{met} {by_credit} {both}")
}

/// How many compared SHUTDOWNs leave both flags set while bytes are held: in Established, in
/// PeerClosed, and where both were set before; of each those that meet no timer, and those that do.
fn shut(input: &mut impl Read, output: &mut impl Write) -> Result<()> {
    let mut counts = [0u64; 6];
    while let Some(call) = Frame::read(input)? {
        let hdr = &call.runs[frame::HDR];
        if call.u8(at::MARK) != frame::BY_RUST
            || call.entry() != entries::SEND_PKT
            || calls::op(hdr) != 4
        {
            continue;
        }
        let conn = record::Conn::read(&call);
        let flags = calls::flags(hdr);
        let (recv_off, send_off) = (flags & 1 != 0, flags & 2 != 0);
        let state = match conn.state {
            _ if conn.ring.held() == 0 => continue,
            record::State::Established if recv_off && send_off => 0,
            record::State::PeerClosed(true, true) => 4,
            record::State::PeerClosed(r, s) if (r || recv_off) && (s || send_off) => 2,
            _ => continue,
        };
        counts[state + conn.expiry.is_some() as usize] += 1;
    }
    writeln!(output, "{}", counts.map(|n| n.to_string()).join(" "))
}

/// How many compared calls kill while more than a reset is pending: by a failed write, a full ring, a
/// failed flush and `kill`; and how many failed flushes would owe an update by the threshold rule.
fn killed(input: &mut impl Read, output: &mut impl Write) -> Result<()> {
    let mut counts = [0u64; 5];
    while let Some(call) = Frame::read(input)? {
        if call.u8(at::MARK) != frame::BY_RUST {
            continue;
        }
        let conn = record::Conn::read(&call);
        let [first, _] = call.answers();
        let (held, failed) = (conn.ring.held() as u64, first == stream::Answer::Failed);
        let mut pending = conn.pending;
        let by = match call.entry() {
            entries::SEND_PKT if calls::brings_data(&call, &conn) => {
                let taken = match first {
                    stream::Answer::Count(n) if held == 0 => n,
                    _ => 0,
                };
                let len = calls::len(&call.runs[frame::HDR]) as u64;
                match held == 0 && failed {
                    true => 0,
                    false if held + len - taken > conn.ring.size as u64 => 1,
                    false => continue,
                }
            }
            entries::NOTIFY if call.yes(at::WRITABLE) && held > 0 && failed => {
                pending |= (call.yes(at::READABLE) as u8) << 3;
                counts[4] += conn.falls_short() as u64;
                2
            }
            entries::KILL => 3,
            _ => continue,
        };
        counts[by] += (pending & !4 != 0) as u64;
    }
    writeln!(output, "{}", counts.map(|n| n.to_string()).join(" "))
}

/// How many compared calls go over the limits before 2026-10. On rings: those that lend the storage, of
/// them those that write or take bytes round its end and those that take more than a packet's bytes of
/// the first piece, and those that lend none. Builds from tables. Calls on RX queues, and of them those
/// that hold more items.
fn larger(input: &mut impl Read, output: &mut impl Write) -> Result<()> {
    const RING: u32 = 65_536;
    const SLOTS: usize = 512;
    const QUEUE: u64 = 256;
    let mut counts = [0u64; 7];
    while let Some(call) = Frame::read(input)? {
        if call.u8(at::MARK) != frame::BY_RUST {
            continue;
        }
        match call.entry() {
            entry @ entries::RING_NEW..=entries::RAW_ASKED => {
                let ring = record::Ring::read(&call);
                if ring.size <= RING {
                    continue;
                }
                counts[if entries::lends(entry) { 0 } else { 3 }] += 1;
                use entries::*;
                if matches!(entry, RING_PUSH | RING_FLUSH_TO | SEND_PKT | NOTIFY) {
                    let left = record::Ring::read(&calls::reply(&call));
                    let pushed = left.head.wrapping_sub(ring.head);
                    let taken = left.tail.wrapping_sub(ring.tail);
                    let round = ring.head % ring.size + pushed > ring.size || taken > ring.first();
                    counts[1] += round as u64;
                    counts[2] += (taken.min(ring.first()) > RING) as u64;
                }
            }
            entries::RXQ_FROM_CONN_MAP | entries::KILLQ_FROM_CONN_MAP => {
                counts[4] += (call.runs[frame::USED].len() > SLOTS) as u64
            }
            entries::RXQ_NEW..=entries::RXQ_IS_FULL => {
                counts[5] += (call.u64(at::LIMIT) > QUEUE) as u64;
                counts[6] += (call.u64(at::QUEUE_LEN) > QUEUE) as u64;
            }
            _ => (),
        }
    }
    writeln!(output, "{}", counts.map(|n| n.to_string()).join(" "))
}

/// The first call whose replies differ.
fn differ(calls: &str, replies: &str, others: &str, output: &mut impl Write) -> Result<()> {
    let open = |name| Ok::<_, std::io::Error>(BufReader::new(File::open(name)?));
    let (mut calls, mut replies, mut others) = (open(calls)?, open(replies)?, open(others)?);
    let mut place = 0u64;
    while let Some(call) = Frame::read(&mut calls)? {
        place += 1;
        let rust = Frame::read(&mut replies)?;
        let rattle = Frame::read(&mut others).unwrap_or(None);
        if rust != rattle {
            writeln!(output, "call {place} differs\n{}", show::call(&call))?;
            let shown = |reply: Option<Frame>| reply.map_or("nothing".into(), |r| show::reply(&r));
            writeln!(output, "the Rust says\n{}", shown(rust))?;
            writeln!(output, "the port says\n{}", shown(rattle))?;
            return Ok(());
        }
    }
    writeln!(output, "no difference in {place} calls")
}
