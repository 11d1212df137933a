//! Varints: read, length, put.

use reference::batch::answer::{bytes_line, length_line, varint_line};
use reference::batch::{kind, Call, Case};
use reference::rng::Rng;
use reference::varint::{self, MAX_LEN};
use reference::LIMIT;

use super::{line, Kind, Limit};
use crate::library::{self, lend};

pub struct Varint;

impl Kind for Varint {
    fn name(&self) -> &'static str {
        "varint"
    }

    fn count(&self) -> u64 {
        1_000_000
    }

    fn generate(&self, rng: &mut Rng) -> Case {
        match rng.below(8) {
            0 => length_case(rng),
            1 | 2 => put_case(rng),
            _ => read_case(rng),
        }
    }

    fn library(&self, call: &Call, full: bool) -> Option<String> {
        Some(match *call {
            Call::Varint { bytes, at, end } => read_line(bytes, at, end),
            Call::VarintLen { value } => length_line(library::varint_len(value)),
            Call::VarintPut { value, output } => {
                let stored = lend(output, |lent| library::varint_put(lent, value));
                line(stored.map(|out| bytes_line("put", &out, full)))
            }
            _ => return None,
        })
    }

    fn limits(&self) -> Vec<Limit> {
        let mut over = vec![0; LIMIT + 1];
        let full = &over[..LIMIT];
        let read = |bytes: &[u8], at: usize| (read_line(bytes, at, bytes.len()), told(bytes, at));
        let last = read(full, LIMIT - 1);
        let past = read(full, LIMIT);
        let long = read(&over, 3);
        let full = (put_line(&mut over[..LIMIT], 300), put_told(LIMIT, 300));
        let room = (put_line(&mut over, 300), put_told(LIMIT + 1, 300));
        let limit = |what, (library, reference)| Limit {
            what,
            library,
            reference,
        };
        vec![
            limit("read the last of 1073741824 bytes", last),
            limit("read past 1073741824 bytes", past),
            limit("read of 1073741825 bytes", long),
            limit("put into 1073741824 bytes", full),
            limit("put into 1073741825 bytes", room),
        ]
    }
}

fn read_line(bytes: &[u8], at: usize, end: usize) -> String {
    let answer = library::varint_read(bytes, at, end);
    line(answer.map(|(value, next)| varint_line(value, next.wrapping_sub(at))))
}

/// What the reference says to a read to the slice's end.
fn told(bytes: &[u8], at: usize) -> String {
    match varint::read_at(bytes, at, bytes.len()) {
        Ok((value, next)) => varint_line(value, next - at),
        Err(refusal) => refusal.to_string(),
    }
}

/// The library's put into a buffer of zeros too large to be looked through: its
/// start and its end are, and cleared again.
fn put_line(output: &mut [u8], value: u64) -> String {
    let answer = library::varint_put(output, value);
    let (start, end) = (output[..16].to_vec(), &output[output.len() - 16..]);
    let line = match answer {
        Ok(len) => format!("stored {len}"),
        Err(fault) => fault.to_string(),
    };
    let line = format!("{line}: {start:?} .. {end:?}");
    output[..16].fill(0);
    line
}

/// The reference's, in the same words.
fn put_told(output: usize, value: u64) -> String {
    let (mut start, end) = ([0; 16], [0; 16]);
    let line = match varint::put(output, value) {
        Ok(bytes) => {
            start[..bytes.len()].copy_from_slice(&bytes);
            format!("stored {}", bytes.len())
        }
        Err(refusal) => refusal.to_string(),
    };
    format!("{line}: {start:?} .. {end:?}")
}

fn number(value: u64) -> Vec<u8> {
    value.to_be_bytes().to_vec()
}

/// A number of any length, often at the edge of one.
fn random_value(rng: &mut Rng) -> u64 {
    match rng.below(4) {
        0 => {
            let edge = (1u64 << (7 * (1 + rng.below(8)))).wrapping_sub(1);
            edge.wrapping_add(rng.below(3)).wrapping_sub(rng.below(2))
        }
        1 => *rng.pick(&[0, 1, 127, 128, 1 << 56, 1 << 63, u64::MAX]),
        _ => {
            let shift = rng.below(64);
            rng.next() >> shift
        }
    }
}

fn length_case(rng: &mut Rng) -> Case {
    Case {
        kind: kind::VARINT_LEN,
        blobs: vec![number(random_value(rng))],
    }
}

/// Into a buffer too short, exact, or longer.
fn put_case(rng: &mut Rng) -> Case {
    let value = random_value(rng);
    let needed = varint::len(value) as u64;
    let output = match rng.below(5) {
        0 => needed,
        1 => needed - 1,
        2 => needed + 1 + rng.below(20),
        _ => rng.below(12),
    };
    Case {
        kind: kind::VARINT_PUT,
        blobs: vec![number(value), number(output)],
    }
}

/// Some bytes, a varint in any form or bytes at random, some bytes; read from
/// that varint or from elsewhere, to an end inside, at or past the slice.
fn read_case(rng: &mut Rng) -> Case {
    let before = rng.index(4) * rng.index(5);
    let mut bytes = rng.bytes(before);
    let start = bytes.len();
    if rng.one_in(8) {
        let len = rng.index(12);
        bytes.extend(rng.bytes(len));
    } else {
        let value = random_value(rng);
        let shortest = varint::len(value);
        let longer = rng.index(MAX_LEN - shortest + 1) * rng.index(2);
        varint::write_form(&mut bytes, value, shortest + longer);
    }
    let behind = bytes.len();
    let more = rng.index(4) * rng.index(5);
    bytes.extend(rng.bytes(more));
    let at = random_place(rng, start, &bytes);
    let end = match rng.below(6) {
        0 => random_place(rng, behind, &bytes),
        1 => (behind - rng.index(behind - start + 1)) as u64,
        2 => behind as u64,
        _ => bytes.len() as u64,
    };
    Case {
        kind: kind::VARINT,
        blobs: vec![bytes, number(at), number(end)],
    }
}

/// Mostly `usual`; else about the slice's end, anywhere in it, or far away.
fn random_place(rng: &mut Rng, usual: usize, bytes: &[u8]) -> u64 {
    let len = bytes.len() as u64;
    match rng.below(12) {
        0 => (len + rng.below(3)).saturating_sub(1),
        1 => rng.below(len + 1),
        2 => *rng.pick(&[u64::MAX, u64::MAX - 8, 1 << 63, 1 << 32]),
        _ => usual as u64,
    }
}
