//! Schema records: the two checks, and whether two schemas are equal.

use reference::batch::answer::{check_schema, same_line, schema_line};
use reference::batch::{kind, Call, Case, Named};
use reference::rng::Rng;
use reference::schema::{MOST, RECORD};
use reference::types::{is_refused_column, width_of, REVERSED};
use reference::{Side, LIMIT};

use super::damage::{beside, damage};
use super::{line, Kind, Limit};
use crate::library::{self, Answer, Fault};

pub struct Schema;

impl Kind for Schema {
    fn name(&self) -> &'static str {
        "schema"
    }

    fn count(&self) -> u64 {
        1_000_000
    }

    fn generate(&self, rng: &mut Rng) -> Case {
        match rng.below(3) {
            0 => same_case(rng),
            _ => check_case(rng),
        }
    }

    fn library(&self, call: &Call, _full: bool) -> Option<String> {
        Some(match *call {
            Call::Schema { schema, statistics } => line(check(schema, statistics).map(schema_line)),
            Call::Same { a, b } => line(same(a, b).map(same_line)),
            _ => return None,
        })
    }

    fn limits(&self) -> Vec<Limit> {
        let over = vec![0; LIMIT + 1];
        let key = [0, 33, 0, 255, 0, 0, 0, 0, 0, 0, 0, 0, 0, 0, 0, 0];
        let limit = |what, schema: &[u8], statistics: Option<&[u8]>| Limit {
            what,
            library: line(check(schema, statistics).map(schema_line)),
            reference: match check_schema(schema, statistics) {
                Ok(_) => "ok schema 0 0 0".into(),
                Err(refusal) => refusal.to_string(),
            },
        };
        let full = &over[..LIMIT];
        vec![
            limit("schema of 1073741824 bytes", full, None),
            limit("schema of 1073741825 bytes", &over, None),
            limit("schema of 1073741824 bytes, named", full, Some(&key)),
            limit("schema of 1073741825 bytes, named", &over, Some(&key)),
            limit("schema beside 1073741825 bytes", &key, Some(&over)),
        ]
    }
}

fn check(schema: &[u8], statistics: Option<&[u8]>) -> Answer<[u64; 3]> {
    match statistics {
        Some(statistics) => library::schema_check_named(schema, statistics),
        None => library::schema_check(schema),
    }
}

/// Both schemas are checked first, as the comparison asks.
fn same(a: Named, b: Named) -> Answer<bool> {
    for (side, Named { schema, statistics }) in [(Side::A, a), (Side::B, b)] {
        library::schema_check_named(schema, statistics).map_err(|fault| match fault {
            Fault::Refused(refusal) => Fault::Refused(refusal.on(side)),
            broken => broken,
        })?;
    }
    Ok(library::schema_same(
        a.schema,
        a.statistics,
        b.schema,
        b.statistics,
    ))
}

/// Schema records of one to many columns, and the Statistics beside them.
struct Made {
    schema: Vec<u8>,
    statistics: Vec<u8>,
}

fn record(role: u8, line: u8, mark: u8, name: (u32, u32)) -> [u8; RECORD] {
    let mut out = [0; RECORD];
    out[..4].copy_from_slice(&[role, line, mark, width_of(line)]);
    out[4..8].copy_from_slice(&name.0.to_be_bytes());
    out[8..12].copy_from_slice(&name.1.to_be_bytes());
    out
}

/// A line that records of this role may have.
fn random_line(rng: &mut Rng, role: u8) -> u8 {
    loop {
        let line = 1 + rng.below(34) as u8;
        if line != REVERSED && (role < 2 || !is_refused_column(line)) {
            return line;
        }
    }
}

/// A sound schema; its columns at, and now and then one above, the bounds.
fn sound(rng: &mut Rng) -> Made {
    let len = rng.index(40);
    let statistics = rng.bytes(len);
    let full = rng.one_in(12);
    let mut schema = record(0, random_line(rng, 0), rng.below(2) as u8, (0, 0)).to_vec();
    for role in 1..=3 {
        let most = MOST[usize::from(role)] as u64;
        let count = match (full, rng.below(8)) {
            (true, 0..=2) => most,
            (true, 3) => most + rng.below(2),
            _ => rng.below(3) * rng.below(2),
        };
        for _ in 0..count {
            let name = match role {
                1 => (0, 0),
                _ => random_name(rng, len),
            };
            let line = random_line(rng, role);
            schema.extend(record(role, line, rng.below(2) as u8, name));
        }
    }
    Made { schema, statistics }
}

/// A name's place inside `len` bytes, often up to their end.
fn random_name(rng: &mut Rng, len: usize) -> (u32, u32) {
    let at = rng.index(len + 1);
    let rest = len - at;
    let size = match rng.below(3) {
        0 => rest,
        _ => rng.index(rest.min(5) + 1),
    };
    (at as u32, size as u32)
}

fn check_case(rng: &mut Rng) -> Case {
    let Made {
        mut schema,
        mut statistics,
    } = sound(rng);
    match rng.below(9) {
        0 => damage(rng, &mut schema),
        1 => change_byte(rng, &mut schema),
        2 => change_records(rng, &mut schema),
        3 => change_name(rng, &mut schema, statistics.len()),
        4 => statistics.truncate(rng.index(statistics.len() + 1)),
        _ => {}
    }
    let mut blobs = vec![schema];
    if rng.one_in(2) {
        blobs.push(statistics);
    }
    Case {
        kind: kind::SCHEMA,
        blobs,
    }
}

/// One byte of one record.
fn change_byte(rng: &mut Rng, schema: &mut [u8]) {
    let at = rng.index(schema.len());
    schema[at] = match rng.below(4) {
        0 => schema[at].wrapping_add(1),
        1 => schema[at].wrapping_sub(1),
        2 => schema[at] ^ (1 << rng.below(8)),
        _ => rng.below(40) as u8,
    };
}

/// A record dropped, doubled or swapped, or the table cut.
fn change_records(rng: &mut Rng, schema: &mut Vec<u8>) {
    let count = schema.len() / RECORD;
    let (i, j) = (RECORD * rng.index(count), RECORD * rng.index(count));
    let copy: Vec<u8> = schema[j..j + RECORD].to_vec();
    match rng.below(5) {
        0 => drop(schema.drain(i..i + RECORD)),
        1 => drop(schema.splice(i..i, copy)),
        2 => {
            schema.copy_within(i..i + RECORD, j);
            schema[i..i + RECORD].copy_from_slice(&copy);
        }
        3 => schema.truncate(i),
        _ => schema.truncate(rng.index(schema.len())),
    }
}

/// The place of one name, at, about and far past the end of Statistics.
fn change_name(rng: &mut Rng, schema: &mut [u8], len: usize) {
    let at = RECORD * rng.index(schema.len() / RECORD);
    let (place, size) = match rng.below(4) {
        0 => (len as u64, rng.below(2)),
        1 => (rng.below(len as u64 + 2), len as u64),
        2 => (beside(rng, len as u64), rng.below(3)),
        _ => (rng.below(len as u64 + 2), beside(rng, len as u64)),
    };
    schema[at + 4..at + 8].copy_from_slice(&(place as u32).to_be_bytes());
    schema[at + 8..at + 12].copy_from_slice(&(size as u32).to_be_bytes());
}

/// A schema and the same with its names at other places; half of the time with
/// one thing changed, which may be a name's byte.
fn same_case(rng: &mut Rng) -> Case {
    let a = sound(rng);
    let mut b = moved(rng, &a);
    match rng.below(12) {
        0 | 1 => change_byte(rng, &mut b.schema),
        2 => change_records(rng, &mut b.schema),
        3 => change_name(rng, &mut b.schema, b.statistics.len()),
        4 | 5 => damage(rng, &mut b.statistics),
        6 => change_column(rng, &mut b.schema),
        7 => b = sound(rng),
        _ => {}
    }
    let (a, b) = if rng.one_in(2) { (a, b) } else { (b, a) };
    Case {
        kind: kind::SAME,
        blobs: vec![a.schema, a.statistics, b.schema, b.statistics],
    }
}

/// The same columns, their names behind some other bytes.
fn moved(rng: &mut Rng, made: &Made) -> Made {
    let shift = rng.index(4);
    let mut schema = made.schema.clone();
    for record in schema.chunks_mut(RECORD).filter(|r| r[0] > 1) {
        let mut place = [0; 4];
        place.copy_from_slice(&record[4..8]);
        let place = u32::from_be_bytes(place) + shift as u32;
        record[4..8].copy_from_slice(&place.to_be_bytes());
    }
    let mut statistics = rng.bytes(shift);
    statistics.extend(&made.statistics);
    Made { schema, statistics }
}

/// Another line, mark or role of the last record, which stays sound.
fn change_column(rng: &mut Rng, schema: &mut [u8]) {
    let at = schema.len() - RECORD;
    let last = &mut schema[at..];
    match rng.below(3) {
        0 => last[2] ^= 1,
        1 => {
            let line = random_line(rng, last[0]);
            last[1] = line;
            last[3] = width_of(line);
        }
        _ => last[0] = if last[0] == 2 { 3 } else { last[0] },
    }
}
