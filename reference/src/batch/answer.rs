//! What the reader answers to a case, and the lines that say so.

use super::{state, Call, Files, Named, Raw};
use crate::data::{Bases, Source};
use crate::merge::merge;
use crate::record::{self, Record};
use crate::refusal::{test_limit, Part, Refusal, Side};
use crate::schema::Schema;
use crate::scylla::{read_scylla, ScyllaInfo};
use crate::statistics::{read_statistics, read_statistics_within, Stats};
use crate::varint;
use crate::walk::{check_call, list_data, list_within, Item, State, Step};
use crate::writer::write_data;

/// The answer line of a call.
pub fn answer(call: &Call, full: bool) -> String {
    try_answer(call, full).unwrap_or_else(|refusal| refusal.to_string())
}

fn try_answer(call: &Call, full: bool) -> Result<String, Refusal> {
    match *call {
        Call::Statistics { statistics, output } => {
            let stats = match output {
                Some(output) => read_statistics_within(statistics, output)?,
                None => read_statistics(statistics)?,
            };
            Ok(stats_line(&stats, full))
        }
        Call::Scylla { scylla } => Ok(scylla_line(&read_scylla(scylla)?)),
        Call::List { .. } | Call::ListRaw { .. } => listed(call, full),
        Call::WalkRaw { source } => {
            let mut items = Vec::new();
            let end = walk_items(&source, &mut items);
            Ok(walk_line(&items, end.err(), full))
        }
        Call::StepRaw { source, state } => step(&source, state),
        Call::Varint { bytes, at, end } => {
            let (value, next) = varint::read_at(bytes, at, end)?;
            Ok(varint_line(value, next - at))
        }
        Call::VarintLen { value } => Ok(length_line(varint::len(value))),
        Call::Schema { .. } | Call::Same { .. } => schemas(call),
        _ => stored(call, full),
    }
}

/// The listing of files, or of Data with schema records and bases.
fn listed(call: &Call, full: bool) -> Result<String, Refusal> {
    let records = match *call {
        Call::List { statistics, data } => {
            let stats = read_statistics(statistics)?;
            list_data(&stats.schema, stats.bases, data)?
        }
        Call::ListRaw { source, output } => match output {
            Some(output) => list_within(source.schema, source.bases, source.data, output)?,
            None => list_data(source.schema, source.bases, source.data)?,
        },
        _ => unreachable!("no listing"),
    };
    Ok(list_line(&records, full))
}

/// The calls that fill an output with bytes.
fn stored(call: &Call, full: bool) -> Result<String, Refusal> {
    let (word, out) = match *call {
        Call::Write {
            statistics,
            records,
            bytes,
            output,
        } => {
            let stats = read_statistics(statistics)?;
            let out = write_data(&stats.schema, stats.bases, records, bytes, output)?;
            ("write", out)
        }
        Call::WriteRaw {
            schema,
            bases,
            records,
            bytes,
            output,
        } => ("write", write_data(schema, bases, records, bytes, output)?),
        Call::VarintPut { value, output } => ("put", varint::put(output, value)?),
        Call::Merge { a, b, output } => return merge_files(a, b, output, full),
        Call::MergeRaw { a, b, output } => {
            let (out, bases) = merge(a, b, output)?;
            return Ok(merge_line(&out, bases, full));
        }
        _ => unreachable!("nothing stored"),
    };
    Ok(bytes_line(word, &out, full))
}

fn merge_files(a: Files, b: Files, output: usize, full: bool) -> Result<String, Refusal> {
    let stats_a = read_statistics(a.statistics).map_err(|r| r.on(Side::A))?;
    let stats_b = read_statistics(b.statistics).map_err(|r| r.on(Side::B))?;
    let (out, bases) = merge(a.table(&stats_a), b.table(&stats_b), output)?;
    Ok(merge_line(&out, bases, full))
}

/// The check of schema records, and whether two schemas are equal.
fn schemas(call: &Call) -> Result<String, Refusal> {
    match *call {
        Call::Schema { schema, statistics } => {
            let checked = check_schema(schema, statistics)?;
            let (clustering, statics) = (checked.clustering(), checked.statics());
            let roles = [clustering, statics, checked.regulars()];
            Ok(schema_line(roles.map(|columns| columns.len() as u64)))
        }
        Call::Same { a, b } => {
            let of = |Named { schema, statistics }| check_schema(schema, Some(statistics));
            let left = of(a).map_err(|r| r.on(Side::A))?;
            let right = of(b).map_err(|r| r.on(Side::B))?;
            let same = left.equals(a.statistics, &right, b.statistics);
            Ok(same_line(same))
        }
        _ => unreachable!("no schema"),
    }
}

/// Schema records alone: 1, then 10; the Statistics beside them have no limit.
pub fn check_schema(schema: &[u8], statistics: Option<&[u8]>) -> Result<Schema, Refusal> {
    test_limit(Part::Schema, schema.len())?;
    match statistics {
        Some(statistics) => Schema::check_with_names(schema, statistics),
        None => Schema::check(schema),
    }
}

/// FNV-1a, 64 bits.
pub fn fnv(bytes: &[u8]) -> u64 {
    bytes.iter().fold(0xCBF2_9CE4_8422_2325, |hash, &b| {
        (hash ^ u64::from(b)).wrapping_mul(0x0000_0100_0000_01B3)
    })
}

pub fn hex(bytes: &[u8]) -> String {
    const DIGITS: &[u8; 16] = b"0123456789abcdef";
    let digits = bytes.iter().flat_map(|b| [b >> 4, b & 15]);
    digits.map(|d| char::from(DIGITS[usize::from(d)])).collect()
}

pub fn varint_line(value: u64, len: usize) -> String {
    format!("ok varint {value} {len}")
}

pub fn length_line(len: usize) -> String {
    format!("ok length {len}")
}

/// Counts of clustering, static and regular columns.
pub fn schema_line([clustering, statics, regulars]: [u64; 3]) -> String {
    format!("ok schema {clustering} {statics} {regulars}")
}

pub fn same_line(same: bool) -> String {
    format!("ok same {}", u8::from(same))
}

pub fn list_line(records: &[[u8; record::LEN]], full: bool) -> String {
    let hash = fnv(records.as_flattened());
    let mut line = format!("ok list {} {hash:016x}", records.len());
    if full {
        for raw in records {
            line.push_str(" | ");
            line.push_str(&Record::from_bytes_loosely(raw).print());
        }
    }
    line
}

/// Bytes that were stored: writer and varint.
pub fn bytes_line(word: &str, bytes: &[u8], full: bool) -> String {
    let mut line = format!("ok {word} {} {:016x}", bytes.len(), fnv(bytes));
    if full && !bytes.is_empty() {
        line.push(' ');
        line.push_str(&hex(bytes));
    }
    line
}

pub fn merge_line(out: &[u8], bases: Bases, full: bool) -> String {
    let Bases {
        timestamp,
        local,
        ttl,
    } = bases;
    bytes_line(&format!("merge {timestamp} {local} {ttl}"), out, full)
}

pub fn stats_line(stats: &Stats, full: bool) -> String {
    let Bases {
        timestamp,
        local,
        ttl,
    } = stats.bases;
    let v = stats.validation;
    let mut line = format!(
        "ok stats {timestamp} {local} {ttl} {} {} {:016x} {} {:016x}",
        v.name_at,
        v.name_len,
        v.chance_bits,
        stats.schema.len() / 16,
        fnv(&stats.schema)
    );
    if full {
        line.push(' ');
        line.push_str(&hex(&stats.schema));
    }
    line
}

pub fn scylla_line(info: &ScyllaInfo) -> String {
    let mut line = format!(
        "ok scylla {:016x} {}",
        info.features,
        hex(&info.run_identifier)
    );
    for place in info.places {
        line.push_str(&format!(" {} {}", place.offset, place.length));
    }
    line
}

/// A walk's items, and the refusal behind them, if there is one.
pub fn walk_line(items: &[(Record, Vec<u8>)], refusal: Option<Refusal>, full: bool) -> String {
    let end = refusal.map_or("end".to_string(), |refusal| refusal.to_string());
    let bytes: Vec<u8> = items
        .iter()
        .flat_map(|(r, v)| [&r.to_bytes()[..], v].concat())
        .collect();
    let mut line = format!("ok walk {} {:016x} {end}", items.len(), fnv(&bytes));
    if full {
        for (record, value) in items {
            line.push_str(&format!(" | {} {}", record.print(), shown(value)));
        }
    }
    line
}

/// Steps from the start; on a refusal `items` has those before it.
fn walk_items(raw: &Raw, items: &mut Vec<(Record, Vec<u8>)>) -> Result<(), Refusal> {
    let schema = check_call(raw.schema, raw.bases, raw.data)?;
    let source = Source {
        schema: &schema,
        bases: raw.bases,
        data: raw.data,
    };
    let mut state = State::start();
    while let Step::Next(Item { record, value }, next) = state.step(&source)? {
        items.push((record, value.to_vec()));
        state = next;
    }
    Ok(())
}

/// One step from any state.
fn step(raw: &Raw, from: State) -> Result<String, Refusal> {
    let schema = check_call(raw.schema, raw.bases, raw.data)?;
    let source = Source {
        schema: &schema,
        bases: raw.bases,
        data: raw.data,
    };
    Ok(match from.step(&source)? {
        Step::Done => DONE.into(),
        Step::Next(Item { record, value }, next) => step_line(&record, value, &next),
    })
}

/// A step where nothing is left.
pub const DONE: &str = "ok step done";

/// A step that hands out an item.
pub fn step_line(record: &Record, value: &[u8], next: &State) -> String {
    let next = state::words(next);
    format!("ok step {} {} -> {next}", record.print(), shown(value))
}

fn shown(value: &[u8]) -> String {
    if value.is_empty() {
        "-".into()
    } else {
        hex(value)
    }
}
