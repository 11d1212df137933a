//! The writer: record tables, sound and damaged, into buffers of any length.
//! What is written is listed and written again.

use reference::batch::answer::bytes_line;
use reference::batch::{bases_blob, kind, Call, Case};
use reference::record::{Record, LEN};
use reference::rng::Rng;
use reference::{gen, list_data, write_data, Bases, LIMIT};

use super::damage::{beside, damage};
use super::{line, tables, Compared, Kind, Limit};
use crate::library::{self, Answer, Fault, Listed, Table};

pub struct Write;

impl Kind for Write {
    fn name(&self) -> &'static str {
        "write"
    }

    fn count(&self) -> u64 {
        600_000
    }

    fn generate(&self, rng: &mut Rng) -> Case {
        let made = tables::sound(rng);
        let listed = list_data(&made.schema, made.bases, &made.data);
        let mut given = Given {
            schema: made.schema,
            bases: made.bases,
            records: listed.expect("made well").concat(),
            bytes: made.data,
        };
        given.spoil(rng);
        given.case(rng)
    }

    fn library(&self, call: &Call, full: bool) -> Option<String> {
        let written = match *call {
            Call::Write {
                statistics,
                records,
                bytes,
                output,
            } => of_files(statistics, records, bytes, output),
            Call::WriteRaw {
                schema,
                bases,
                records,
                bytes,
                output,
            } => within(schema, bases, records, bytes, output),
            _ => return None,
        };
        Some(line(written.map(|data| bytes_line("write", &data, full))))
    }

    /// The bytes that were stored, listed and written again where they are the
    /// reference's.
    fn compare(&self, call: &Call) -> Compared {
        let Call::WriteRaw {
            schema,
            bases,
            records,
            bytes,
            output,
        } = *call
        else {
            unreachable!("generated as records");
        };
        let library = within(schema, bases, records, bytes, output);
        let reference = write_data(schema, bases, records, bytes, output);
        let told = match (&library, &reference) {
            (Ok(data), Ok(other)) if data == other => {
                match again(schema, bases, records, bytes, data) {
                    Ok(()) => return Compared::Same(true),
                    Err(fault) => fault.to_string(),
                }
            }
            (Err(Fault::Refused(refusal)), Err(other)) if refusal == other => {
                return Compared::Same(false)
            }
            _ => line(library.map(|data| bytes_line("write", &data, true))),
        };
        Compared::Different {
            library: told,
            reference: self.reference(call, true),
        }
    }

    fn limits(&self) -> Vec<Limit> {
        over_limit()
    }
}

/// What the writer is given.
struct Given {
    schema: Vec<u8>,
    bases: Bases,
    records: Vec<u8>,
    bytes: Vec<u8>,
}

impl Given {
    /// Two cases in five stay sound, most others have their records damaged.
    fn spoil(&mut self, rng: &mut Rng) {
        match rng.below(20) {
            0..=7 => {}
            8..=14 => gen::damage_records(rng, &mut self.records),
            15 => change_number(rng, &mut self.records),
            16 => self.move_values(rng),
            17 => self.bytes.truncate(rng.index(self.bytes.len() + 1)),
            18 => match rng.below(3) {
                0 => self.bases.local = self.bases.local.wrapping_add(1 + rng.below(9) as i32),
                1 => self.bases.ttl = *rng.pick(&[-1, 1, 100, i32::MAX]),
                _ => self.bases.timestamp = self.bases.timestamp.wrapping_add(1),
            },
            _ => match rng.below(2) {
                0 => damage(rng, &mut self.schema),
                _ => self.schema = tables::sound(rng).schema,
            },
        }
    }

    /// Bytes before those that are shown: every place is another one.
    fn move_values(&mut self, rng: &mut Rng) {
        let before = rng.index(70);
        let more = rng.bytes(before);
        drop(self.bytes.splice(0..0, more));
        for raw in self.records.as_chunks_mut::<LEN>().0 {
            let mut record = Record::from_bytes_loosely(raw);
            if record.length != 0 {
                record.offset += before as u64;
                *raw = record.to_bytes();
            }
        }
    }

    /// A buffer of the length needed, and of more, less and nothing.
    fn case(self, rng: &mut Rng) -> Case {
        let Given {
            schema,
            bases,
            records,
            bytes,
        } = self;
        let written = write_data(&schema, bases, &records, &bytes, LIMIT);
        let needed = written.map_or(40, |data| data.len());
        let output = match rng.below(8) {
            0..=3 => needed,
            4 => needed + 1 + rng.index(200),
            5 => needed.saturating_sub(1),
            6 => rng.index(needed + 1),
            _ => 0,
        };
        let output = (output as u64).to_be_bytes().to_vec();
        Case {
            kind: kind::WRITE_RAW,
            blobs: vec![schema, bases_blob(bases), records, bytes, output],
        }
    }
}

/// One number of a record changed to one beside it.
fn change_number(rng: &mut Rng, records: &mut [u8]) {
    let (chunks, _) = records.as_chunks_mut::<LEN>();
    if chunks.is_empty() {
        return;
    }
    let raw = &mut chunks[rng.index(chunks.len())];
    let mut record = Record::from_bytes_loosely(raw);
    let word = |rng: &mut Rng, value: u32| beside(rng, u64::from(value)) as u32;
    match rng.below(10) {
        0 => record.flags = beside(rng, u64::from(record.flags)) as u8,
        1 => record.column = beside(rng, u64::from(record.column)) as u8,
        2 => record.ttl = word(rng, record.ttl),
        3 => record.timestamp = beside(rng, record.timestamp as u64) as i64,
        4 => record.mark = beside(rng, record.mark as u64) as i64,
        5 => record.local = word(rng, record.local),
        6 => record.expiry = word(rng, record.expiry),
        7 => record.second_mark = beside(rng, record.second_mark as u64) as i64,
        8 => record.offset = beside(rng, record.offset),
        _ => record.length = beside(rng, record.length),
    }
    *raw = record.to_bytes();
}

/// What Statistics says of the table first.
fn of_files(statistics: &[u8], records: &[u8], bytes: &[u8], output: usize) -> Answer<Vec<u8>> {
    let (schema, bases) = super::list::table_of(statistics)?;
    within(&schema, bases, records, bytes, output)
}

/// What is written into a lent buffer.
fn within(
    schema: &[u8],
    bases: Bases,
    records: &[u8],
    bytes: &[u8],
    output: usize,
) -> Answer<Vec<u8>> {
    let listed = Listed {
        schema,
        bases: &library::bases_words(bases),
        records,
        bytes,
    };
    if output > LIMIT {
        return library::write(listed, &mut vec![0; output]).map(|_| Vec::new());
    }
    library::lend(output, |out| library::write(listed, out))
}

/// "Given room, writing the list out .. and reading it again gives the same
/// list, apart from where things stand and how long whole rows and markers
/// are": the library's listing of what it wrote, and what it writes of that.
fn again(schema: &[u8], bases: Bases, records: &[u8], bytes: &[u8], data: &[u8]) -> Answer<()> {
    let table = Table {
        schema,
        bases: &library::bases_words(bases),
        data,
    };
    let listed = library::lend(records.len(), |out| {
        library::list(table, out).map(|records| LEN * records)
    })?;
    let shown = |records: &[u8], bytes: &[u8]| -> Vec<(Record, Vec<u8>)> {
        let (chunks, _) = records.as_chunks();
        chunks.iter().map(|raw| placeless(raw, bytes)).collect()
    };
    if shown(&listed, data) != shown(records, bytes) {
        return Err(Fault::Broken("what is written lists otherwise".into()));
    }
    let rewritten = within(schema, bases, &listed, data, data.len())?;
    if rewritten != data {
        return Err(Fault::Broken("writing again gives other bytes".into()));
    }
    Ok(())
}

/// A record without its place, and the key or value that it shows.
fn placeless(raw: &[u8; LEN], bytes: &[u8]) -> (Record, Vec<u8>) {
    let mut record = Record::from_bytes_loosely(raw);
    let shown = record
        .part_of(bytes)
        .filter(|_| record.shows_value())
        .map_or(Vec::new(), <[u8]>::to_vec);
    (record.offset, record.length) = (0, 0);
    (record, shown)
}

/// A call at the limit: what is tested, what is lent, and the answer.
struct AtLimit<'a> {
    what: &'static str,
    schema: &'a [u8],
    records: &'a [u8],
    bytes: &'a [u8],
    output: usize,
    bases: [u64; 3],
    reference: &'static str,
}

impl AtLimit<'_> {
    fn run(&self, out: &mut [u8]) -> Limit {
        let listed = Listed {
            schema: self.schema,
            bases: &self.bases,
            records: self.records,
            bytes: self.bytes,
        };
        let written = library::write(listed, &mut out[..self.output]);
        Limit {
            what: self.what,
            library: line(written.map(|len| format!("{len} bytes"))),
            reference: self.reference.into(),
        }
    }
}

/// Slices at and over the limit: schema, records, bytes, output, then bases;
/// each call is like the one before it but for what that was refused for.
fn over_limit() -> Vec<Limit> {
    let over = vec![0; LIMIT + 1];
    let mut out = vec![0; LIMIT + 1];
    let mut key = [0; 16];
    key[..4].copy_from_slice(&[0, 33, 0, 255]);
    let mut call = AtLimit {
        what: "schema",
        schema: &over,
        records: &over,
        bytes: &over,
        output: LIMIT + 1,
        bases: [0, 0, u64::MAX],
        reference: "refused 1 schema 0",
    };
    let mut limits = vec![call.run(&mut out)];
    (call.what, call.reference) = ("records", "refused 1 records 0");
    call.schema = &key;
    limits.push(call.run(&mut out));
    (call.what, call.reference) = ("bytes", "refused 1 bytes 0");
    call.records = &over[..LIMIT];
    limits.push(call.run(&mut out));
    (call.what, call.reference) = ("output", "refused 1 output 0");
    call.bytes = &over[..LIMIT];
    limits.push(call.run(&mut out));
    (call.what, call.reference) = ("bases", "refused 5 bases 0");
    call.output = LIMIT;
    limits.push(call.run(&mut out));
    (call.what, call.reference) = ("first record", "refused 10 records 0");
    call.bases = [0; 3];
    limits.push(call.run(&mut out));
    (call.what, call.reference) = ("nothing", "0 bytes");
    call.records = &[];
    limits.push(call.run(&mut out));
    (call.what, call.reference) = ("schema's record", "refused 10 schema 0");
    call.schema = &[];
    limits.push(call.run(&mut out));
    limits
}
