//! Many cases in one file, one answer line each.  README.md describes the
//! container, its kinds and its lines.

use crate::data::Bases;
use crate::merge::Table;
use crate::statistics::Stats;
use crate::walk::State;

pub mod answer;
pub mod state;

/// The kinds of cases.
pub mod kind {
    pub const LIST: u8 = 1;
    pub const STATISTICS: u8 = 2;
    pub const SCYLLA: u8 = 3;
    pub const WRITE: u8 = 4;
    pub const MERGE: u8 = 5;
    pub const LIST_RAW: u8 = 6;
    pub const WRITE_RAW: u8 = 7;
    pub const MERGE_RAW: u8 = 8;
    pub const VARINT: u8 = 9;
    pub const WALK_RAW: u8 = 10;
    pub const STEP_RAW: u8 = 11;
    pub const VARINT_LEN: u8 = 12;
    pub const VARINT_PUT: u8 = 13;
    pub const SCHEMA: u8 = 14;
    pub const SAME: u8 = 15;
}

/// One case: its kind and its blobs.
#[derive(Clone, Debug, PartialEq, Eq)]
pub struct Case {
    pub kind: u8,
    pub blobs: Vec<Vec<u8>>,
}

impl Case {
    /// The blobs, lent.
    pub fn lent(&self) -> Vec<&[u8]> {
        self.blobs.iter().map(Vec::as_slice).collect()
    }
}

/// Writes a container.
pub fn encode_cases(cases: &[Case]) -> Vec<u8> {
    let mut out = (cases.len() as u32).to_be_bytes().to_vec();
    for case in cases {
        out.push(case.kind);
        out.push(case.blobs.len() as u8);
        for blob in &case.blobs {
            out.extend_from_slice(&(blob.len() as u32).to_be_bytes());
            out.extend_from_slice(blob);
        }
    }
    out
}

/// A case whose blobs are parts of the container.
pub type LentCase<'a> = (u8, Vec<&'a [u8]>);

/// Reads a container, or nothing where it is malformed.
pub fn decode_cases(bytes: &[u8]) -> Option<Vec<LentCase<'_>>> {
    let mut rest = bytes;
    let count = take(&mut rest, 4)?;
    let mut cases = Vec::new();
    for _ in 0..count {
        let kind = take(&mut rest, 1)? as u8;
        let mut blobs = Vec::new();
        for _ in 0..take(&mut rest, 1)? {
            let len = take(&mut rest, 4)? as usize;
            let (blob, after) = rest.split_at_checked(len)?;
            rest = after;
            blobs.push(blob);
        }
        cases.push((kind, blobs));
    }
    rest.is_empty().then_some(cases)
}

/// A big-endian number of `width` bytes.
fn take(rest: &mut &[u8], width: usize) -> Option<u64> {
    let (head, after) = rest.split_at_checked(width)?;
    *rest = after;
    Some(head.iter().fold(0, |sum, &b| (sum << 8) | u64::from(b)))
}

/// A case taken apart: the call and what it is given.
#[derive(Clone, Copy)]
pub enum Call<'a> {
    List {
        statistics: &'a [u8],
        data: &'a [u8],
    },
    Statistics {
        statistics: &'a [u8],
        output: Option<usize>,
    },
    Scylla {
        scylla: &'a [u8],
    },
    Write {
        statistics: &'a [u8],
        records: &'a [u8],
        bytes: &'a [u8],
        output: usize,
    },
    Merge {
        a: Files<'a>,
        b: Files<'a>,
        output: usize,
    },
    ListRaw {
        source: Raw<'a>,
        output: Option<usize>,
    },
    WriteRaw {
        schema: &'a [u8],
        bases: Bases,
        records: &'a [u8],
        bytes: &'a [u8],
        output: usize,
    },
    MergeRaw {
        a: Table<'a>,
        b: Table<'a>,
        output: usize,
    },
    Varint {
        bytes: &'a [u8],
        at: usize,
        end: usize,
    },
    WalkRaw {
        source: Raw<'a>,
    },
    StepRaw {
        source: Raw<'a>,
        state: State,
    },
    VarintLen {
        value: u64,
    },
    VarintPut {
        value: u64,
        output: usize,
    },
    /// Schema records, each name's place tested where Statistics stand beside.
    Schema {
        schema: &'a [u8],
        statistics: Option<&'a [u8]>,
    },
    Same {
        a: Named<'a>,
        b: Named<'a>,
    },
}

/// Schema records and the Statistics in which their names stand.
#[derive(Clone, Copy)]
pub struct Named<'a> {
    pub schema: &'a [u8],
    pub statistics: &'a [u8],
}

/// One side of a merge of files.
#[derive(Clone, Copy)]
pub struct Files<'a> {
    pub statistics: &'a [u8],
    pub data: &'a [u8],
}

impl<'a> Files<'a> {
    /// The side as the merge takes it, with what its Statistics say.
    pub fn table(self, stats: &'a Stats) -> Table<'a> {
        Table {
            statistics: self.statistics,
            schema: &stats.schema,
            bases: stats.bases,
            data: self.data,
        }
    }
}

/// Data with schema records and bases handed over.
#[derive(Clone, Copy)]
pub struct Raw<'a> {
    pub schema: &'a [u8],
    pub bases: Bases,
    pub data: &'a [u8],
}

/// Takes a case apart; what is malformed gives its answer line.
pub fn parse<'a>(kind: u8, blobs: &[&'a [u8]]) -> Result<Call<'a>, String> {
    use kind::*;
    match kind {
        LIST | STATISTICS | SCYLLA | WRITE | MERGE => parse_files(kind, blobs),
        WRITE_RAW | MERGE_RAW => parse_output(kind, blobs),
        LIST_RAW | WALK_RAW | STEP_RAW => parse_data(kind, blobs),
        SCHEMA | SAME => parse_schema(kind, blobs),
        _ => parse_varint(kind, blobs),
    }
}

fn malformed(kind: u8, blobs: &[&[u8]]) -> String {
    let count = blobs.len();
    format!("malformed case of kind {kind} with {count} blobs")
}

/// The kinds that are given whole files.
fn parse_files<'a>(kind: u8, blobs: &[&'a [u8]]) -> Result<Call<'a>, String> {
    Ok(match (kind, blobs) {
        (kind::LIST, [statistics, data]) => Call::List { statistics, data },
        (kind::STATISTICS, [statistics, output @ ..]) if output.len() < 2 => Call::Statistics {
            statistics,
            output: optional(output)?,
        },
        (kind::SCYLLA, [scylla]) => Call::Scylla { scylla },
        (kind::WRITE, [statistics, records, bytes, output]) => Call::Write {
            statistics,
            records,
            bytes,
            output: length(output)?,
        },
        (kind::MERGE, [sa, da, sb, db, output]) => Call::Merge {
            a: files(sa, da),
            b: files(sb, db),
            output: length(output)?,
        },
        _ => return Err(malformed(kind, blobs)),
    })
}

/// The kinds that fill an output from schema records and bases.
fn parse_output<'a>(kind: u8, blobs: &[&'a [u8]]) -> Result<Call<'a>, String> {
    Ok(match (kind, blobs) {
        (kind::WRITE_RAW, [schema, bases, records, bytes, output]) => Call::WriteRaw {
            schema,
            bases: bases_of(bases)?,
            records,
            bytes,
            output: length(output)?,
        },
        (kind::MERGE_RAW, [sa, ca, ba, da, sb, cb, bb, db, output]) => Call::MergeRaw {
            a: table(sa, ca, ba, da)?,
            b: table(sb, cb, bb, db)?,
            output: length(output)?,
        },
        _ => return Err(malformed(kind, blobs)),
    })
}

/// The kinds that read Data with schema records and bases.
fn parse_data<'a>(kind: u8, blobs: &[&'a [u8]]) -> Result<Call<'a>, String> {
    let [schema, bases, data, more @ ..] = blobs else {
        return Err(malformed(kind, blobs));
    };
    let source = Raw {
        schema,
        bases: bases_of(bases)?,
        data,
    };
    Ok(match (kind, more) {
        (kind::LIST_RAW, [] | [_]) => Call::ListRaw {
            source,
            output: optional(more)?,
        },
        (kind::WALK_RAW, []) => Call::WalkRaw { source },
        (kind::STEP_RAW, [blob]) => Call::StepRaw {
            source,
            state: state::decode(blob).ok_or("malformed state")?,
        },
        _ => return Err(malformed(kind, blobs)),
    })
}

fn parse_varint<'a>(kind: u8, blobs: &[&'a [u8]]) -> Result<Call<'a>, String> {
    Ok(match (kind, blobs) {
        (kind::VARINT, [bytes]) => Call::Varint {
            bytes,
            at: 0,
            end: bytes.len(),
        },
        (kind::VARINT, [bytes, at, end]) => Call::Varint {
            bytes,
            at: length(at)?,
            end: length(end)?,
        },
        (kind::VARINT_LEN, [value]) => Call::VarintLen {
            value: number(value)?,
        },
        (kind::VARINT_PUT, [value, output]) => Call::VarintPut {
            value: number(value)?,
            output: length(output)?,
        },
        _ => return Err(malformed(kind, blobs)),
    })
}

/// The kinds that are given schema records alone.
fn parse_schema<'a>(kind: u8, blobs: &[&'a [u8]]) -> Result<Call<'a>, String> {
    Ok(match (kind, blobs) {
        (kind::SCHEMA, [schema, statistics @ ..]) if statistics.len() < 2 => Call::Schema {
            schema,
            statistics: statistics.first().copied(),
        },
        (kind::SAME, [schema_a, statistics_a, schema_b, statistics_b]) => Call::Same {
            a: named(schema_a, statistics_a),
            b: named(schema_b, statistics_b),
        },
        _ => return Err(malformed(kind, blobs)),
    })
}

fn named<'a>(schema: &'a [u8], statistics: &'a [u8]) -> Named<'a> {
    Named { schema, statistics }
}

fn files<'a>(statistics: &'a [u8], data: &'a [u8]) -> Files<'a> {
    Files { statistics, data }
}

fn table<'a>(
    statistics: &'a [u8],
    schema: &'a [u8],
    bases: &[u8],
    data: &'a [u8],
) -> Result<Table<'a>, String> {
    Ok(Table {
        statistics,
        schema,
        bases: bases_of(bases)?,
        data,
    })
}

/// A number of up to eight bytes.
fn number(blob: &[u8]) -> Result<u64, String> {
    if blob.len() > 8 {
        return Err("malformed number".into());
    }
    Ok(blob.iter().fold(0, |sum, &b| (sum << 8) | u64::from(b)))
}

fn length(blob: &[u8]) -> Result<usize, String> {
    number(blob).map(|n| n as usize)
}

fn optional(blobs: &[&[u8]]) -> Result<Option<usize>, String> {
    blobs.first().map(|blob| length(blob)).transpose()
}

/// Sixteen bytes: timestamp (64), local deletion time (32), TTL (32).
pub fn bases_of(blob: &[u8]) -> Result<Bases, String> {
    let raw: [u8; 16] = blob.try_into().map_err(|_| "malformed bases".to_string())?;
    let all = u128::from_be_bytes(raw);
    Ok(Bases {
        timestamp: (all >> 64) as i64,
        local: (all >> 32) as i32,
        ttl: all as i32,
    })
}

pub fn bases_blob(bases: Bases) -> Vec<u8> {
    let mut out = bases.timestamp.to_be_bytes().to_vec();
    out.extend(bases.local.to_be_bytes());
    out.extend(bases.ttl.to_be_bytes());
    out
}

/// Runs one case: its answer line.  `full` appends what the hash stands for.
pub fn run_case(kind: u8, blobs: &[&[u8]], full: bool) -> String {
    match parse(kind, blobs) {
        Ok(call) => answer::answer(&call, full),
        Err(malformed) => malformed,
    }
}

#[cfg(test)]
mod tests {
    use super::answer::fnv;
    use super::*;
    use crate::gen::{one_file_statistics, ONE_FILE_DATA};

    fn case(kind: u8, blobs: &[&[u8]]) -> Case {
        Case {
            kind,
            blobs: blobs.iter().map(|b| b.to_vec()).collect(),
        }
    }

    #[test]
    fn container_round_trip_and_lines() {
        let s = one_file_statistics();
        let d = &ONE_FILE_DATA[..];
        let cases = [
            case(kind::LIST, &[&s, d]),
            case(kind::STATISTICS, &[&s]),
            case(kind::LIST, &[&s, &d[..29]]),
            case(kind::MERGE, &[&s, d, &s, d, &[0x03, 0xE8]]),
            case(kind::VARINT, &[&[0x80, 0x80]]),
        ];
        let bytes = encode_cases(&cases);
        let back = decode_cases(&bytes).unwrap();
        let lines: Vec<String> = back.iter().map(|(k, b)| run_case(*k, b, false)).collect();
        assert!(lines[0].starts_with("ok list 5 "), "{}", lines[0]);
        let stats = "ok stats 1442880000000000 1442880000 0 22 43 3f847ae147ae147b 3 ";
        assert!(lines[1].starts_with(stats), "{}", lines[1]);
        assert_eq!(lines[2], "refused 2 data 29");
        let merged = format!("ok merge 1442880000000000 1442880000 0 30 {:016x}", fnv(d));
        assert_eq!(lines[3], merged);
        assert_eq!(lines[4], "ok varint 128 2");
        assert_eq!(lines.len(), 5);
        assert_eq!(decode_cases(&bytes[..bytes.len() - 1]), None);
        let bases = Bases {
            timestamp: -5,
            local: -1,
            ttl: 7,
        };
        assert_eq!(bases_of(&bases_blob(bases)), Ok(bases));
    }

    #[test]
    fn varint_lines() {
        let line = |kind: u8, blobs: &[&[u8]]| run_case(kind, blobs, true);
        let two = [0xAA, 0x80, 0x80, 0xAA];
        assert_eq!(line(kind::VARINT, &[&two, &[1], &[3]]), "ok varint 128 2");
        assert_eq!(line(kind::VARINT, &[&two, &[1], &[2]]), "refused 2 data 1");
        assert_eq!(line(kind::VARINT_LEN, &[&[0x40, 0x00]]), "ok length 3");
        assert_eq!(
            line(kind::VARINT_PUT, &[&[128], &[1]]),
            "refused 13 output 2"
        );
        assert_eq!(
            line(kind::VARINT_PUT, &[&[5], &[1]]),
            "ok put 1 af63b84c8601af60 05"
        );
    }

    #[test]
    fn schema_lines() {
        let line = |kind: u8, blobs: &[&[u8]]| run_case(kind, blobs, true);
        let mut schema = [0; 32];
        schema[..4].copy_from_slice(&[0, 33, 0, 255]);
        schema[16..28].copy_from_slice(&[3, 17, 0, 4, 0, 0, 0, 1, 0, 0, 0, 1]);
        let checked = |names: &[&[u8]]| line(kind::SCHEMA, &[&[&schema[..]], names].concat());
        assert_eq!(checked(&[]), "ok schema 0 0 1");
        assert_eq!(checked(&[b"xy"]), "ok schema 0 0 1");
        assert_eq!(checked(&[b"x"]), "refused 10 schema 16");
        assert_eq!(
            checked(&[b"x", b"y"]),
            "malformed case of kind 14 with 3 blobs"
        );
        let same = |t: &[u8], u: &[u8]| line(kind::SAME, &[&schema, t, &schema, u]);
        assert_eq!(same(b"xy", b"zyx"), "ok same 1");
        assert_eq!(same(b"xy", b"xz"), "ok same 0");
        assert_eq!(same(b"x", b""), "refused 10 schemaA 16");
        assert_eq!(same(b"xy", b""), "refused 10 schemaB 16");
    }

    #[test]
    fn malformed_lines() {
        assert_eq!(
            run_case(77, &[], true),
            "malformed case of kind 77 with 0 blobs"
        );
        assert_eq!(
            run_case(1, &[&[]], true),
            "malformed case of kind 1 with 1 blobs"
        );
        assert_eq!(
            run_case(2, &[&[], &[], &[]], true),
            "malformed case of kind 2 with 3 blobs"
        );
        assert_eq!(run_case(6, &[&[], &[0; 15], &[]], true), "malformed bases");
        assert_eq!(
            run_case(6, &[&[], &[0; 16], &[], &[0; 9]], true),
            "malformed number"
        );
        assert_eq!(
            run_case(11, &[&[], &[0; 16], &[], &[0; 72]], true),
            "malformed state"
        );
    }
}
