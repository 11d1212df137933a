//! The listing, into buffers of any length, and the count of its records.

use reference::batch::answer::list_line;
use reference::batch::{kind, Call, Case, Raw};
use reference::record::LEN;
use reference::rng::Rng;
use reference::walk::list_within;
use reference::{list_data, Bases, Refusal, LIMIT};

use super::states::Lent;
use super::tables::{self, Made};
use super::{line, Compared, Kind, Limit};
use crate::library::{self, Answer, Fault};

pub struct List;

impl Kind for List {
    fn name(&self) -> &'static str {
        "list"
    }

    fn count(&self) -> u64 {
        700_000
    }

    fn generate(&self, rng: &mut Rng) -> Case {
        let made = tables::any(rng);
        match rng.below(4) {
            0 => Case {
                kind: kind::LIST,
                blobs: vec![made.statistics, made.data],
            },
            _ => raw_case(rng, made),
        }
    }

    fn library(&self, call: &Call, full: bool) -> Option<String> {
        let records = match *call {
            Call::List { statistics, data } => of_files(statistics, data),
            Call::ListRaw { source, output } => within(source, output),
            _ => return None,
        };
        Some(line(records.map(|records| list_line(&records, full))))
    }

    /// The records' bytes, and the count.
    fn compare(&self, call: &Call) -> Compared {
        let (library, reference) = match *call {
            Call::ListRaw { source, output } => (within(source, output), told(source, output)),
            _ => return lines(self, call),
        };
        match (&library, &reference) {
            (Ok(records), Ok(others)) if records == others => Compared::Same(true),
            (Err(Fault::Refused(refusal)), Err(other)) if refusal == other => Compared::Same(false),
            _ => lines(self, call),
        }
    }

    fn limits(&self) -> Vec<Limit> {
        over_limit()
    }
}

fn lines(kind: &List, call: &Call) -> Compared {
    let library = kind.library(call, true).expect("a call of its own kind");
    let reference = kind.reference(call, true);
    if library == reference {
        return Compared::Same(reference.starts_with("ok "));
    }
    Compared::Different { library, reference }
}

/// A buffer of the length needed, and of more, less and nothing; or none.
fn raw_case(rng: &mut Rng, made: Made) -> Case {
    let listed = list_data(&made.schema, made.bases, &made.data);
    let needed = LEN * listed.map_or(0, |records| records.len());
    let output = match rng.below(8) {
        0 | 1 => None,
        2 | 3 => Some(needed),
        4 => Some(needed + 1 + rng.index(200)),
        5 => Some(needed.saturating_sub(1)),
        6 => Some(rng.index(needed + 1)),
        _ => Some(0),
    };
    let mut blobs = made.blobs();
    blobs.extend(output.map(|output| (output as u64).to_be_bytes().to_vec()));
    Case {
        kind: kind::LIST_RAW,
        blobs,
    }
}

fn told(raw: Raw, output: Option<usize>) -> Result<Vec<[u8; LEN]>, Refusal> {
    let Raw {
        schema,
        bases,
        data,
    } = raw;
    match output {
        Some(output) => list_within(schema, bases, data, output),
        None => list_data(schema, bases, data),
    }
}

/// What Statistics says of a table.
pub fn table_of(statistics: &[u8]) -> Answer<(Vec<u8>, Bases)> {
    let mut words = [0; 9];
    let schema = library::lend(16 * 159, |schema| {
        words = library::statistics_read(statistics, schema)?;
        Ok(16 * (1 + words[6] + words[7] + words[8]) as usize)
    })?;
    let bases = Bases {
        timestamp: words[0] as i64,
        local: words[1] as i32,
        ttl: words[2] as i32,
    };
    Ok((schema, bases))
}

/// The listing of files: what Statistics says of the table first.
fn of_files(statistics: &[u8], data: &[u8]) -> Answer<Vec<[u8; LEN]>> {
    let (schema, bases) = table_of(statistics)?;
    let source = Raw {
        schema: &schema,
        bases,
        data,
    };
    within(source, None)
}

/// The listing into a lent buffer, of the length that the count asks for where
/// none is given.  The count must say the same as the listing.
fn within(raw: Raw, output: Option<usize>) -> Answer<Vec<[u8; LEN]>> {
    let lent = Lent::new(raw);
    let counted = library::count(lent.table());
    let len = match (output, &counted) {
        (Some(len), _) => len,
        (None, Ok(count)) => LEN * count,
        (None, Err(_)) => 0,
    };
    let stored = library::lend(len, |out| {
        library::list(lent.table(), out).map(|records| LEN * records)
    });
    match (&counted, &stored) {
        (Ok(count), Ok(bytes)) if LEN * count == bytes.len() => {}
        (Ok(count), Err(fault)) if is_no_room(fault, LEN * count, len) => {}
        (Err(fault), Err(other)) if fault == other => {}
        _ => {
            let listed = stored.map(|bytes| bytes.len());
            let what = format!("counted {counted:?}, listed {listed:?} bytes");
            return Err(Fault::Broken(what));
        }
    }
    let (records, rest) = stored
        .as_ref()
        .map_or((&[][..], &[][..]), |b| b.as_chunks());
    assert!(rest.is_empty());
    let records = records.to_vec();
    stored.map(|_| records)
}

fn is_no_room(fault: &Fault, needed: usize, len: usize) -> bool {
    let Fault::Refused(refusal) = fault else {
        return false;
    };
    refusal.number == 13 && refusal.place == needed as u64 && len < needed
}

/// Slices at and over the limit: schema, Data, output, then bases.
fn over_limit() -> Vec<Limit> {
    let mut over = vec![0; LIMIT + 1];
    let mut key = [0; 16];
    key[..4].copy_from_slice(&[0, 33, 0, 255]);
    let mut limits = Vec::new();
    let bad = [0, 0, u64::MAX];
    let wrong = "refused 1 schema 0";
    limits.push(listed(
        "schema of 1073741825 bytes",
        &over,
        &bad,
        &over,
        wrong,
    ));
    let wrong = "refused 1 data 0";
    limits.push(listed("Data of 1073741825 bytes", &key, &bad, &over, wrong));
    let wrong = "refused 5 bases 0";
    limits.push(listed(
        "Data of 1073741824 bytes",
        &key,
        &bad,
        &over[..LIMIT],
        wrong,
    ));
    // A partition without a key, deleted, and flags that are none.
    over[14] = 0x40;
    let wrong = "refused 4 data 14";
    limits.push(listed(
        "Data of 1073741824 bytes",
        &key,
        &[0; 3],
        &over[..LIMIT],
        wrong,
    ));
    for (what, len, bases, wrong) in [
        (
            "output of 1073741825 bytes",
            LIMIT + 1,
            bad,
            "refused 1 output 0",
        ),
        (
            "output of 1073741824 bytes",
            LIMIT,
            bad,
            "refused 5 bases 0",
        ),
        ("output of 1073741824 bytes", LIMIT, [0; 3], "0 records"),
    ] {
        let table = library::Table {
            schema: &key,
            bases: &bases,
            data: &[],
        };
        limits.push(Limit {
            what,
            library: shown(library::list(table, &mut over[..len])),
            reference: wrong.into(),
        });
    }
    limits
}

fn listed(
    what: &'static str,
    schema: &[u8],
    bases: &[u64; 3],
    data: &[u8],
    reference: &str,
) -> Limit {
    let table = library::Table {
        schema,
        bases,
        data,
    };
    let counted = shown(library::count(table));
    let listed = shown(library::list(table, &mut []));
    Limit {
        what,
        library: if counted == listed {
            listed
        } else {
            format!("{listed}, counted {counted}")
        },
        reference: reference.into(),
    }
}

fn shown(answer: Answer<usize>) -> String {
    line(answer.map(|records| format!("{records} records")))
}
