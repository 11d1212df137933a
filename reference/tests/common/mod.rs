//! Helpers of the tests.
#![allow(dead_code)]

use reference::gen::{self, Text};
use reference::*;

/// Records as the rows of numbers that the listing program prints.
pub fn printed(records: &[[u8; 64]]) -> Vec<String> {
    records
        .iter()
        .map(|raw| Record::from_bytes(raw).expect("rest zero").print())
        .collect()
}

/// (number, slice, place) of a refusal.
pub fn told<T: std::fmt::Debug>(answer: Result<T, Refusal>) -> (u8, String, u64) {
    let refusal = answer.expect_err("refused");
    (refusal.number, refusal.slice.to_string(), refusal.place)
}

/// (number, place) of a refusal about `slice`.
pub fn at<T: std::fmt::Debug>(slice: &str, answer: Result<T, Refusal>) -> (u8, u64) {
    let (number, named, place) = told(answer);
    assert_eq!(named, slice);
    (number, place)
}

/// A table's Statistics, read.
pub struct Known {
    pub statistics: Vec<u8>,
    pub stats: Stats,
}

impl Known {
    pub fn new(text: &Text) -> Known {
        let statistics = gen::statistics(text);
        let stats = read_statistics(&statistics).expect("sound Statistics");
        Known { statistics, stats }
    }

    /// A table with base timestamp 0, local deletion time 0 and TTL 0.
    pub fn zero(clustering: &[&str], statics: &[&str], regulars: &[&str]) -> Known {
        Known::with_bases(zero_bases(), clustering, statics, regulars)
    }

    pub fn with_bases(
        bases: [u64; 3],
        clustering: &[&str],
        statics: &[&str],
        regulars: &[&str],
    ) -> Known {
        let columns = |letter: &str, types: &[&str]| {
            types
                .iter()
                .enumerate()
                .map(|(i, t)| (format!("{letter}{i}"), t.to_string()))
                .collect()
        };
        Known::new(&Text {
            bases,
            key: "UTF8Type".into(),
            clustering: clustering.iter().map(|t| t.to_string()).collect(),
            statics: columns("s", statics),
            regulars: columns("r", regulars),
        })
    }

    pub fn list(&self, data: &[u8]) -> Result<Vec<[u8; 64]>, Refusal> {
        list_data(&self.stats.schema, self.stats.bases, data)
    }

    pub fn write(&self, records: &[u8], lent: &[u8]) -> Result<Vec<u8>, Refusal> {
        write_data(&self.stats.schema, self.stats.bases, records, lent, LIMIT)
    }

    pub fn table<'a>(&'a self, data: &'a [u8]) -> Table<'a> {
        Table {
            statistics: &self.statistics,
            schema: &self.stats.schema,
            bases: self.stats.bases,
            data,
        }
    }

    pub fn schema(&self) -> Schema {
        Schema::check(&self.stats.schema).expect("sound schema")
    }
}

/// Header varints of bases 0, 0, 0.
pub fn zero_bases() -> [u64; 3] {
    [
        1_442_880_000_000_000u64.wrapping_neg(),
        (1u64 << 32) - 1_442_880_000,
        0,
    ]
}

/// A live partition's header with key "k".
pub fn live() -> Vec<u8> {
    vec![
        0, 1, b'k', 0x7F, 0xFF, 0xFF, 0xFF, 0x80, 0, 0, 0, 0, 0, 0, 0,
    ]
}

/// [`live`], `items` and the end byte.
pub fn partition(items: &[u8]) -> Vec<u8> {
    let mut out = live();
    out.extend_from_slice(items);
    out.push(0x01);
    out
}

/// Records with every value's and item's place taken out, and the bytes that a
/// value's place showed.
pub fn placeless(records: &[[u8; 64]], lent: &[u8]) -> Vec<(Record, Vec<u8>)> {
    records
        .iter()
        .map(|raw| {
            let mut record = Record::from_bytes(raw).expect("rest zero");
            let value = if record.shows_value() {
                lent[record.offset as usize..][..record.length as usize].to_vec()
            } else {
                Vec::new()
            };
            record.offset = 0;
            record.length = 0;
            (record, value)
        })
        .collect()
}
