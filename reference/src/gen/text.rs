//! Statistics in words, and random ones.

use crate::rng::Rng;
use crate::varint;

/// A serialization header in words.
#[derive(Clone, Debug, Default)]
pub struct Text {
    /// The three varints.
    pub bases: [u64; 3],
    pub key: String,
    pub clustering: Vec<String>,
    pub statics: Vec<(String, String)>,
    pub regulars: Vec<(String, String)>,
}

fn push_text(out: &mut Vec<u8>, text: &str) {
    varint::write(out, text.len() as u64);
    out.extend_from_slice(text.as_bytes());
}

/// The validation entry.
pub fn entry0(name: &str, chance: f64) -> Vec<u8> {
    let mut out = (name.len() as u16).to_be_bytes().to_vec();
    out.extend_from_slice(name.as_bytes());
    out.extend_from_slice(&chance.to_bits().to_be_bytes());
    out
}

/// The serialization header.
pub fn entry3(
    bases: [u64; 3],
    key: &str,
    clustering: &[&str],
    statics: &[(&str, &str)],
    regulars: &[(&str, &str)],
) -> Vec<u8> {
    let mut out = Vec::new();
    for base in bases {
        varint::write(&mut out, base);
    }
    push_text(&mut out, key);
    varint::write(&mut out, clustering.len() as u64);
    for text in clustering {
        push_text(&mut out, text);
    }
    for columns in [statics, regulars] {
        varint::write(&mut out, columns.len() as u64);
        for (name, text) in columns {
            push_text(&mut out, name);
            push_text(&mut out, text);
        }
    }
    out
}

pub const MURMUR3: &str = "org.apache.cassandra.dht.Murmur3Partitioner";

/// A Statistics.db of entries 0 and 3.
pub fn statistics(text: &Text) -> Vec<u8> {
    let clustering: Vec<&str> = text.clustering.iter().map(String::as_str).collect();
    let statics = borrow_pairs(&text.statics);
    let regulars = borrow_pairs(&text.regulars);
    let zero = entry0(MURMUR3, 0.01);
    let three = entry3(text.bases, &text.key, &clustering, &statics, &regulars);
    let mut out = 2u32.to_be_bytes().to_vec();
    for (kind, offset) in [(0u32, 20), (3, 20 + zero.len())] {
        out.extend_from_slice(&kind.to_be_bytes());
        out.extend_from_slice(&(offset as u32).to_be_bytes());
    }
    out.extend(zero);
    out.extend(three);
    out
}

fn borrow_pairs(list: &[(String, String)]) -> Vec<(&str, &str)> {
    list.iter()
        .map(|(name, text)| (name.as_str(), text.as_str()))
        .collect()
}

/// "One file, whole": its Statistics.
pub fn one_file_statistics() -> Vec<u8> {
    statistics(&Text {
        bases: [0, 0, 0],
        key: "UTF8Type".into(),
        clustering: vec!["Int32Type".into()],
        statics: vec![],
        regulars: vec![("v".into(), "Int32Type".into())],
    })
}

/// "One file, whole": its Data.
pub const ONE_FILE_DATA: [u8; 30] = [
    0x00, 0x01, 0x6B, 0x7F, 0xFF, 0xFF, 0xFF, 0x80, 0x00, 0x00, 0x00, 0x00, 0x00, 0x00, 0x00, 0x24,
    0x00, 0x00, 0x00, 0x00, 0x07, 0x07, 0x0F, 0x05, 0x08, 0x00, 0x00, 0x00, 0x2A, 0x01,
];

const CLUSTERING_TYPES: [&str; 9] = [
    "Int32Type",
    "LongType",
    "TimestampType",
    "BooleanType",
    "AsciiType",
    "UTF8Type",
    "BytesType",
    "ReversedType(Int32Type)",
    "ReversedType(UTF8Type)",
];

const UNORDERED_TYPES: [&str; 6] = [
    "UUIDType",
    "DecimalType",
    "DoubleType",
    "ReversedType(InetAddressType)",
    "ListType(UTF8Type)",
    "EmptyType",
];

const COLUMN_TYPES: [&str; 10] = [
    "Int32Type",
    "LongType",
    "BooleanType",
    "UTF8Type",
    "BytesType",
    "",
    "UUIDType",
    "ReversedType(FloatType)",
    "FrozenType(ListType(Int32Type))",
    "EmptyType",
];

/// How wide a random schema is.
#[derive(Clone, Copy)]
pub struct Width {
    pub clustering: u64,
    pub statics: u64,
    pub regulars: u64,
    /// Clustering types without an order too.
    pub unordered: bool,
}

pub fn random_text(rng: &mut Rng, width: Width) -> Text {
    let clustering = (0..rng.below(width.clustering + 1))
        .map(|_| {
            let unordered = width.unordered && rng.one_in(3);
            let list: &[&str] = if unordered {
                &UNORDERED_TYPES
            } else {
                &CLUSTERING_TYPES
            };
            rng.pick(list).to_string()
        })
        .collect();
    let statics = (0..rng.below(width.statics + 1))
        .map(|i| (format!("s{i}"), rng.pick(&COLUMN_TYPES).to_string()))
        .collect();
    let regulars = (0..rng.below(width.regulars + 1))
        .map(|i| (format!("r{i}"), rng.pick(&COLUMN_TYPES).to_string()))
        .collect();
    Text {
        bases: random_bases(rng),
        key: "UTF8Type".into(),
        clustering,
        statics,
        regulars,
    }
}

/// Varints of bases near the bottom of their ranges, now and then odd ones.
pub fn random_bases(rng: &mut Rng) -> [u64; 3] {
    let timestamp = match rng.below(6) {
        0 => (1u64 << 63) - 1_442_880_000_000_000, // the least 64-bit number
        1 => (1u64 << 63) - 1_442_880_000_000_000 - 20, // near the greatest
        _ => rng.below(50),
    };
    let local = match rng.below(8) {
        0 => (1u64 << 32) - 1_442_880_000, // 0
        1 => 2_147_483_640 - 1_442_880_000,
        _ => rng.below(50),
    };
    let ttl = match rng.below(8) {
        0 => 2_147_483_640,
        _ => rng.below(10),
    };
    [timestamp, local, ttl]
}
