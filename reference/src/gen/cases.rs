//! Random sound and damaged cases of the container.

use super::data::{DataMaker, Spelling};
use super::text::{random_bases, random_text, statistics, Width};
use crate::batch::{bases_blob, kind, Case};
use crate::data::Bases;
use crate::rng::Rng;
use crate::schema::Schema;
use crate::statistics::{read_statistics, Stats};
use crate::walk::list_data;

/// A random table: its Statistics, read, and a Data of some partitions.
pub struct Made {
    pub statistics: Vec<u8>,
    pub stats: Stats,
    pub data: Vec<u8>,
}

/// Makes a table of up to two partitions, in any spelling.
pub fn random_table(rng: &mut Rng) -> Made {
    let width = Width {
        clustering: 3,
        statics: 3,
        regulars: 4,
        unordered: true,
    };
    let statistics = statistics(&random_text(rng, width));
    let stats = read_statistics(&statistics).expect("made well");
    let schema = Schema::check(&stats.schema).expect("made well");
    let mut maker = DataMaker {
        schema: &schema,
        bases: stats.bases,
        spelling: if rng.one_in(3) {
            Spelling::Writer
        } else {
            Spelling::Any
        },
        markers: rng.one_in(2),
        sorted: false,
        spread: *rng.pick(&[4, 200, 1 << 40]),
        rng: Rng::new(rng.next()),
    };
    let mut data = Vec::new();
    for _ in 0..rng.below(3) {
        let key_len = rng.index(3);
        let key = rng.bytes(key_len);
        maker.partition(&mut data, &key, rng.index(4));
    }
    Made {
        statistics,
        stats,
        data,
    }
}

/// One partition for a merge, under a schema and bases given.
pub fn random_partition(
    schema: &Schema,
    bases: Bases,
    rng: &mut Rng,
    key: &[u8],
    rows: usize,
) -> Vec<u8> {
    let mut maker = DataMaker {
        schema,
        bases,
        spelling: if rng.one_in(2) {
            Spelling::Writer
        } else {
            Spelling::Any
        },
        markers: false,
        sorted: true,
        spread: 4,
        rng: Rng::new(rng.next()),
    };
    let mut data = Vec::new();
    maker.partition(&mut data, key, rows);
    data
}

/// One partition that a merge may refuse: with markers or out of order.
fn random_loose_partition(
    schema: &Schema,
    bases: Bases,
    rng: &mut Rng,
    key: &[u8],
    rows: usize,
) -> Vec<u8> {
    let mut maker = DataMaker {
        schema,
        bases,
        spelling: Spelling::Any,
        markers: rng.one_in(2),
        sorted: rng.one_in(2),
        spread: 4,
        rng: Rng::new(rng.next()),
    };
    let mut data = Vec::new();
    maker.partition(&mut data, key, rows);
    data
}

/// Changes a few bytes: flips, overwrites, cuts and insertions.
pub fn damage(rng: &mut Rng, bytes: &mut Vec<u8>) {
    for _ in 0..1 + rng.below(2) {
        if bytes.is_empty() {
            bytes.push(rng.byte());
            continue;
        }
        let at = rng.index(bytes.len());
        match rng.below(8) {
            0 => bytes.truncate(at),
            1 => bytes.insert(at, rng.byte()),
            2 => {
                bytes.remove(at);
            }
            3 => bytes[at] = *rng.pick(&[0x00, 0x01, 0x02, 0x7F, 0x80, 0xFF]),
            4 => bytes[at] = rng.byte(),
            5 => bytes[at] = bytes[at].wrapping_add(1),
            6 => bytes[at] = bytes[at].wrapping_sub(1),
            _ => bytes[at] ^= 1 << rng.below(8),
        }
    }
}

/// A mixture of sound and damaged cases of every kind.
pub fn random_cases(count: usize, seed: u64) -> Vec<Case> {
    let mut rng = Rng::new(seed);
    (0..count).map(|_| random_case(&mut rng)).collect()
}

fn random_case(rng: &mut Rng) -> Case {
    match rng.below(16) {
        0 => {
            let mut bytes = random_table(rng).statistics;
            damage(rng, &mut bytes);
            Case {
                kind: kind::STATISTICS,
                blobs: vec![bytes],
            }
        }
        1 => Case {
            kind: kind::STATISTICS,
            blobs: vec![random_type_statistics(rng)],
        },
        2 => {
            let mut bytes = random_scylla(rng);
            if !rng.one_in(3) {
                damage(rng, &mut bytes);
            }
            Case {
                kind: kind::SCYLLA,
                blobs: vec![bytes],
            }
        }
        3..=8 => random_list_case(rng),
        9..=12 => random_write_case(rng),
        _ => random_merge_case(rng),
    }
}

fn random_list_case(rng: &mut Rng) -> Case {
    let made = random_table(rng);
    let mut data = made.data;
    if !rng.one_in(5) {
        damage(rng, &mut data);
    }
    if rng.one_in(4) {
        let mut schema = made.stats.schema;
        if rng.one_in(2) {
            damage(rng, &mut schema);
        }
        let mut bases = made.stats.bases;
        if rng.one_in(6) {
            bases.local = -1;
        }
        return Case {
            kind: kind::LIST_RAW,
            blobs: vec![schema, bases_blob(bases), data],
        };
    }
    Case {
        kind: kind::LIST,
        blobs: vec![made.statistics, data],
    }
}

fn random_write_case(rng: &mut Rng) -> Case {
    let made = random_table(rng);
    let listed = list_data(&made.stats.schema, made.stats.bases, &made.data);
    let mut records = listed.expect("made well").concat();
    if !rng.one_in(5) {
        damage_records(rng, &mut records);
    }
    let output = if rng.one_in(6) {
        rng.below(40)
    } else {
        1 << 20
    };
    let output = output.to_be_bytes().to_vec();
    let bases = bases_blob(made.stats.bases);
    let blobs = vec![made.stats.schema, bases, records, made.data, output];
    Case {
        kind: kind::WRITE_RAW,
        blobs,
    }
}

/// Damage to a record table: whole records, one field, or any bytes.
pub fn damage_records(rng: &mut Rng, records: &mut Vec<u8>) {
    match rng.below(4) {
        0 if records.len() > 64 => shuffle_records(rng, records),
        1 if records.len() >= 64 => change_field(rng, records),
        _ => damage(rng, records),
    }
}

/// One whole record dropped, doubled or put over another.
fn shuffle_records(rng: &mut Rng, records: &mut Vec<u8>) {
    let count = records.len() / 64;
    let (i, j) = (64 * rng.index(count), 64 * rng.index(count));
    let copy: Vec<u8> = records[j..j + 64].to_vec();
    match rng.below(3) {
        0 => drop(records.drain(i..i + 64)),
        1 => records[i..i + 64].copy_from_slice(&copy),
        _ => drop(records.splice(i..i, copy)),
    }
}

/// Places and widths of a record's fields.
const FIELDS: [(usize, usize); 14] = [
    (0, 1),
    (1, 1),
    (2, 1),
    (3, 1),
    (4, 4),
    (8, 8),
    (16, 8),
    (24, 4),
    (28, 4),
    (32, 8),
    (40, 4),
    (44, 4),
    (48, 8),
    (56, 8),
];

/// One field of one record set to an odd number.
fn change_field(rng: &mut Rng, records: &mut [u8]) {
    let at = 64 * rng.index(records.len() / 64);
    let (field, width) = *rng.pick(&FIELDS);
    let value: u64 = match rng.below(7) {
        0 => 0,
        1 => u64::MAX,
        2 => 1 << 63,
        3 => 0x7FFF_FFFF,
        4 => rng.below(10),
        5 => 0x7FFF_FFFF_FFFF_FFFF,
        _ => 0x8000_0000,
    };
    records[at + field..][..width].copy_from_slice(&value.to_be_bytes()[8 - width..]);
}

fn random_merge_case(rng: &mut Rng) -> Case {
    let width = Width {
        clustering: 3,
        statics: 2,
        regulars: 3,
        unordered: rng.one_in(8),
    };
    let text_a = random_text(rng, width);
    let mut text_b = text_a.clone();
    text_b.bases = random_bases(rng);
    if rng.one_in(12) {
        text_b.regulars.push(("more".into(), "".into()));
    }
    let mut blobs = Vec::new();
    for text in [&text_a, &text_b] {
        let statistics = statistics(text);
        let data = random_merge_data(rng, &statistics);
        blobs.push(statistics);
        blobs.push(data);
    }
    let output = if rng.one_in(8) {
        rng.below(60)
    } else {
        1 << 20
    };
    blobs.push(output.to_be_bytes().to_vec());
    Case {
        kind: kind::MERGE,
        blobs,
    }
}

/// One side's Data, now and then one that a merge refuses.
fn random_merge_data(rng: &mut Rng, statistics: &[u8]) -> Vec<u8> {
    let stats = read_statistics(statistics).expect("made well");
    let schema = Schema::check(&stats.schema).expect("made well");
    let key: &[u8] = if rng.one_in(15) { b"other" } else { b"k" };
    let rows = rng.index(5);
    let mut data = if rng.one_in(8) {
        random_loose_partition(&schema, stats.bases, rng, key, rows)
    } else {
        random_partition(&schema, stats.bases, rng, key, rows)
    };
    if rng.one_in(12) {
        data.extend(random_partition(&schema, stats.bases, rng, key, 1));
    }
    if rng.one_in(4) {
        damage(rng, &mut data);
    }
    data
}

/// What random type strings are put together from, blank-separated; `~` stands
/// for a space, `^` for a tab and `$` for a newline.
const PIECES: &str = "ReversedType Int32Type ListType FrozenType TupleType UserType UTF8Type \
    CounterColumnType PartitionerDefinedOrder org.apache.cassandra.db.marshal. ( ( ( ) ) ) ~ ^ $ , \
    : => x . (((((((((((((((( )))))))))))))))) # (((((((((((((((";

/// Statistics with a type string put together at random.
fn random_type_statistics(rng: &mut Rng) -> Vec<u8> {
    let pieces: Vec<&str> = PIECES.split(' ').filter(|p| !p.is_empty()).collect();
    let count = 1 + rng.below(7);
    let mut string: String = (0..count).map(|_| *rng.pick(&pieces)).collect();
    string = string
        .replace('~', " ")
        .replace('^', "\t")
        .replace('$', "\n");
    if rng.one_in(3) {
        string = format!("ReversedType({string})");
    } else if rng.one_in(3) {
        string = format!("TupleType({string})");
    }
    let width = Width {
        clustering: 2,
        statics: 2,
        regulars: 2,
        unordered: true,
    };
    let mut text = random_text(rng, width);
    match rng.below(4) {
        0 => text.key = string,
        1 => text.clustering.push(string),
        2 => text.statics.push(("z".into(), string)),
        _ => text.regulars.push(("z".into(), string)),
    }
    statistics(&text)
}

fn random_scylla(rng: &mut Rng) -> Vec<u8> {
    let count = rng.below(5) as u32;
    let mut out = count.to_be_bytes().to_vec();
    for _ in 0..count {
        let tag = 1 + rng.below(5) as u32;
        let body = match tag {
            1 => random_sharding(rng),
            2 => rng.bytes(8),
            3 => vec![0, 0, 0, 1, 0, 0, 0, 1, b'k', 0, 0, 0, 2, b'v', b'w'],
            4 => rng.bytes(16),
            _ => {
                let len = rng.index(5);
                rng.bytes(len)
            }
        };
        out.extend(tag.to_be_bytes());
        out.extend((body.len() as u32).to_be_bytes());
        out.extend(body);
    }
    out
}

fn random_sharding(rng: &mut Rng) -> Vec<u8> {
    let count = rng.below(4) as u32;
    let mut out = count.to_be_bytes().to_vec();
    let mut token = -3i64;
    for _ in 0..2 * count {
        token += rng.below(3) as i64;
        out.push(rng.below(2) as u8);
        out.extend([0, 8]);
        out.extend(token.to_be_bytes());
    }
    out
}
