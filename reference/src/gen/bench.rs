//! Large files for the bench.

use super::text::Text;
use crate::data::{Bases, Cell, Content, Deletion, Expiry, Liveness};
use crate::encode::{Encoder, RowImage};
use crate::rng::Rng;
use crate::schema::Schema;

/// The bench's schema: two clustering columns, a static and four regular ones.
pub fn bench_text() -> Text {
    Text {
        bases: [0, 0, 0],
        key: "UTF8Type".into(),
        clustering: vec!["Int32Type".into(), "UTF8Type".into()],
        statics: vec![("s".into(), "LongType".into())],
        regulars: vec![
            ("a".into(), "Int32Type".into()),
            ("b".into(), "UTF8Type".into()),
            ("c".into(), "LongType".into()),
            ("d".into(), "BytesType".into()),
        ],
    }
}

/// Data of about `size` bytes under [`bench_text`], in partitions of
/// `partition` bytes at least (one in all where that is 0).  Two seeds give
/// rows of which about half have the same clustering.
pub fn bench_data(
    schema: &Schema,
    bases: Bases,
    size: usize,
    partition: usize,
    seed: u64,
) -> Vec<u8> {
    let mut rng = Rng::new(seed);
    let mut encoder = Encoder::new(bases);
    encoder.out.reserve(size + 4096);
    let mut number = 0u32;
    while encoder.out.len() < size {
        let key = format!("key-{number:08}");
        number += 1;
        encoder.partition(key.as_bytes(), None);
        let start = encoder.out.len();
        let mut row = 0i32;
        while encoder.out.len() < size && (partition == 0 || encoder.out.len() - start < partition)
        {
            row += 1 + rng.below(2) as i32;
            bench_row(&mut encoder, schema, bases, row, &mut rng);
        }
        encoder.end();
    }
    encoder.out
}

fn bench_row(encoder: &mut Encoder, schema: &Schema, bases: Bases, row: i32, rng: &mut Rng) {
    let int = row.to_be_bytes();
    let name = format!("n{}", row % 1000);
    let long = rng.next().to_be_bytes();
    let text_len = rng.index(24);
    let text = rng.bytes(text_len);
    let blob_len = rng.index(40);
    let blob = rng.bytes(blob_len);
    let base = bases.timestamp;
    let liveness = (!rng.one_in(5)).then(|| Liveness {
        timestamp: base + rng.below(1 << 30) as i64,
        expiry: None,
    });
    let deletion = rng.one_in(20).then(|| Deletion {
        mark: base + rng.below(1 << 28) as i64,
        local: bases.local as u32 + 5,
    });
    let values: [&[u8]; 4] = [&int, &text, &long, &blob];
    let cells = values.map(|value| bench_cell(value, liveness, bases, rng));
    let image = RowImage {
        is_static: false,
        clustering: &[&int, name.as_bytes()],
        liveness,
        deletion,
        present: if rng.one_in(2) { 15 } else { rng.below(16) },
        cells: &cells,
    };
    encoder.row(&image, schema.clustering(), schema.regulars());
}

fn bench_cell<'a>(value: &'a [u8], row: Option<Liveness>, bases: Bases, rng: &mut Rng) -> Cell<'a> {
    let timestamp = match row {
        Some(row) if !rng.one_in(3) => row.timestamp,
        _ => bases.timestamp + rng.below(1 << 30) as i64,
    };
    let local = bases.local as u32 + rng.below(1 << 20) as u32;
    let expiry = Some(Expiry { local, ttl: 86_400 });
    let content = match rng.below(12) {
        0 => Content::Tombstone { local },
        1 => Content::Value {
            bytes: value,
            expiry,
        },
        _ => Content::Value {
            bytes: value,
            expiry: None,
        },
    };
    Cell { timestamp, content }
}
