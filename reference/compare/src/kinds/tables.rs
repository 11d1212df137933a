//! Tables of a schema, bases and Data, sound and damaged.

use reference::batch::bases_blob;
use reference::gen::{self, DataMaker, Spelling, Text, Width};
use reference::rng::Rng;
use reference::{read_statistics, Bases, Schema};

use super::damage::{beside, damage};

/// A table.
pub struct Made {
    pub statistics: Vec<u8>,
    pub schema: Vec<u8>,
    pub bases: Bases,
    pub data: Vec<u8>,
}

impl Made {
    /// The blobs of a case that is given schema, bases and Data.
    pub fn blobs(self) -> Vec<Vec<u8>> {
        vec![self.schema, bases_blob(self.bases), self.data]
    }
}

/// A table that is sound, Statistics and all.
pub fn sound(rng: &mut Rng) -> Made {
    let statistics = gen::statistics(&random_text(rng));
    let stats = read_statistics(&statistics).expect("made well");
    let checked = Schema::check(&stats.schema).expect("made well");
    let data = random_data(rng, &checked, stats.bases);
    Made {
        statistics,
        schema: stats.schema,
        bases: stats.bases,
        data,
    }
}

/// The same, its Data damaged as a rule: half of the time a few bytes anywhere,
/// else one byte of an item.
pub fn any(rng: &mut Rng) -> Made {
    let mut made = sound(rng);
    match rng.below(20) {
        0..=6 => {}
        7..=12 => damage(rng, &mut made.data),
        13..=17 => change_byte(rng, &mut made.data),
        18 => match rng.below(3) {
            0 => made.bases.local = *rng.pick(&[-1, i32::MIN, i32::MAX, i32::MAX - 1]),
            1 => made.bases.ttl = *rng.pick(&[-1, i32::MIN, i32::MAX, i32::MAX - 1]),
            _ => made.bases.timestamp = *rng.pick(&[i64::MIN, i64::MAX, -1, 0]),
        },
        _ => match rng.below(3) {
            0 => damage(rng, &mut made.schema),
            1 => made.schema = sound(rng).schema,
            _ => drop(made.schema.drain(..16.min(made.schema.len()))),
        },
    }
    made
}

/// Few columns as a rule, none or very many now and then.
fn random_text(rng: &mut Rng) -> Text {
    let width = match rng.below(24) {
        0 => Width {
            clustering: 32,
            statics: 63,
            regulars: 63,
            unordered: true,
        },
        1..=3 => Width {
            clustering: 0,
            statics: 0,
            regulars: rng.below(2),
            unordered: false,
        },
        _ => Width {
            clustering: 3,
            statics: 3,
            regulars: 4,
            unordered: true,
        },
    };
    gen::random_text(rng, width)
}

fn random_data(rng: &mut Rng, schema: &Schema, bases: Bases) -> Vec<u8> {
    let spelling = match rng.below(3) {
        0 => Spelling::Writer,
        _ => Spelling::Any,
    };
    let mut maker = DataMaker {
        schema,
        bases,
        spelling,
        markers: rng.one_in(2),
        sorted: false,
        spread: *rng.pick(&[4, 200, 1 << 40]),
        rng: Rng::new(rng.next()),
    };
    let mut data = Vec::new();
    for _ in 0..rng.below(4) {
        let len = match rng.below(40) {
            0 => 200 + rng.index(200),
            _ => rng.index(3),
        };
        let key = rng.bytes(len);
        maker.partition(&mut data, &key, rng.index(4));
    }
    data
}

/// One byte that is another number near by, or an odd one.
fn change_byte(rng: &mut Rng, data: &mut [u8]) {
    if data.is_empty() {
        return;
    }
    let at = rng.index(data.len());
    data[at] = match rng.below(4) {
        0 => data[at] ^ (1 << rng.below(8)),
        1 => *rng.pick(&[0x00, 0x01, 0x02, 0x20, 0x24, 0x80, 0xA0, 0xFF]),
        _ => beside(rng, u64::from(data[at])) as u8,
    };
}
