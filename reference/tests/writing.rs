//! The writer's rules one by one.

mod common;

use common::{at, live, partition, Known};
use reference::*;

fn table() -> Known {
    Known::zero(&["Int32Type"], &["Int32Type"], &["Int32Type", "UTF8Type"])
}

/// Data with every kind of record: partition, static row, row with clustering
/// and cells, markers, end.
fn sample() -> Vec<u8> {
    let fixed = [0xA4, 0x01, 7, 0, 5, 0x08, 0, 0, 0, 1];
    let start = [0x02, 1, 0, 1, 0, 0, 0, 0, 7, 3, 25, 4, 5];
    let row = [
        0x3C, 0, 0, 0, 0, 9, 15, 13, 5, 6, 7, 8, 9, 0x1A, 0, 0, 0, 2, 0x08, 2, b'h', b'i',
    ];
    let boundary = [0x02, 2, 0, 0, 5, 22, 4, 5, 6, 7];
    let last = [0x02, 0, 0, 0, 3, 10, 6, 7];
    partition(&[&fixed[..], &start, &row, &boundary, &last].concat())
}

fn records(known: &Known, data: &[u8]) -> Vec<u8> {
    known.list(data).unwrap().concat()
}

/// `records` with field `field` of record `index` set.
fn with(records: &[u8], index: usize, field: usize, bytes: &[u8]) -> Vec<u8> {
    let mut out = records.to_vec();
    out[64 * index + field..][..bytes.len()].copy_from_slice(bytes);
    out
}

#[test]
fn the_sample_is_in_the_writers_form() {
    let known = table();
    let data = sample();
    let records = records(&known, &data);
    let kinds: Vec<u8> = records.chunks(64).map(|r| r[0]).collect();
    assert_eq!(kinds, [1, 2, 6, 4, 5, 3, 5, 6, 6, 4, 4, 7]);
    assert_eq!(known.write(&records, &data).unwrap(), data);
    assert_eq!(known.write(&[], &[]), Ok(vec![]));
}

#[test]
fn a_list_cut_short() {
    let known = table();
    let data = sample();
    let records = records(&known, &data);
    for cut in 1..records.len() {
        let answer = known.write(&records[..cut], &data);
        assert_eq!(at("records", answer), (10, cut as u64), "cut {cut}");
    }
}

#[test]
fn every_byte_matters_but_places_of_items() {
    let known = table();
    let data = sample();
    let records = records(&known, &data);
    for at_byte in 0..records.len() {
        for flip in [1u8, 0x80, 0xFF] {
            let mut changed = records.clone();
            changed[at_byte] ^= flip;
            let kind = records[at_byte / 64 * 64];
            let whole = matches!(kind, 2 | 3 | 4 | 7) && at_byte % 64 >= 48;
            match known.write(&changed, &data) {
                Ok(out) => {
                    if whole {
                        assert_eq!(out, data);
                        continue;
                    }
                    // Another list: it must list as it was given.
                    let listed = known.list(&out).unwrap();
                    let given: Vec<[u8; 64]> =
                        changed.chunks(64).map(|c| c.try_into().unwrap()).collect();
                    assert_eq!(
                        common::placeless(&listed, &out),
                        common::placeless(&given, &data),
                        "byte {at_byte}"
                    );
                }
                Err(refusal) => {
                    assert!(!whole);
                    assert!(
                        refusal.number == 10 || refusal.number == 5,
                        "byte {at_byte}: {refusal}"
                    );
                    assert!(
                        refusal.place as usize >= at_byte / 64 * 64,
                        "byte {at_byte}: {refusal}"
                    );
                }
            }
        }
    }
}

/// Bases 10, 20, 30 and one row with a cell.
fn raised() -> (Known, Vec<u8>) {
    let zero = common::zero_bases();
    let bases = [zero[0].wrapping_add(10), zero[1] + 20, 30];
    let known = Known::with_bases(bases, &[], &[], &["Int32Type"]);
    let mut data = live();
    data.extend([0x3C, 11, 15, 1, 2, 3, 4, 5, 0x1A, 0, 0, 0, 2, 0x01]);
    (known, data)
}

#[test]
fn numbers_out_of_range_or_below_their_base() {
    let (known, data) = raised();
    let good = records(&known, &data);
    assert_eq!(known.write(&good, &data).unwrap(), data);
    let shown: Vec<String> = common::printed(&known.list(&data).unwrap());
    assert_eq!(shown[1], "3 7 0 32 11 14 25 23 0 0 15 13");
    // Record 1: place and width of a field, and numbers that it can't be.
    let bad: [(usize, usize, &[u64]); 5] = [
        (4, 4, &[29, 0, 0x8000_0000]),
        (8, 8, &[9, 1 << 63]),
        (16, 8, &[9, 1 << 63]),
        (24, 4, &[19, 0x7FFF_FFFF]),
        (28, 4, &[19, 0x7FFF_FFFF]),
    ];
    for (field, width, numbers) in bad {
        for number in numbers {
            let bytes = &number.to_be_bytes()[8 - width..];
            let answer = known.write(&with(&good, 1, field, bytes), &data);
            assert_eq!(at("records", answer), (5, 64 + field as u64));
        }
    }
    // The leftmost of several; a 10 in the same record first, one in the next
    // record later.
    let many = with(&with(&good, 1, 8, &[0; 8]), 1, 4, &[0; 4]);
    let told = |records: &[u8]| at("records", known.write(records, &data));
    assert_eq!(told(&many), (5, 68));
    assert_eq!(told(&with(&many, 1, 3, &[1])), (10, 64));
    assert_eq!(told(&with(&many, 2, 3, &[1])), (5, 68));
}

#[test]
fn places_of_values() {
    let known = table();
    let data = sample();
    let good = records(&known, &data);
    let refused = |records: &[u8]| at("records", known.write(records, &data));
    let len = data.len() as u64;
    // The key.
    assert_eq!(refused(&with(&good, 0, 48, &len.to_be_bytes())), (10, 0));
    assert_eq!(
        refused(&with(&good, 0, 48, &u64::MAX.to_be_bytes())),
        (10, 0)
    );
    assert_eq!(refused(&with(&good, 0, 56, &0u64.to_be_bytes())), (10, 0));
    assert!(known
        .write(&with(&good, 0, 48, &(len - 1).to_be_bytes()), &data)
        .is_ok());
    // Empty with a place, and not empty without one.
    assert_eq!(refused(&with(&good, 0, 1, &[8])), (10, 0));
    // A fixed width's length.
    assert_eq!(refused(&with(&good, 2, 56, &5u64.to_be_bytes())), (10, 128));
    assert_eq!(refused(&with(&good, 2, 56, &3u64.to_be_bytes())), (10, 128));
    // A whole item's place is not looked at.
    let odd = with(&with(&good, 1, 48, &[0xFF; 16]), 11, 48, &[0xFF; 16]);
    assert_eq!(known.write(&odd, &data).unwrap(), data);
    // A key longer than its 16-bit length can say.
    let long = vec![0u8; 65_536];
    let mut record = Record {
        kind: 1,
        length: 65_536,
        ..Record::default()
    };
    let end = Record {
        kind: 7,
        ..Record::default()
    }
    .to_bytes();
    let list = |r: &Record| [r.to_bytes(), end].concat();
    assert_eq!(at("records", known.write(&list(&record), &long)), (10, 0));
    record.length = 65_535;
    assert_eq!(
        known.write(&list(&record), &long).unwrap().len(),
        65_535 + 15
    );
}

fn one(kind: u8, flags: u8, column: u8) -> Record {
    Record {
        kind,
        flags,
        column,
        ..Record::default()
    }
}

fn marker(kind: u8, mark: i64) -> Record {
    Record {
        mark,
        ..one(4, 4, kind)
    }
}

fn cell(column: u8) -> Record {
    one(6, 9, column)
}

/// Nothing, or the number and record of the refusal of a list behind a
/// partition record of an empty key.
fn told(known: &Known, list: &[Record]) -> Option<(u8, u64)> {
    let mut bytes = one(1, 8, 0).to_bytes().to_vec();
    bytes.extend(list.iter().flat_map(|r| r.to_bytes()));
    let refusal = known.write(&bytes, &[]).err()?;
    Some((refusal.number, refusal.place / 64))
}

#[test]
fn turns_of_rows() {
    let known = table();
    let (end, value, row, fixed) = (one(7, 0, 0), one(5, 8, 0), one(3, 0, 0), one(2, 0, 0));
    let key = one(1, 8, 0);
    let good: [&[Record]; 5] = [
        &[end],
        &[end, key, end],
        &[fixed, end],
        &[row, value, end],
        &[row, value, cell(0), cell(1), row, value, end],
    ];
    for list in good {
        assert_eq!(told(&known, list), None);
    }
    let bad: [(&[Record], u64); 14] = [
        (&[key], 1),
        (&[one(0, 0, 0)], 1),
        (&[one(8, 0, 0)], 1),
        (&[fixed, value], 2),
        (&[fixed, fixed], 2),
        (&[fixed, cell(1)], 2),
        (&[row, end], 2),
        (&[row, cell(0)], 2),
        (&[row, value, fixed], 3),
        (&[row, value, value], 3),
        (&[row, value, cell(2)], 3),
        (&[row, value, cell(1), cell(0)], 4),
        (&[row, value, cell(1), cell(1)], 4),
        (&[end, end], 2),
    ];
    for (list, place) in bad {
        assert_eq!(told(&known, list), Some((10, place)));
    }
}

/// A prefix of none or one value; open and closed in turn.
#[test]
fn turns_of_markers() {
    let known = table();
    let (end, value, row) = (one(7, 0, 0), one(5, 8, 0), one(3, 0, 0));
    let boundary = Record {
        second_mark: 5,
        second_local: 6,
        ..marker(5, 3)
    };
    let last = Record {
        local: 6,
        ..marker(6, 5)
    };
    let good: [&[Record]; 3] = [
        &[marker(1, 3), marker(0, 3), end],
        &[marker(7, 3), value, row, value, marker(6, 3), value, end],
        &[marker(1, 3), boundary, last, end],
    ];
    for list in good {
        assert_eq!(told(&known, list), None);
    }
    let second = Record {
        second_mark: 1,
        ..marker(1, 3)
    };
    let bad: [(&[Record], u64); 9] = [
        (&[marker(1, 3), value, value], 3),
        (&[marker(1, 3), cell(0)], 2),
        (&[marker(0, 3)], 1),
        (&[marker(1, 3), marker(7, 3)], 2),
        (&[marker(1, 3), marker(0, 4)], 2),
        (&[marker(1, 3), end], 2),
        (&[second], 1),
        (&[marker(3, 3)], 1),
        (&[marker(4, 3)], 1),
    ];
    for (list, place) in bad {
        assert_eq!(told(&known, list), Some((10, place)));
    }
}

/// Without static columns there is no static row; without clustering columns
/// rows and markers have no values.
#[test]
fn turns_in_a_table_without_columns() {
    let bare = Known::zero(&[], &[], &[]);
    let (end, value, row) = (one(7, 0, 0), one(5, 8, 0), one(3, 0, 0));
    let list = [row, row, marker(1, 3), marker(6, 3), end];
    assert_eq!(told(&bare, &list), None);
    assert_eq!(told(&bare, &[one(2, 0, 0)]), Some((10, 1)));
    assert_eq!(told(&bare, &[row, value]), Some((10, 2)));
    assert_eq!(told(&bare, &[marker(1, 3), value]), Some((10, 2)));
}

#[test]
fn output_comes_last() {
    let known = table();
    let data = sample();
    let good = records(&known, &data);
    let (schema, bases) = (&known.stats.schema, known.stats.bases);
    for output in 0..data.len() {
        assert_eq!(
            at("output", write_data(schema, bases, &good, &data, output)),
            (13, data.len() as u64)
        );
    }
    assert!(write_data(schema, bases, &good, &data, data.len()).is_ok());
    let bad = with(&good, 11, 1, &[1]);
    assert_eq!(
        at("records", write_data(schema, bases, &bad, &data, 0)),
        (10, 704)
    );
    assert!(write_data(schema, bases, &[], &[], 0).is_ok());
}

#[test]
fn previous_sizes() {
    // Static aside; the first row counts from the partition's first byte.
    let known = table();
    let data = sample();
    let out = known.write(&records(&known, &data), &data).unwrap();
    assert_eq!(out[18], 0); // static row
    assert_eq!(out[35], 25); // first marker: 15 of header, 10 of static row
    assert_eq!(out[45], 13); // row: the marker's 13 bytes
                             // The second partition counts from its own first byte.
    let twice = [data.clone(), data.clone()].concat();
    assert_eq!(
        known.write(&records(&known, &twice), &twice).unwrap(),
        twice
    );
}
