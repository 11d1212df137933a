//! W: the writer.

use super::*;

fn one(kind: u8, flags: u8) -> Record {
    Record {
        kind,
        flags,
        ..Record::default()
    }
}

/// A partition of an empty key.
fn key() -> Record {
    one(1, 8)
}

fn end() -> Record {
    one(7, 0)
}

fn marker(kind: u8, mark: i64, local: u32) -> Record {
    Record {
        column: kind,
        mark,
        local,
        ..one(4, 4)
    }
}

fn value(column: u8) -> Record {
    Record {
        column,
        ..one(5, 8)
    }
}

/// A cell of an empty value.
fn cell(column: u8) -> Record {
    Record {
        column,
        ..one(6, 9)
    }
}

fn bytes_of(list: &[Record]) -> Vec<u8> {
    list.iter().flat_map(|r| r.to_bytes()).collect()
}

fn write(known: &Known, list: &[Record]) -> Result<Vec<u8>, Refusal> {
    known.write(&bytes_of(list), &[])
}

fn told(list: &[Record]) -> String {
    no(write(&n(), list))
}

#[test]
fn w01_places_of_10_and_5() {
    let bad = Record {
        ttl: 0,
        timestamp: i64::MIN,
        ..one(3, 3)
    };
    assert_eq!(told(&[key(), bad]), "5 records 68");
    let good_ttl = Record { ttl: 1, ..bad };
    assert_eq!(told(&[key(), good_ttl]), "5 records 72");
    assert_eq!(told(&[key(), one(3, 8)]), "10 records 64");
    let low = i64::MIN;
    let high = u32::MAX;
    let row = Record {
        timestamp: 1,
        ttl: 1,
        mark: low,
        local: high,
        expiry: high,
        ..one(3, 7)
    };
    assert_eq!(told(&[key(), row]), "5 records 80");
    let row = Record { mark: 1, ..row };
    assert_eq!(told(&[key(), row]), "5 records 88");
    let row = Record { local: 1, ..row };
    assert_eq!(told(&[key(), row]), "5 records 92");
    let boundary = Record {
        second_mark: low,
        second_local: high,
        ..marker(2, 5, 6)
    };
    assert_eq!(told(&[key(), marker(1, 5, 6), boundary]), "5 records 160");
    let boundary = Record {
        second_mark: 1,
        ..boundary
    };
    assert_eq!(told(&[key(), marker(1, 5, 6), boundary]), "5 records 168");
}

#[test]
fn w02_in_each_record_10_then_5() {
    let early = Record {
        mark: i64::MIN,
        ..one(1, 12)
    };
    assert_eq!(told(&[early, key()]), "5 records 16");
    let both = Record { column: 1, ..early };
    assert_eq!(told(&[both, key()]), "10 records 0");
}

#[test]
fn w03_a_list_cut_short() {
    let cut = |list: &[Record], more: usize| {
        no(n().write(&[bytes_of(list), vec![1; more]].concat(), &[]))
    };
    assert_eq!(cut(&[key()], 10), "10 records 74");
    assert_eq!(cut(&[], 1), "10 records 1");
    assert_eq!(cut(&[key(), end()], 10), "10 records 138");
    assert_eq!(cut(&[key()], 0), "10 records 64");
    // If its whole records are fine.
    assert_eq!(cut(&[end()], 10), "10 records 0");
}

#[test]
fn w04_the_empty_list() {
    assert_eq!(write(&n(), &[]), Ok(vec![]));
}

#[test]
fn w05_what_is_missing_is_told_at_the_record_in_its_place() {
    let known = Known::zero(&["Int32Type"], &[], &[]);
    assert_eq!(
        no(write(&known, &[key(), one(3, 0), end()])),
        "10 records 128"
    );
    // A range never closed, at the end record.
    assert_eq!(told(&[key(), marker(1, 5, 6), end()]), "10 records 128");
}

#[test]
fn w06_flags_and_unused_numbers() {
    let allowed: [(u8, &[u8]); 7] = [
        (1, &[0, 4, 8, 12]),
        (2, &[0, 1, 3, 4, 5, 7]),
        (3, &[0, 1, 3, 4, 5, 7]),
        (4, &[4]),
        (5, &[0, 8]),
        (6, &[1, 3, 5, 9, 11]),
        (7, &[0]),
    ];
    let known = Known::zero(&["BytesType"], &["BytesType"], &["BytesType"]);
    for (kind, flags_allowed) in allowed {
        for flags in 0..=255u8 {
            let (list, bytes) = list_with(kind, flags);
            let answer = known.write(&bytes_of(&list), &bytes);
            let good = flags_allowed.contains(&flags);
            assert_eq!(answer.is_ok(), good, "kind {kind} flags {flags}");
            if !good {
                assert!(no(answer).starts_with("10 records "));
            }
        }
    }
    for byte in [3, 44, 45, 46, 47, 4, 8, 16, 24, 28, 32, 40, 2] {
        let mut raw = bytes_of(&[key(), end()]);
        raw[64 + byte] = 1;
        assert_eq!(no(n().write(&raw, &[])), "10 records 64");
    }
}

/// A list around one record of this kind and these flags, all its used numbers
/// 1, and the bytes lent beside it.
fn list_with(kind: u8, flags: u8) -> (Vec<Record>, Vec<u8>) {
    let dead = kind == 6 && flags & 4 != 0;
    let shown = matches!(kind, 1 | 5 | 6) && flags & 8 == 0 && !dead;
    let number = |bit: u8| u32::from(flags & bit != 0);
    let record = Record {
        column: u8::from(kind == 4),
        ttl: number(2),
        expiry: number(2),
        timestamp: number(1).into(),
        mark: if kind == 6 { 0 } else { number(4).into() },
        local: number(4),
        length: shown.into(),
        ..one(kind, flags)
    };
    let row = [one(3, 0), value(0)];
    let list = match kind {
        1 => vec![record, end()],
        2 => vec![key(), record, end()],
        3 => vec![key(), record, value(0), end()],
        4 => vec![key(), record, marker(6, 1, 1), end()],
        5 => vec![key(), row[0], record, end()],
        6 => vec![key(), row[0], row[1], record, end()],
        _ => vec![key(), record],
    };
    (list, vec![0xAA])
}

#[test]
fn w07_turns_of_records() {
    let known = Known::zero(&["Int32Type"; 2], &["Int32Type"], &["Int32Type"; 2]);
    let (row, fixed) = (one(3, 0), one(2, 0));
    let good: [&[Record]; 3] = [
        &[
            key(),
            fixed,
            row,
            value(0),
            value(1),
            cell(0),
            cell(1),
            end(),
        ],
        &[
            key(),
            marker(1, 5, 6),
            value(0),
            marker(6, 5, 6),
            value(0),
            value(1),
            end(),
        ],
        &[key(), row, value(0), value(1), cell(1), end()],
    ];
    for list in good {
        assert!(write(&known, list).is_ok());
    }
    let bad: [(&[Record], u64); 7] = [
        (&[key(), row, value(0), value(1), fixed], 4),
        (&[key(), fixed, fixed], 2),
        (&[key(), row, value(1)], 2),
        (&[key(), row, value(0), cell(0)], 3),
        (&[key(), marker(1, 5, 6), value(1)], 2),
        (&[key(), row, value(0), value(1), cell(1), cell(0)], 5),
        (&[key(), row, value(0), value(1), cell(1), cell(1)], 5),
    ];
    for (list, index) in bad {
        assert_eq!(
            no(write(&known, list)),
            format!("10 records {}", 64 * index)
        );
    }
    assert_eq!(told(&[key(), fixed]), "10 records 64");
}

#[test]
fn w08_places_of_whole_items_are_ignored() {
    let known = Known::zero(&[], &["Int32Type"], &[]);
    let odd = |record: Record| Record {
        offset: u64::MAX,
        length: u64::MAX,
        ..record
    };
    let list = [
        one(2, 0),
        one(3, 0),
        marker(1, 5, 6),
        marker(0, 5, 6),
        end(),
    ];
    let plain = write(&known, &[&[key()], &list[..]].concat()).unwrap();
    let changed = write(&known, &[&[key()], &list.map(odd)[..]].concat());
    assert_eq!(changed, Ok(plain));
}

#[test]
fn w09_shown_keys_and_values() {
    let shown = |offset, length| Record {
        offset,
        length,
        ..one(1, 0)
    };
    let lent = vec![7; 65_536];
    let write = |r: Record, lent: &[u8]| n().write(&bytes_of(&[r, end()]), lent);
    assert!(write(shown(65_535, 1), &lent).is_ok());
    assert!(write(shown(1, 65_535), &lent).is_ok());
    let bad = [
        shown(0, 0),
        shown(65_536, 1),
        shown(65_535, 2),
        shown(u64::MAX, 1),
        shown(1, u64::MAX),
        shown(0, 65_536),
    ];
    for record in bad {
        assert_eq!(no(write(record, &lent)), "10 records 0");
    }
    let empty = Record {
        flags: 8,
        ..shown(0, 1)
    };
    assert_eq!(no(write(empty, &lent)), "10 records 0");
    // A fixed width, and a tombstone without a place.
    let known = Known::zero(&[], &[], &["Int32Type"]);
    let told = |cell: Record| known.write(&bytes_of(&[key(), one(3, 0), cell, end()]), &lent);
    let cell = |flags, length| Record {
        length,
        ..one(6, flags)
    };
    assert!(told(cell(1, 4)).is_ok());
    assert_eq!(no(told(cell(1, 5))), "10 records 128");
    assert!(told(cell(5, 0)).is_ok());
    assert_eq!(no(told(cell(5, 4))), "10 records 128");
}

#[test]
fn w10_a_partitions_deletion() {
    let deleted = |mark, local| Record {
        mark,
        local,
        ..one(1, 12)
    };
    assert_eq!(
        told(&[deleted(i64::MIN, 0x7FFF_FFFF), end()]),
        "5 records 16"
    );
    // It has no base.
    let zero = common::zero_bases();
    let known = Known::with_bases([zero[0] + 10, zero[1] + 10, 0], &[], &[], &[]);
    let out = write(&known, &[deleted(1, 1), end()]).unwrap();
    assert_eq!(out, hex("0000 00000001 0000000000000001 01"));
}

#[test]
fn w11_a_marker_out_of_turn_before_its_numbers() {
    let list = [key(), marker(1, 5, 6), marker(6, i64::MIN, 6)];
    assert_eq!(told(&list), "10 records 128");
    assert_eq!(told(&[key(), marker(6, i64::MIN, 6)]), "10 records 64");
    let list = [key(), marker(1, 5, 6), marker(7, 5, 6)];
    assert_eq!(told(&list), "10 records 128");
}

#[test]
fn w12_local_times_and_ttls_are_unsigned() {
    let row = |ttl, expiry| Record {
        ttl,
        expiry,
        ..one(3, 3)
    };
    let told = |known: &Known, row| no(write(known, &[key(), row, end()]));
    assert!(write(&n(), &[key(), row(0x7FFF_FFFF, 0x7FFF_FFFE), end()]).is_ok());
    assert_eq!(told(&n(), row(0x8000_0000, 0)), "5 records 68");
    assert_eq!(told(&n(), row(1, 0x7FFF_FFFF)), "5 records 92");
    assert_eq!(told(&n(), row(1, u32::MAX)), "5 records 92");
    let zero = common::zero_bases();
    let known = Known::with_bases([zero[0], zero[1] + 10, 10], &[], &[], &[]);
    assert_eq!(told(&known, row(9, 10)), "5 records 68");
    assert_eq!(told(&known, row(10, 9)), "5 records 92");
}
