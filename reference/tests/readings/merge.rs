//! M: the merge.

use super::*;

fn merged(known: &Known, a: &[u8], b: &[u8]) -> Vec<u8> {
    reference::merge(known.table(a), known.table(b), LIMIT)
        .unwrap()
        .0
}

fn told(known: &Known, a: &[u8], b: &[u8]) -> String {
    no(reference::merge(known.table(a), known.table(b), LIMIT))
}

/// A partition of key "k" deleted at (mark, local), and items.
fn deleted(mark: u8, local: u8, items: &str) -> Vec<u8> {
    hex(&format!(
        "00016B 000000{local:02X} 00000000000000{mark:02X} {items}"
    ))
}

/// A row of table n, of length 4: previous size 15 and liveness at `time`.
fn live(time: u8) -> String {
    format!("24 02 0F {time:02X}")
}

#[test]
fn m01_schemas_in_order() {
    let known = Known::zero(&["Int32Type"], &[], &["Int32Type"]);
    let good = known.table(&[]);
    let none = Table {
        schema: &[],
        ..good
    };
    let blind = Table {
        statistics: &[],
        ..good
    };
    let merge = |a, b| no(reference::merge(a, b, 0));
    assert_eq!(merge(none, none), "10 schemaA 0");
    assert_eq!(merge(good, none), "10 schemaB 0");
    assert_eq!(merge(blind, none), "10 schemaA 32");
    assert_eq!(merge(good, blind), "10 schemaB 32");
    // 7 even if no row needs it, behind 11, before Data; no Statistics read.
    let uuid = Known::zero(&["Int32Type", "UUIDType"], &[], &[]);
    assert_eq!(told(&uuid, &[], &[]), "7 schemaA 32");
    assert_eq!(merge(uuid.table(&[]), good), "11 schemaA 0");
    let (junk, bare) = (vec![0xFF; 200], n());
    let table = Table {
        statistics: &junk,
        ..bare.table(&[])
    };
    assert_eq!(merge(table, table), "2 dataA 0");
}

/// A table of key type, and regular column of this name and type.
fn named(key: &str, name: &str, ty: &str) -> Known {
    Known::new(&gen::Text {
        bases: common::zero_bases(),
        key: key.into(),
        regulars: vec![(name.into(), ty.into())],
        ..gen::Text::default()
    })
}

#[test]
fn m02_equal_schemas() {
    let one = h("01");
    let a = named("UTF8Type", "v", "FrozenType(a)");
    let merge = |b: &Known| reference::merge(a.table(&one), b.table(&one), LIMIT);
    // Names by bytes, wherever they stand; parameters are not compared.
    let full = "org.apache.cassandra.db.marshal.UTF8Type";
    let elsewhere = named(full, "v", "FrozenType(bb)");
    assert_ne!(a.stats.schema, elsewhere.stats.schema);
    assert!(merge(&elsewhere).is_ok());
    for other in [
        named("UTF8Type", "w", "FrozenType(a)"),
        named("UTF8Type", "v", "TupleType(a)"),
        named("UTF8Type", "v", "ReversedType(FrozenType(a))"),
        named("ReversedType(UTF8Type)", "v", "FrozenType(a)"),
        n(),
    ] {
        assert_eq!(no(merge(&other)), "11 schemaA 0");
    }
}

#[test]
fn m03_types_with_an_order() {
    let ordered = [1, 2, 3, 17, 21, 28, 33];
    for line in (1..=34).filter(|&line| line != 24) {
        let ty = reference::types::line_of(line).unwrap();
        let text = format!("{}{}", ty.name, if ty.parametrized { "(a)" } else { "" });
        for text in [text.clone(), format!("ReversedType({text})")] {
            let known = Known::zero(&[&text], &[], &[]);
            let wanted = if ordered.contains(&line) {
                "2 dataA 0"
            } else {
                "7 schemaA 16"
            };
            assert_eq!(told(&known, &[], &[]), wanted, "{text}");
        }
    }
    // Boolean by its byte.
    let known = Known::zero(&["BooleanType"], &[], &[]);
    let row = |value: &str, back: &str| format!("24 00 {value} 02 {back} 01");
    let rows = |list: &[(&str, &str)]| {
        let all: String = list.iter().map(|(v, b)| row(v, b)).collect();
        h(&format!("{all} 01"))
    };
    let out = merged(
        &known,
        &rows(&[("02", "0F")]),
        &rows(&[("00", "0F"), ("01", "06")]),
    );
    assert_eq!(out, rows(&[("00", "0F"), ("01", "06"), ("02", "06")]));
}

#[test]
fn m04_a_is_read_whole_then_b() {
    assert_eq!(told(&n(), &[], &[]), "2 dataA 0");
    assert_eq!(told(&n(), &h("01"), &[]), "2 dataB 0");
    assert_eq!(told(&n(), &h("01 FF"), &[]), "3 dataA 16");
    assert_eq!(told(&n(), &h("01"), &h("01 FF")), "3 dataB 16");
    assert_eq!(told(&n(), &h("FF"), &h("01 FF")), "4 dataA 15");
}

const MARKERS: &str = "02 01 0000 03 00 05 06 02 06 0000 03 00 05 06";

#[test]
fn m05_keys_then_markers_then_order() {
    let two = h(&format!("{} {} 01", live(1), live(1)));
    let marked = h(&format!("{MARKERS} 01"));
    assert_eq!(told(&n(), &two, &marked), "12 dataB 15");
    assert_eq!(told(&n(), &marked, &two), "12 dataA 15");
    assert_eq!(told(&n(), &two, &two), "9 dataA 19");
    assert_eq!(told(&n(), &h("01"), &two), "9 dataB 19");
    let mut other = marked.clone();
    other[2] = b'x';
    assert_eq!(told(&n(), &two, &other), "11 dataA 0");
}

#[test]
fn m06_places_of_12_and_9() {
    let known = Known::zero(&["Int32Type"], &[], &[]);
    let row = "24 00 00000009 02 0F 01";
    let marked = h(&format!("{row} {MARKERS} 01"));
    assert_eq!(told(&known, &marked, &h("01")), "12 dataA 24");
    let two = h(&format!("{row} {row} 01"));
    assert_eq!(told(&known, &two, &h("01")), "9 dataA 24");
    // Two rows without clustering columns.
    let two = h(&format!("{} {} 01", live(1), live(2)));
    assert_eq!(told(&n(), &two, &h("01")), "9 dataA 19");
}

#[test]
fn m07_empty_first_and_prefixes() {
    // "" < "a" < "ab"; under Reversed "" < "ab" < "a".
    let empty = |back: &str| format!("24 01 02 {back} 01");
    let a = |back: &str| format!("24 00 01 61 02 {back} 01");
    let ab = |back: &str| format!("24 00 02 6162 02 {back} 01");
    let one = |row: String| h(&format!("{row} 01"));
    for (ty, rising) in [
        ("UTF8Type", [a("05"), ab("07")]),
        ("ReversedType(UTF8Type)", [ab("05"), a("08")]),
    ] {
        let known = Known::zero(&[ty], &[], &[]);
        let both = merged(&known, &one(ab("0F")), &one(empty("0F")));
        let all = merged(&known, &both, &one(a("0F")));
        let wanted = format!("{} {} {} 01", empty("0F"), rising[0], rising[1]);
        assert_eq!(all, h(&wanted), "{ty}");
    }
}

#[test]
fn m08_what_is_least() {
    let known = Known::zero(&[], &[], &["BytesType"]);
    // Rising: no cell, empty, "a", "ab", "b", expiring "b", a tombstone.
    let rows = [
        "00 02 0F 01",
        "20 03 0F 04 05",
        "20 05 0F 00 05 01 61",
        "20 06 0F 00 05 02 6162",
        "20 05 0F 00 05 01 62",
        "20 07 0F 02 05 00 01 01 62",
        "20 04 0F 05 05 00",
    ];
    let parts = rows.map(|row| h(&format!("{row} 01")));
    // A row with nothing goes; all others stay as they are.
    let wanted: Vec<Vec<u8>> = parts.iter().map(|p| merged(&known, p, p)).collect();
    assert_eq!(wanted[0], h("01"));
    assert_eq!(wanted[1..], parts[1..]);
    for i in 0..parts.len() {
        for j in 0..parts.len() {
            assert_eq!(
                merged(&known, &parts[i], &parts[j]),
                wanted[i.max(j)],
                "{i} {j}"
            );
        }
    }
    // Absent liveness.
    let bare = h("20 01 0F 01");
    let lives = h(&format!("{} 01", live(1)));
    assert_eq!(merged(&n(), &bare, &lives), lives);
}

#[test]
fn m09_row_deletions_against_the_partitions() {
    let known = Known::zero(&[], &["Int32Type"], &[]);
    let row = |mark: u8, local: u8| format!("30 03 0F {mark:02X} {local:02X} 01");
    let fixed = |mark: u8, local: u8| format!("90 01 04 00 {mark:02X} {local:02X} 01 01");
    let partition = deleted(10, 5, "01");
    for items in [row(10, 6), fixed(10, 6)] {
        let wanted = deleted(10, 5, &items);
        assert_eq!(merged(&known, &partition, &h(&items)), wanted);
    }
    for items in [row(10, 5), row(9, 7), fixed(10, 5), fixed(9, 7)] {
        assert_eq!(merged(&known, &partition, &h(&items)), partition);
    }
}

#[test]
fn m10_deletions_over_cells_and_liveness() {
    let known = Known::zero(&[], &[], &["BytesType"]);
    let a = h("10 04 0F 0A 01 01 01");
    // A tombstone, an expiring cell and liveness of timestamp 10 go.
    for b in [
        "20 04 0F 05 0A 01 01",
        "20 05 0F 06 0A 01 01 01",
        "04 03 0F 0A 01 01",
    ] {
        assert_eq!(merged(&known, &a, &h(b)), a);
        assert_eq!(merged(&known, &h(b), &a), a);
    }
    // Of timestamp 11 they stay.
    let stays = h("30 06 0F 0A 01 05 0B 01 01");
    assert_eq!(merged(&known, &a, &h("20 04 0F 05 0B 01 01")), stays);
    // Under the partition's deletion alike.
    let partition = deleted(10, 5, "01");
    assert_eq!(
        merged(&known, &partition, &h("20 04 0F 05 0A 01 01")),
        partition
    );
}

#[test]
fn m11_a_partition_without_rows_stays() {
    assert_eq!(merged(&n(), &h("01"), &h("01")), h("01"));
    let gone = deleted(10, 5, "01");
    assert_eq!(merged(&n(), &gone, &h(&format!("{} 01", live(1)))), gone);
}

#[test]
fn m12_the_least_bases_handed_over() {
    let (known, one) = (n(), h("01"));
    let table = |timestamp, local, ttl| Table {
        bases: Bases {
            timestamp,
            local,
            ttl,
        },
        ..known.table(&one)
    };
    let (_, bases) = reference::merge(table(5, 5, 5), table(9, 4, 7), LIMIT).unwrap();
    assert_eq!((bases.timestamp, bases.local, bases.ttl), (5, 4, 5));
}

#[test]
fn m13_the_winners_value_is_a_part_of_its_slice() {
    let cell = |flags, timestamp, offset, length| Record {
        kind: 6,
        flags,
        timestamp,
        offset,
        length,
        ..Record::default()
    };
    let (a, b) = (vec![1, 2, 3], vec![9, 1, 2]);
    let winner = |x: Record, y: Record| reference::reconcile_items((&x, &a), (&y, &b)).unwrap();
    // A full tie: A's; else the greater bytes.
    let (side, value) = winner(cell(1, 5, 0, 2), cell(1, 5, 1, 2));
    assert_eq!((side, value.as_ptr()), (Side::A, a.as_ptr()));
    let (side, value) = winner(cell(1, 5, 0, 2), cell(1, 5, 0, 1));
    assert_eq!(
        (side, value.as_ptr(), value),
        (Side::B, b.as_ptr(), &[9][..])
    );
    // A tombstone, an empty value and a place outside show the empty part.
    assert_eq!(
        winner(cell(5, 5, 0, 0), cell(1, 5, 0, 1)),
        (Side::A, &[][..])
    );
    assert_eq!(
        winner(cell(9, 6, 0, 0), cell(1, 5, 0, 1)),
        (Side::A, &[][..])
    );
    assert_eq!(
        winner(cell(1, 6, 2, 2), cell(1, 5, 0, 1)),
        (Side::A, &[][..])
    );
    assert_eq!(winner(cell(1, 5, u64::MAX, 2), cell(1, 5, 0, 1)).0, Side::B);
}
