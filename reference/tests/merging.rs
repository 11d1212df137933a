//! The merge: ties, deletions, refusals in order, and its definition.

mod common;
#[path = "common/naive.rs"]
mod naive;

use common::{at, live, partition, Known};
use reference::gen::{self, Width};
use reference::rng::Rng;
use reference::*;

fn merged(known: &Known, a: &[u8], b: &[u8]) -> Vec<u8> {
    merge(known.table(a), known.table(b), LIMIT).unwrap().0
}

fn refused(known: &Known, a: &[u8], b: &[u8]) -> (u8, String, u64) {
    common::told(merge(known.table(a), known.table(b), LIMIT))
}

fn one_column() -> Known {
    Known::zero(&["Int32Type"], &["Int32Type"], &["Int32Type"])
}

/// A row of clustering 9 with a cell of timestamp `timestamp`.
fn cell_row(timestamp: u8, value: [u8; 4]) -> Vec<u8> {
    let mut out = vec![0x20, 0, 0, 0, 0, 9, 7, 15, 0x00, timestamp];
    out.extend(value);
    out
}

/// A partition with a deletion of this mark, and items.
fn deleted(mark: i64, items: &[u8]) -> Vec<u8> {
    let mut out = vec![0, 1, b'k', 0, 0, 0, 1];
    out.extend(mark.to_be_bytes());
    out.extend(items);
    out.push(1);
    out
}

/// "Comparing Int32 values as signed on a tie: FF FF FF FF beats 00 00 00 01."
#[test]
fn a_tie_of_values_compares_unsigned_bytes() {
    let known = one_column();
    let high = partition(&cell_row(5, [0xFF; 4]));
    let low = partition(&cell_row(5, [0, 0, 0, 1]));
    assert_eq!(merged(&known, &high, &low), high);
    assert_eq!(merged(&known, &low, &high), high);
}

/// "(10 under mark 10 goes, 11 stays)"
#[test]
fn a_cell_just_above_a_deletion_stays() {
    let known = one_column();
    let empty = deleted(10, &[]);
    assert_eq!(
        merged(&known, &empty, &partition(&cell_row(10, [7; 4]))),
        empty
    );
    let kept = deleted(10, &cell_row(11, [7; 4]));
    assert_eq!(
        merged(&known, &empty, &partition(&cell_row(11, [7; 4]))),
        kept
    );
    // The same under a row's deletion.
    let row_deletion = |mark: u8| partition(&[0x10, 0, 0, 0, 0, 9, 4, 15, mark, 1, 1]);
    assert_eq!(
        merged(&known, &row_deletion(10), &partition(&cell_row(10, [7; 4]))),
        row_deletion(10)
    );
    let both = partition(&[0x30, 0, 0, 0, 0, 9, 9, 15, 10, 1, 0x00, 11, 7, 7, 7, 7]);
    assert_eq!(
        merged(&known, &row_deletion(10), &partition(&cell_row(11, [7; 4]))),
        both
    );
}

fn value(timestamp: i64, bytes: &[u8], expiry: Option<(u32, u32)>) -> Cell<'_> {
    let expiry = expiry.map(|(local, ttl)| Expiry { local, ttl });
    Cell {
        timestamp,
        content: Content::Value { bytes, expiry },
    }
}

fn tombstone<'a>(timestamp: i64, local: u32) -> Cell<'a> {
    Cell {
        timestamp,
        content: Content::Tombstone { local },
    }
}

/// "Cells: greater timestamp; then a tombstone over a value; two tombstones by
/// later local time; two values by greater unsigned bytes, then expiring over
/// not, later expiry, greater TTL."
#[test]
fn the_order_of_cells() {
    let rising = [
        value(1, b"zz", Some((9, 9))),
        tombstone(1, 100),
        value(2, b"", None),
        value(2, b"", Some((1, 1))),
        value(2, b"a", None),
        value(2, b"a", Some((5, 9))),
        value(2, b"a", Some((6, 1))),
        value(2, b"a", Some((6, 2))),
        value(2, b"aa", None),
        value(2, b"b", None),
        value(2, &[0x7F, 0xFF], None),
        value(2, &[0xFF], None),
        tombstone(2, 1),
        tombstone(2, 2),
        value(3, b"", None),
    ];
    for (i, a) in rising.iter().enumerate() {
        for (j, b) in rising.iter().enumerate() {
            assert_eq!(reconcile_cells(*a, *b), rising[i.max(j)], "{i} {j}");
        }
    }
    // "handed back as part of whichever of the two slices holds it, the first
    // on a full tie"
    let (first, second) = (vec![1, 2, 3], vec![1, 2, 3]);
    let winner = reconcile_cells(value(1, &first, None), value(1, &second, None));
    let Content::Value { bytes, .. } = winner.content else {
        panic!()
    };
    assert_eq!(bytes.as_ptr(), first.as_ptr());
    let winner = reconcile_cells(value(1, &first, None), value(2, &second, None));
    let Content::Value { bytes, .. } = winner.content else {
        panic!()
    };
    assert_eq!(bytes.as_ptr(), second.as_ptr());
}

#[test]
fn the_order_of_liveness_and_deletions() {
    let known = Known::zero(&[], &[], &[]);
    let plain = |timestamp: u8| partition(&[0x24, 2, 15, timestamp]);
    let expiring =
        |timestamp: u8, ttl: u8, local: u8| partition(&[0x2C, 4, 15, timestamp, ttl, local]);
    let rising = [
        plain(1),
        expiring(1, 9, 1),
        expiring(1, 1, 2),
        expiring(1, 2, 2),
        plain(2),
        expiring(2, 1, 0),
    ];
    for (i, a) in rising.iter().enumerate() {
        for (j, b) in rising.iter().enumerate() {
            assert_eq!(merged(&known, a, b), rising[i.max(j)], "{i} {j}");
        }
    }
    let deletion = |mark: u8, local: u8| partition(&[0x30, 3, 15, mark, local]);
    let rising = [
        partition(&[]),
        deletion(1, 9),
        deletion(2, 1),
        deletion(2, 2),
    ];
    for (i, a) in rising.iter().enumerate() {
        for (j, b) in rising.iter().enumerate() {
            assert_eq!(merged(&known, a, b), rising[i.max(j)], "{i} {j}");
        }
    }
    // "row deletions not above the partition's in that order go"
    assert_eq!(
        merged(&known, &deleted(2, &[]), &deletion(2, 1)),
        deleted(2, &[])
    );
    assert_eq!(
        merged(&known, &deleted(2, &[]), &deletion(1, 9)),
        deleted(2, &[])
    );
    assert_eq!(
        merged(&known, &deleted(2, &[]), &deletion(2, 2)),
        deleted(2, &[0x30, 3, 15, 2, 2])
    );
}

#[test]
fn rows_left_with_nothing_go() {
    let known = one_column();
    let bare_row = [0x00, 0, 0, 0, 0, 9, 2, 15, 1];
    let bare_static = [0x80, 0x01, 2, 0, 1];
    let nothing = partition(&[]);
    assert_eq!(merged(&known, &partition(&bare_row), &nothing), nothing);
    assert_eq!(merged(&known, &nothing, &partition(&bare_static)), nothing);
    let fixed = [0xA0, 0x01, 7, 0, 0x00, 5, 0, 0, 0, 1];
    assert_eq!(
        merged(&known, &nothing, &partition(&fixed)),
        partition(&fixed)
    );
    assert_eq!(
        merged(&known, &deleted(5, &[]), &partition(&fixed)),
        deleted(5, &[])
    );
}

/// A partition of one row with liveness and this one clustering value.
fn clustered(value: &[u8], fixed: bool) -> Vec<u8> {
    let mut out = vec![0x24];
    match (value.is_empty(), fixed) {
        (true, _) => out.push(1),
        (false, true) => out.push(0),
        (false, false) => out.extend([0, value.len() as u8]),
    }
    out.extend(value);
    out.extend([2, 15, 1]);
    partition(&out)
}

/// Merges every two of `rising` and looks at the order of what comes out.
fn check_order(ty: &str, rising: &[&[u8]]) {
    let known = Known::zero(&[ty], &[], &[]);
    let fixed = known.schema().clustering()[0].fixed().is_some();
    let data: Vec<Vec<u8>> = rising.iter().map(|v| clustered(v, fixed)).collect();
    for i in 0..data.len() {
        for j in 0..data.len() {
            let bytes = merged(&known, &data[i], &data[j]);
            let listed = common::placeless(&known.list(&bytes).unwrap(), &bytes);
            let values = listed.into_iter().filter(|(r, _)| r.kind == 5);
            let values: Vec<Vec<u8>> = values.map(|(_, v)| v).collect();
            let mut wanted = vec![rising[i.min(j)].to_vec(), rising[i.max(j)].to_vec()];
            wanted.dedup();
            assert_eq!(values, wanted, "{ty} {i} {j}");
        }
    }
}

#[test]
fn the_order_of_clusterings() {
    let ints: [&[u8]; 5] = [
        &[0x80, 0, 0, 0],
        &[0xFF; 4],
        &[0; 4],
        &[0, 0, 0, 1],
        &[0x7F; 4],
    ];
    let longs: [&[u8]; 4] = [&[0x80; 8], &[0xFF; 8], &[0; 8], &[0x7F; 8]];
    let bytes: [&[u8]; 5] = [&[0], &[1], &[2], &[0x80], &[0xFF]];
    let texts: [&[u8]; 7] = [b"\x00", b"a", b"a\x00", b"aa", b"b", &[0x80], &[0xFF]];
    let types: [(&str, &[&[u8]]); 8] = [
        ("Int32Type", &ints),
        ("LongType", &longs),
        ("TimestampType", &longs),
        ("BooleanType", &bytes),
        ("AsciiType", &texts),
        ("UTF8Type", &texts),
        ("BytesType", &texts),
        ("", &texts),
    ];
    for (ty, rising) in types {
        let empty: &[u8] = &[];
        let mut all = vec![empty];
        all.extend(rising);
        check_order(ty, &all);
        // "Reversed turned round; empty before all in both"
        all[1..].reverse();
        check_order(&format!("ReversedType({ty})"), &all);
    }
}

#[test]
fn refusals_in_order() {
    let known = one_column();
    let good = partition(&[]);
    // 2 at 0 for no partition, 3 at a second; A before B.
    assert_eq!(refused(&known, &[], &[]), (2, "dataA".into(), 0));
    assert_eq!(refused(&known, &good, &[]), (2, "dataB".into(), 0));
    let two = [good.clone(), good.clone()].concat();
    assert_eq!(refused(&known, &two, &[]), (3, "dataA".into(), 16));
    assert_eq!(refused(&known, &good, &two), (3, "dataB".into(), 16));
    let mut other = live();
    other[2] = b'z';
    let start = [0x02, 1, 0, 0, 3, 0, 1, 1];
    let end = [0x02, 6, 0, 0, 3, 0, 1, 1];
    let row = cell_row(5, [0; 4]);
    let markers = partition(&[&start[..], &end].concat());
    let unrisen = partition(&[&row[..], &row].concat());
    // 11 for keys before 12 and 9.
    let other_key = [other, vec![1]].concat();
    assert_eq!(
        refused(&known, &markers, &other_key),
        (11, "dataA".into(), 0)
    );
    // 12 of either side before 9 of either.
    assert_eq!(
        refused(&known, &unrisen, &markers),
        (12, "dataB".into(), 15)
    );
    assert_eq!(
        refused(&known, &markers, &unrisen),
        (12, "dataA".into(), 15)
    );
    assert_eq!(refused(&known, &unrisen, &unrisen), (9, "dataA".into(), 29));
    assert_eq!(refused(&known, &good, &unrisen), (9, "dataB".into(), 29));
    // A's reading before B's.
    let open = partition(&start);
    assert_eq!(refused(&known, &open, &[]), (6, "dataA".into(), 23));
    // 13 last.
    let answer = merge(known.table(&good), known.table(&unrisen), 0);
    assert_eq!(common::told(answer), (9, "dataB".into(), 29));
    let answer = merge(known.table(&good), known.table(&good), 15);
    assert_eq!(common::told(answer), (13, "output".into(), 16));
    assert!(merge(known.table(&good), known.table(&good), 16).is_ok());
}

#[test]
fn bases_are_the_least_of_each_kind() {
    let zero = common::zero_bases();
    let raised = |t: u64, l: u64, ttl: u64| {
        Known::with_bases([zero[0].wrapping_add(t), zero[1] + l, ttl], &[], &[], &[])
    };
    let (a, b) = (raised(5, 1, 3), raised(2, 4, 6));
    let data_a = partition(&[0x2C, 4, 15, 1, 1, 1]);
    let data_b = partition(&[0x2C, 4, 15, 1, 1, 1]);
    let (out, bases) = merge(a.table(&data_a), b.table(&data_b), LIMIT).unwrap();
    assert_eq!(
        bases,
        Bases {
            timestamp: 2,
            local: 1,
            ttl: 3
        }
    );
    // A's row wins with timestamp 6: deltas 4, TTL 4 - 3, local 2 - 1.
    assert_eq!(out, partition(&[0x2C, 4, 15, 4, 1, 1]));
}

/// Random partitions under one schema, with bases of their own.
fn random_set(rng: &mut Rng, count: usize) -> (Vec<Known>, Vec<Vec<u8>>) {
    let width = Width {
        clustering: 3,
        statics: 3,
        regulars: 4,
        unordered: false,
    };
    let text = gen::random_text(rng, width);
    let mut tables = Vec::new();
    let mut data = Vec::new();
    for _ in 0..count {
        let mut own = text.clone();
        own.bases = gen::random_bases(rng);
        let known = Known::new(&own);
        let rows = rng.index(7);
        data.push(gen::random_partition(
            &known.schema(),
            known.stats.bases,
            rng,
            b"key",
            rows,
        ));
        tables.push(known);
    }
    (tables, data)
}

#[test]
fn the_merge_is_its_definition() {
    let mut rng = Rng::new(11);
    for round in 0..6000 {
        let (tables, data) = random_set(&mut rng, 2);
        let (a, b) = (tables[0].table(&data[0]), tables[1].table(&data[1]));
        let (out, bases) = merge(a, b, LIMIT).unwrap();
        assert_eq!(out, defined(&tables, &data, bases), "round {round}");
        // The needed length is told exactly.
        let short = merge(a, b, out.len() - 1);
        assert_eq!(at("output", short), (13, out.len() as u64));
        let listed = list_data(&tables[0].stats.schema, bases, &out).unwrap();
        assert_eq!(listed.last().unwrap()[0], 7);
    }
}

/// A table with bases of its own, and its partition.
type Member<'a> = (&'a Known, Bases, &'a [u8]);

fn join(a: Member, b: Member) -> (Vec<u8>, Bases) {
    let side_a = Table {
        bases: a.1,
        ..a.0.table(a.2)
    };
    let side_b = Table {
        bases: b.1,
        ..b.0.table(b.2)
    };
    merge(side_a, side_b, LIMIT).unwrap()
}

/// What document 01's definition gives for all of them at once.
fn defined(tables: &[Known], data: &[Vec<u8>], bases: Bases) -> Vec<u8> {
    let parts: Vec<_> = tables
        .iter()
        .zip(data)
        .map(|(known, data)| naive::parse(&known.list(data).unwrap(), data))
        .collect();
    let (records, lent) = naive::records(&naive::reconcile(&tables[0].schema(), &parts));
    write_data(&tables[0].stats.schema, bases, &records, &lent, LIMIT).unwrap()
}

#[test]
fn orders_and_groupings_agree() {
    let mut rng = Rng::new(12);
    for round in 0..4000 {
        let (tables, data) = random_set(&mut rng, 3);
        let one = |i: usize| (&tables[i], tables[i].stats.bases, data[i].as_slice());
        let mut results = Vec::new();
        for i in 0..3 {
            for (j, k) in [((i + 1) % 3, (i + 2) % 3), ((i + 2) % 3, (i + 1) % 3)] {
                let (left, bases) = join(one(i), one(j));
                results.push(join((&tables[i], bases, &left), one(k)));
                let (right, bases) = join(one(j), one(k));
                results.push(join(one(i), (&tables[k], bases, &right)));
            }
        }
        assert!(results.windows(2).all(|w| w[0] == w[1]), "round {round}");
        let (result, bases) = &results[0];
        assert_eq!(*result, defined(&tables, &data, *bases), "round {round}");
        // Merging again with a member adds nothing.
        assert_eq!(join((&tables[0], *bases, result), one(1)).0, *result);
    }
}
