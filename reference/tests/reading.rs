//! Data's rules one by one.

mod common;

use common::{at, live, partition, printed, Known};
use reference::*;

/// Int32 clustering, one static Int32, two regular columns: Int32 and UTF8.
fn table() -> Known {
    Known::zero(&["Int32Type"], &["Int32Type"], &["Int32Type", "UTF8Type"])
}

/// No clustering and no columns.
fn bare() -> Known {
    Known::zero(&[], &[], &[])
}

fn refused(known: &Known, items: &[u8]) -> (u8, u64) {
    at("data", known.list(&partition(items)))
}

fn lines(known: &Known, items: &[u8]) -> Vec<String> {
    let all = printed(&known.list(&partition(items)).unwrap());
    all[1..all.len() - 1].to_vec()
}

#[test]
fn partition_headers() {
    let known = bare();
    let head = |local: u32, mark: i64| {
        let mut out = vec![0, 0];
        out.extend(local.to_be_bytes());
        out.extend(mark.to_be_bytes());
        out.push(1);
        known.list(&out)
    };
    assert_eq!(
        printed(&head(0x7FFF_FFFF, i64::MIN).unwrap())[0],
        "1 8 0 0 0 0 0 0 0 0 0 0"
    );
    assert_eq!(
        printed(&head(7, -9).unwrap())[0],
        "1 12 0 0 0 -9 7 0 0 0 0 0"
    );
    let most = printed(&head(2_147_483_646, i64::MAX).unwrap());
    assert_eq!(
        most[0],
        "1 12 0 0 0 9223372036854775807 2147483646 0 0 0 0 0"
    );
    assert!(head(0, i64::MIN + 1).is_ok());
    assert_eq!(at("data", head(0x7FFF_FFFF, i64::MIN + 1)), (5, 2));
    assert_eq!(at("data", head(0x7FFF_FFFE, i64::MIN)), (5, 6));
    assert_eq!(at("data", head(0x8000_0000, i64::MIN)), (5, 2));
    assert_eq!(at("data", head(0xFFFF_FFFF, 0)), (5, 2));
    // Cut behind the local time: the mark's field, unless the time is refused.
    assert_eq!(
        at("data", known.list(&[0, 0, 0x7F, 0xFF, 0xFF, 0xFF, 0x80])),
        (2, 6)
    );
    assert_eq!(at("data", known.list(&[0, 0, 0x80, 0, 0, 0, 0x80])), (5, 2));
    assert_eq!(at("data", known.list(&[0, 5, 1, 1])), (2, 0));
    // Two partitions, the second's fault at its own place.
    let mut two = partition(&[]);
    let second = two.len() as u64;
    two.extend(partition(&[]));
    assert_eq!(printed(&known.list(&two).unwrap()).len(), 4);
    two.pop();
    assert_eq!(at("data", known.list(&two)), (2, second + 15));
}

/// A row of the fields that its flags announce: timestamp 1, TTL 2, expiry 3,
/// deletion (4, 5) and a mask of 0.
fn row_of(flags: u8) -> Vec<u8> {
    let mut body = vec![0];
    if flags & 0x04 != 0 {
        body.push(1);
    }
    if flags & 0x08 != 0 {
        body.extend([2, 3]);
    }
    if flags & 0x10 != 0 {
        body.extend([4, 5]);
    }
    if flags & 0x20 == 0 {
        body.push(0);
    }
    let mut row = vec![flags];
    if flags & 0x80 != 0 {
        row.push(0);
    }
    row.push(body.len() as u8);
    row.extend(body);
    row
}

#[test]
fn row_flags() {
    let known = bare();
    for flags in (0..=255u8).filter(|flags| !matches!(flags, 0x01 | 0x02)) {
        let row = row_of(flags);
        let ttl_alone = flags & 0x0C == 0x08;
        if flags & 0x43 != 0 || ttl_alone {
            assert_eq!(refused(&known, &row), (4, 15), "flags {flags:02x}");
            continue;
        }
        let (timestamp, ttl, deletion) = (flags >> 2 & 1, flags >> 3 & 1, flags >> 4 & 1);
        let shown = timestamp | ttl << 1 | deletion << 2;
        let times = format!("{} {timestamp} {} {}", 2 * ttl, 4 * deletion, 5 * deletion);
        let wanted = format!("3 {shown} 0 {times} {} 0 0 15 {}", 3 * ttl, row.len());
        assert_eq!(lines(&known, &row), [wanted], "flags {flags:02x}");
    }
    // The end byte's other bits, with nothing behind it.
    assert_eq!(refused(&known, &[0x81, 0x00]), (4, 15));
}

#[test]
fn extended_bytes() {
    let known = table();
    for byte in 0..=255u8 {
        // A static row without cells, or a row without liveness or cells.
        let items: Vec<u8> = match byte {
            0x01 => vec![0x80, byte, 2, 0, 1],
            _ => vec![0x80, byte, 0, 0, 0, 0, 9, 2, 0, 3],
        };
        match byte {
            0x00 => assert_eq!(lines(&known, &items).len(), 2),
            0x01 => assert_eq!(lines(&known, &items), ["2 0 0 0 0 0 0 0 0 0 15 5"]),
            0x02 | 0x80 => assert_eq!(refused(&known, &items), (7, 16)),
            _ => assert_eq!(refused(&known, &items), (4, 16), "extended {byte:02x}"),
        }
    }
    // Cut before the extended byte.
    let mut cut = live();
    cut.push(0x80);
    assert_eq!(at("data", known.list(&cut)), (2, 16));
    // 4 for the flags comes before anything of the extended byte.
    assert_eq!(refused(&known, &[0xC0, 0x02]), (4, 15));
}

#[test]
fn static_rows_stand_first_and_only_where_there_are_columns() {
    let known = table();
    let fixed = [0xA4, 0x01, 7, 0, 5, 0x08, 0, 0, 0, 1];
    assert_eq!(
        lines(&known, &fixed),
        ["2 1 0 0 5 0 0 0 0 0 15 10", "6 1 0 0 5 0 0 0 0 0 21 4"]
    );
    let twice = [fixed, fixed].concat();
    assert_eq!(refused(&known, &twice), (6, 26));
    let row = [0x00, 0, 0, 0, 0, 9, 2, 0, 3];
    assert_eq!(refused(&known, &[&row[..], &fixed].concat()), (6, 25));
    assert!(known.list(&partition(&[&fixed[..], &row].concat())).is_ok());
    // Behind a marker, too.
    let start = [0x02, 1, 0, 0, 3, 0, 1, 1];
    assert_eq!(refused(&known, &[&start[..], &fixed].concat()), (6, 24));
    // No static columns.
    assert_eq!(refused(&bare(), &[0xA0, 0x01, 1, 0]), (6, 16));
}

#[test]
fn clustering_headers_and_values() {
    let known = Known::zero(&["Int32Type", "UTF8Type"], &[], &[]);
    let row = |header: u8, values: &[u8]| {
        let mut out = vec![0x20, header];
        out.extend(values);
        out.extend([1, 0]);
        out
    };
    let good = row(0, &[0, 0, 0, 5, 2, b'a', b'b']);
    assert_eq!(
        lines(&known, &good)[1..],
        [
            "5 0 0 0 0 0 0 0 0 0 17 4".to_string(),
            "5 0 1 0 0 0 0 0 0 0 22 2".into()
        ]
    );
    let empties = [
        "5 8 0 0 0 0 0 0 0 0 0 0".to_string(),
        "5 8 1 0 0 0 0 0 0 0 0 0".into(),
    ];
    assert_eq!(lines(&known, &row(5, &[]))[1..], empties);
    // A variable value of length 0 is empty as well.
    assert_eq!(lines(&known, &row(1, &[0]))[1..], empties);
    for header in [2, 3, 8, 12, 16, 32, 0x41] {
        assert_eq!(
            refused(&known, &row(header, &[0; 5])),
            (4, 16),
            "header {header}"
        );
    }
    // A long form of the header is read.
    assert!(known.list(&partition(&[0x20, 0x80, 0x05, 1, 0])).is_ok());
    // Values that pass the end: fixed at the value, variable at the length.
    let mut cut = live();
    cut.extend([0x20, 0, 0, 0]);
    assert_eq!(at("data", known.list(&cut)), (2, 17));
    cut.extend([0, 5, 3, b'a']);
    assert_eq!(at("data", known.list(&cut)), (2, 21));
    cut.truncate(21);
    assert_eq!(at("data", known.list(&cut)), (2, 21));
}

#[test]
fn thirty_two_clustering_columns() {
    let known = Known::zero(&["UTF8Type"; 32], &[], &[]);
    let row = |header: u64| {
        let mut out = vec![0x20, 0xFF];
        out.extend(header.to_be_bytes());
        out.extend([1, 0]);
        partition(&out)
    };
    let all_empty = 0x5555_5555_5555_5555;
    assert_eq!(known.list(&row(all_empty)).unwrap().len(), 35);
    assert_eq!(at("data", known.list(&row(all_empty | 1 << 63))), (4, 16));
}

#[test]
fn body_sizes() {
    let known = bare();
    // Size 0 leaves no output for the previous size.
    assert_eq!(refused(&known, &[0x20, 0]), (2, 17));
    // Past the end of Data: at the size, whatever the body holds.
    assert_eq!(refused(&known, &[0x20, 3, 0]), (2, 16));
    assert_eq!(
        refused(
            &known,
            &[0x20, 0xFF, 0xFF, 0xFF, 0xFF, 0xFF, 0xFF, 0xFF, 0xFF, 0xFF, 0]
        ),
        (2, 16)
    );
    assert_eq!(refused(&known, &[0x20, 2, 0, 0]), (3, 18));
    // A varint that the body's end cuts: at that varint.
    assert_eq!(refused(&known, &[0x24, 2, 0, 0x80, 0x05]), (2, 18));
    // The previous size is read, and not checked.
    assert!(known
        .list(&partition(&[0x20, 9, 0xFF, 1, 2, 3, 4, 5, 6, 7, 8]))
        .is_ok());
}

#[test]
fn masks() {
    let known = table();
    let row = |mask: u8, cells: &[u8]| {
        let mut out = vec![0x04, 1, 3 + cells.len() as u8, 0, 5, mask];
        out.extend(cells);
        out
    };
    assert_eq!(lines(&known, &row(3, &[])).len(), 2);
    assert_eq!(
        lines(&known, &row(1, &[0x0C]))[2],
        "6 9 1 0 5 0 0 0 0 0 0 0"
    );
    assert_eq!(lines(&known, &row(0, &[0x0C, 0x0C])).len(), 4);
    for mask in [4, 5, 0x40] {
        assert_eq!(refused(&known, &row(mask, &[0x0C, 0x0C])), (4, 20));
    }
    // No columns: only a mask of 0.
    assert!(bare().list(&partition(&[0x00, 2, 0, 0])).is_ok());
    assert_eq!(refused(&bare(), &[0x00, 2, 0, 1]), (4, 18));
    // 63 columns: the highest bit is above them.
    let wide = Known::zero(&[], &[], &["UTF8Type"; 63]);
    let row = |mask: u64| {
        let mut out = vec![0x00, 10, 0, 0xFF];
        out.extend(mask.to_be_bytes());
        partition(&out)
    };
    assert!(wide.list(&row(u64::MAX >> 1)).is_ok());
    assert_eq!(at("data", wide.list(&row(u64::MAX))), (4, 18));
}

/// The fields that cell flags announce: timestamp 11, local time 12, TTL 13 and
/// the value AA.
fn cell_of(flags: u8) -> Vec<u8> {
    let has = |bit: u8| flags & bit != 0;
    let mut cell = vec![flags];
    if !has(8) {
        cell.push(11);
    }
    if (has(1) || has(2)) && !has(0x10) {
        cell.push(12);
    }
    if has(2) && !has(0x10) {
        cell.push(13);
    }
    if !has(4) {
        cell.extend([1, 0xAA]);
    }
    cell
}

/// How such a cell lists, in a row of timestamp 1, TTL 2 and expiry 3.
fn cell_line(flags: u8, value_at: usize) -> String {
    let has = |bit: u8| flags & bit != 0;
    let timestamp = if has(8) { 1 } else { 11 };
    let (expiry, ttl) = match (has(2), has(0x10)) {
        (false, _) => (0, 0),
        (true, true) => (3, 2),
        (true, false) => (12, 13),
    };
    let local = if has(1) { 12 } else { 0 };
    let empty = has(4) && !has(1);
    let shown = 1 | u8::from(has(2)) << 1 | u8::from(has(1)) << 2 | u8::from(empty) << 3;
    let place = if has(4) {
        "0 0".to_string()
    } else {
        format!("{value_at} 1")
    };
    format!("6 {shown} 0 {ttl} {timestamp} 0 {local} {expiry} 0 0 {place}")
}

#[test]
fn cell_flags() {
    // One BytesType column; rows with nothing, with a timestamp, with a TTL.
    let known = Known::zero(&[], &[], &["BytesType"]);
    for (row_flags, live) in [(0x20u8, &[][..]), (0x24, &[1][..]), (0x2C, &[1, 2, 3][..])] {
        let (has_ts, has_ttl) = (row_flags & 4 != 0, row_flags & 8 != 0);
        for flags in 0..=255u8 {
            let has = |bit: u8| flags & bit != 0;
            let bad = flags > 0x1F
                || (has(1) && has(2))
                || (has(1) && !has(4))
                || (has(8) && !has_ts)
                || (has(0x10) && (!has_ttl || !has(2)));
            let cell = cell_of(flags);
            let mut items = vec![row_flags, (1 + live.len() + cell.len()) as u8, 0];
            items.extend(live);
            let cell_at = 15 + items.len() as u64;
            items.extend(&cell);
            let named = format!("row {row_flags:02x} cell {flags:02x}");
            if bad {
                assert_eq!(refused(&known, &items), (4, cell_at), "{named}");
            } else {
                let wanted = cell_line(flags, 14 + items.len());
                assert_eq!(lines(&known, &items)[1], wanted, "{named}");
            }
        }
    }
}

#[test]
fn values_in_bodies() {
    let known = Known::zero(&[], &[], &["BytesType"]);
    // A length of 0 is an empty value.
    assert_eq!(
        lines(&known, &[0x20, 4, 0, 0x00, 9, 0])[1],
        "6 9 0 0 9 0 0 0 0 0 0 0"
    );
    // A value past the body's end: at its length.
    assert_eq!(refused(&known, &[0x20, 5, 0, 0x00, 9, 2, 7, 7]), (2, 20));
    assert_eq!(refused(&known, &[0x20, 6, 0, 0x00, 9, 1, 7, 7]), (3, 22));
}

#[test]
fn sums_in_range() {
    let max = u64::MAX;
    // Base timestamp -2^63: delta 0 is below the range, 2^64-1 is the top.
    let least = (1u64 << 63) - 1_442_880_000_000_000;
    let known = Known::with_bases([least, 0, 0], &[], &[], &[]);
    let row = |delta: u64| {
        let mut out = vec![0x24, 10, 0, 0xFF];
        out.extend(delta.to_be_bytes());
        out
    };
    assert_eq!(refused(&known, &row(0)), (5, 18));
    assert_eq!(
        lines(&known, &row(1)),
        ["3 1 0 0 -9223372036854775807 0 0 0 0 0 15 12"]
    );
    assert_eq!(
        lines(&known, &row(max)),
        ["3 1 0 0 9223372036854775807 0 0 0 0 0 15 12"]
    );
    // Base 0: "exactly", with no turning over.
    let known = bare();
    assert_eq!(
        lines(&known, &row(max >> 1)),
        ["3 1 0 0 9223372036854775807 0 0 0 0 0 15 12"]
    );
    assert_eq!(refused(&known, &row((max >> 1) + 1)), (5, 18));
    assert_eq!(refused(&known, &row(max)), (5, 18));
}

#[test]
fn times_in_range() {
    // TTL and local deletion time of a row's liveness.
    let row = |ttl: u32, local: u32| {
        let mut out = vec![0x2C, 12, 0, 1];
        for number in [ttl, local] {
            out.push(0xF0);
            out.extend(number.to_be_bytes());
        }
        out
    };
    let known = bare();
    assert_eq!(refused(&known, &row(0, 0)), (5, 19));
    assert_eq!(lines(&known, &row(1, 0)), ["3 3 0 1 1 0 0 0 0 0 15 14"]);
    assert_eq!(
        lines(&known, &row(2_147_483_647, 2_147_483_646)),
        ["3 3 0 2147483647 1 0 0 2147483646 0 0 15 14"]
    );
    assert_eq!(refused(&known, &row(2_147_483_648, 0)), (5, 19));
    assert_eq!(refused(&known, &row(1, 2_147_483_647)), (5, 24));
    assert_eq!(refused(&known, &row(u32::MAX, u32::MAX)), (5, 19));
    let high = Known::with_bases(
        [0, 2_147_483_647 - 1_442_880_000, 2_147_483_647],
        &[],
        &[],
        &[],
    );
    assert_eq!(refused(&high, &row(0, 0)), (5, 24));
    assert_eq!(refused(&high, &row(1, 0)), (5, 19));
}

const START: [u8; 13] = [0x02, 1, 0, 1, 0, 0, 0, 0, 7, 3, 0, 4, 5];
const END: [u8; 8] = [0x02, 6, 0, 0, 3, 0, 4, 5];

#[test]
fn markers_as_listed() {
    let known = table();
    let wanted = [
        "4 4 1 0 0 4 5 0 0 0 15 13",
        "5 0 0 0 0 0 0 0 0 0 20 4",
        "4 4 6 0 0 4 5 0 0 0 28 8",
    ];
    assert_eq!(lines(&known, &[&START[..], &END].concat()), wanted);
    let boundary = [0x02, 2, 0, 0, 5, 0, 4, 5, 6, 7];
    let last = [0x02, 0, 0, 0, 3, 0, 6, 7];
    let shown = lines(&known, &[&START[..], &boundary, &last].concat());
    assert_eq!(shown[2], "4 4 2 0 0 4 5 0 6 7 28 10");
    assert_eq!(shown[3], "4 4 0 0 0 6 7 0 0 0 38 8");
    // A row between start and end is read as any other.
    let row = [0x00, 0, 0, 0, 0, 9, 2, 0, 3];
    let between = partition(&[&START[..], &row, &END].concat());
    assert!(known.list(&between).is_ok());
    // The next partition starts closed.
    let one = partition(&[&START[..], &END].concat());
    assert!(known.list(&[one.clone(), one].concat()).is_ok());
}

/// Kinds that are none, then out of turn, then the count.
#[test]
fn kinds_of_markers() {
    let known = table();
    for kind in 0..=255u8 {
        let items = [0x02, kind, 0xFF, 0xFF];
        let (alone, behind) = match kind {
            1 | 7 => ((5, 17), (6, 29)),
            0 | 2 | 5 | 6 => ((6, 16), (5, 30)),
            _ => ((4, 16), (4, 29)),
        };
        assert_eq!(refused(&known, &items), alone, "kind {kind}");
        let items = [&START[..], &items].concat();
        assert_eq!(refused(&known, &items), behind, "kind {kind}");
    }
}

#[test]
fn faults_of_markers() {
    let known = table();
    // An unlike deletion: at its first byte; in a boundary before the start's.
    let unlike = [0x02, 6, 0, 0, 3, 0, 4, 6];
    assert_eq!(refused(&known, &[&START[..], &unlike].concat()), (6, 34));
    let unlike = [0x02, 5, 0, 0, 4, 0, 3, 5, 0x80];
    assert_eq!(refused(&known, &[&START[..], &unlike].concat()), (6, 34));
    // The partition ends open: at the end byte.
    assert_eq!(refused(&known, &START), (6, 28));
    // Bits above the prefix, null bits, and left-over bytes.
    assert_eq!(refused(&known, &[0x02, 1, 0, 1, 4, 3, 0, 4, 5]), (4, 19));
    assert_eq!(refused(&known, &[0x02, 1, 0, 1, 2, 3, 0, 4, 5]), (4, 19));
    assert_eq!(refused(&known, &[0x02, 1, 0, 0, 4, 0, 4, 5, 9]), (3, 23));
    assert_eq!(refused(&known, &[0x02, 1, 0, 0, 2, 0, 4, 5]), (2, 22));
}

#[test]
fn calls_test_the_limit_bases_and_schema_in_turn() {
    let known = bare();
    let bad_bases = Bases {
        timestamp: 0,
        local: -1,
        ttl: 0,
    };
    assert_eq!(at("bases", list_data(&[], bad_bases, &[])), (5, 0));
    let bad_bases = Bases {
        timestamp: 0,
        local: 0,
        ttl: -1,
    };
    assert_eq!(at("bases", list_data(&[], bad_bases, &[])), (5, 0));
    assert_eq!(
        at("schema", list_data(&[], known.stats.bases, &[9])),
        (10, 0)
    );
    let over = vec![0u8; LIMIT + 1];
    assert_eq!(at("data", list_data(&[], bad_bases, &over)), (1, 0));
    assert_eq!(at("statistics", read_statistics(&over)), (1, 0));
    assert_eq!(at("scylla", read_scylla(&over)), (1, 0));
    assert_eq!(
        at("bytes", write_data(&[], bad_bases, &[], &over, 0)),
        (1, 0)
    );
    assert_eq!(
        at("output", write_data(&[], bad_bases, &[], &[], LIMIT + 1)),
        (1, 0)
    );
    assert_eq!(
        at(
            "data",
            list_data(&known.stats.schema, known.stats.bases, &over[..LIMIT])
        ),
        (2, 16)
    );
}

#[test]
fn steps_hand_out_each_item() {
    let known = table();
    let schema = known.schema();
    let data = partition(&[0xA4, 0x01, 7, 0, 5, 0x08, 0, 0, 0, 1]);
    let source = data::Source {
        schema: &schema,
        bases: known.stats.bases,
        data: &data,
    };
    let mut state = State::start();
    let mut kinds = Vec::new();
    while let Step::Next(item, next) = state.step(&source).unwrap() {
        kinds.push(item.record.kind);
        if item.record.shows_value() {
            assert_eq!(item.record.part_of(&data), Some(item.value));
        }
        state = next;
    }
    assert_eq!(kinds, [1, 2, 6, 7]);
    assert_eq!(state.position, data.len());
}
