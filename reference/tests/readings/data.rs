//! D: Data.

use super::*;

/// A start of (5, 6) with no prefix: 15 to 22.
const START: &str = "02 01 0000 03 00 05 06";
/// Its end.
const END: &str = "02 06 0000 03 00 05 06";

#[test]
fn d01_a_partitions_deletion() {
    let told = |head: &str| no(n().list(&hex(head)));
    assert_eq!(told("00016B FFFFFFFF"), "5 data 3");
    assert_eq!(told("00016B 80000000 00"), "5 data 3");
    assert_eq!(told("00016B 7FFFFFFF 80"), "2 data 7");
    assert_eq!(told("00016B 7FFFFFFF 8000000000000001 01"), "5 data 3");
    assert_eq!(told("00016B 7FFFFFFE 8000000000000000 01"), "5 data 7");
}

#[test]
fn d02_behind_an_end_byte_the_next_partition_begins() {
    assert_eq!(refused(&n(), "01 00"), "2 data 16");
    // Keys may repeat, fall, be empty and be of any length.
    let int_key = gen::Text {
        bases: common::zero_bases(),
        key: "Int32Type".into(),
        ..gen::Text::default()
    };
    let known = Known::new(&int_key);
    let empty = hex("0000 7FFFFFFF 8000000000000000 01");
    let all = [h("01"), h("01"), empty].concat();
    let shown = common::printed(&known.list(&all).unwrap());
    assert_eq!(shown.len(), 6);
    assert_eq!(shown[4], "1 8 0 0 0 0 0 0 0 0 0 0");
}

#[test]
fn d03_bad_flags_before_the_extended_byte() {
    assert_eq!(refused(&n(), "C0 02"), "4 data 15");
    assert_eq!(refused(&n(), "81"), "4 data 15");
    assert_eq!(refused(&n(), "80"), "2 data 16");
}

#[test]
fn d04_the_extended_byte_counts_by_value() {
    let told = |byte: u8| refused(&c(), &format!("80 {byte:02X} 00 00000000 02 00 01"));
    for byte in 2..=255 {
        let number = if matches!(byte, 0x02 | 0x80) { 7 } else { 4 };
        assert_eq!(told(byte), format!("{number} data 16"));
    }
    assert_eq!(told(0), "2 data 25");
}

#[test]
fn d05_static_rows() {
    assert_eq!(refused(&n(), "A0 01 01 00 01"), "6 data 16");
    assert_eq!(refused(&c(), "80 01 02 00 01 80 01"), "6 data 21");
    // Liveness and deletion, and no clustering.
    let shown = listed(&c(), "94 01 05 00 05 01 02 01 01");
    assert_eq!(shown[1], "2 5 0 0 5 1 2 0 0 0 15 8");
}

#[test]
fn d06_clustering_header_bits() {
    let two = Known::zero(&["Int32Type", "Int32Type"], &[], &[]);
    assert_eq!(refused(&two, "02 01 0001 04"), "4 data 19");
    assert_eq!(refused(&two, "02 01 0001 08"), "4 data 19");
    assert_eq!(refused(&two, "02 01 0001 02"), "4 data 19");
    for header in ["02", "08", "10", "20"] {
        assert_eq!(refused(&two, &format!("20 {header}")), "4 data 16");
    }
    // With count 0 there is no header.
    assert_eq!(refused(&two, &format!("{START} 01")), "6 data 23");
    assert_eq!(listed(&two, &format!("{START} {END} 01")).len(), 4);
}

#[test]
fn d07_kinds_and_counts_of_markers() {
    assert_eq!(refused(&n(), "02 06 FFFF"), "6 data 16");
    assert_eq!(refused(&n(), "02 03 FFFF"), "4 data 16");
    assert_eq!(refused(&n(), "02 01 FFFF"), "5 data 17");
    assert_eq!(refused(&n(), &format!("{START} 02 07")), "6 data 24");
    // Every kind with a count of 0, without clustering columns.
    for (start, end) in [("01", "00"), ("01", "06"), ("07", "00"), ("07", "06")] {
        let items = format!("02 {start} 0000 03 00 05 06 02 {end} 0000 03 00 05 06 01");
        assert_eq!(listed(&n(), &items).len(), 4);
    }
}

#[test]
fn d08_an_unlike_deletion() {
    let told = |deletion: &str| {
        let len = 1 + hex(deletion).len();
        refused(&n(), &format!("{START} 02 06 0000 {len:02X} 00 {deletion}"))
    };
    assert_eq!(told("05 07"), "6 data 29");
    assert_eq!(told("04 06"), "6 data 29");
    assert_eq!(told("07"), "2 data 30");
    assert_eq!(told("07 F07FFFFFFF"), "5 data 30");
}

#[test]
fn d09_boundaries() {
    // Unlike, with a start that is cut; then like, with the same start.
    let cut = format!("{START} 02 02 0000 03 00 04 06");
    assert_eq!(refused(&n(), &cut), "6 data 29");
    let cut = format!("{START} 02 02 0000 03 00 05 06");
    assert_eq!(refused(&n(), &cut), "2 data 31");
    let same = format!("{START} 02 05 0000 05 00 05 06 05 06 {END} 01");
    assert_eq!(listed(&n(), &same)[2], "4 4 5 0 0 5 6 0 5 6 23 10");
}

#[test]
fn d10_what_is_not_checked() {
    // Falling and equal rows; a prefix that ends before it starts.
    let one = Known::zero(&["Int32Type"], &[], &[]);
    let rows = "20 00 00000002 01 00 20 00 00000001 01 00 20 00 00000001 01 00 01";
    assert_eq!(listed(&one, rows).len(), 8);
    let ranges = "02 01 0001 00 00000002 03 00 05 06 02 06 0001 00 00000001 03 00 05 06 01";
    assert_eq!(listed(&one, ranges).len(), 6);
}

#[test]
fn d11_body_size_and_previous_size() {
    // The size passes Data's end, with a bad mask in the body.
    assert_eq!(refused(&n(), "00 09 00 01 01"), "2 data 16");
    assert_eq!(refused(&n(), "20 00 01"), "2 data 17");
    assert_eq!(refused(&n(), "20 01 80 01"), "2 data 17");
    assert_eq!(listed(&n(), "20 09 FF FFFFFFFFFFFFFFFF 01").len(), 3);
}

#[test]
fn d12_bytes_left_over_in_a_body() {
    let blob = Known::zero(&[], &[], &["BytesType"]);
    assert_eq!(refused(&blob, "20 04 00 04 09 07 01"), "3 data 20");
    assert_eq!(refused(&n(), "02 01 0000 04 00 05 06 07"), "3 data 23");
    // Once the last cell is read: its fault comes first.
    assert_eq!(refused(&blob, "20 04 00 20 09 07 01"), "4 data 18");
}

#[test]
fn d13_the_order_of_fields() {
    // Timestamp 1, TTL 2, local time 3.
    let live = listed(&n(), "2C 04 00 01 02 03 01");
    assert_eq!(live[1], "3 3 0 2 1 0 0 3 0 0 15 6");
    // Timestamp 1, local time 2, TTL 3, value.
    let blob = Known::zero(&[], &[], &["BytesType"]);
    let cell = listed(&blob, "20 07 00 02 01 02 03 01 AA 01");
    assert_eq!(cell[2], "6 3 0 3 1 0 0 2 0 0 23 1");
    // A tombstone: timestamp 1, local time 2 and no value.
    let dead = listed(&blob, "20 04 00 05 01 02 01");
    assert_eq!(dead[2], "6 5 0 0 1 0 2 0 0 0 0 0");
}

#[test]
fn d14_the_mask() {
    assert_eq!(listed(&n(), "00 02 00 00 01").len(), 3);
    assert_eq!(refused(&n(), "00 02 00 01 01"), "4 data 18");
    let two = Known::zero(&[], &[], &["BytesType"; 2]);
    assert_eq!(listed(&two, "00 06 00 00 04 01 04 01 01").len(), 5);
    assert_eq!(listed(&two, "00 02 00 03 01").len(), 3);
    assert_eq!(refused(&two, "00 02 00 04 01"), "4 data 18");
}

#[test]
fn d15_values_are_not_looked_at() {
    let types = ["BooleanType", "UTF8Type", "EmptyType", "Int32Type"];
    let known = Known::zero(&[], &[], &types);
    let cells = "00 01 02 00 01 01 FF 00 01 01 EE 04 01";
    assert_eq!(listed(&known, &format!("20 0E 00 {cells} 01")).len(), 7);
}

#[test]
fn d16_a_value_cut_by_its_region() {
    let known = Known::zero(&[], &[], &["Int32Type"]);
    assert_eq!(refused(&known, "20 05 00 00 01 AAAA 01"), "2 data 20");
    let blob = Known::zero(&[], &[], &["BytesType"]);
    assert_eq!(refused(&blob, "20 05 00 00 01 02 AA 01"), "2 data 20");
}
