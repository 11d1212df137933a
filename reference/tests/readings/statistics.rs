//! S: Statistics.

use super::*;

fn told(bytes: &str) -> String {
    no(read_statistics(&hex(bytes)))
}

/// An empty key type and no columns.
const BARE: &str = "000000 00 00 00 00";

#[test]
fn s01_the_count_is_signed() {
    assert_eq!(told("80000000"), "5 statistics 0");
    assert_eq!(told("FFFFFFFF"), "5 statistics 0");
    assert_eq!(told("00000005"), "8 statistics 0");
    assert_eq!(told("00000000"), "7 statistics 0");
}

#[test]
fn s02_types_of_entries() {
    assert_eq!(told("00000001 00000004"), "7 statistics 4");
    assert_eq!(told("00000001 FFFFFFFF"), "7 statistics 4");
    assert_eq!(
        told("00000002 00000000 00000014 00000000 00000000"),
        "9 statistics 12"
    );
}

#[test]
fn s03_offsets() {
    assert_eq!(told("00000002 00000000 FFFFFFFF"), "5 statistics 8");
    let pairs = "00000002 00000000 00000014 00000003";
    assert_eq!(told(&format!("{pairs} 00000014")), "9 statistics 16");
    // Past the file's end, then before the contents' end, then seen before.
    assert_eq!(told(&format!("{pairs} 00000015")), "2 statistics 16");
    assert_eq!(told(&format!("{pairs} 00000013")), "5 statistics 16");
}

#[test]
fn s04_pairs_are_judged_field_by_field() {
    assert_eq!(told("00000002 00000000 0000000C"), "5 statistics 8");
    assert_eq!(told("00000002 00000000 00000014"), "2 statistics 8");
}

#[test]
fn s05_an_offset_at_the_files_end() {
    let empty = "00000003 00000000 0000001C 00000003 00000026 00000001 0000002D";
    let whole = hex(&format!("{empty} 0000 0000000000000000 {BARE}"));
    assert!(read_statistics(&whole).is_ok());
    let at_end = "00000002 00000003 00000014 00000000 0000001B";
    assert_eq!(told(&format!("{at_end} {BARE}")), "2 statistics 27");
    let at_end = "00000002 00000000 00000014 00000003 0000001E";
    assert_eq!(
        told(&format!("{at_end} 0000 0000000000000000")),
        "2 statistics 30"
    );
}

#[test]
fn s06_bytes_before_the_first_entry() {
    let gap = "00000002 00000000 00000015 00000003 0000001F EE 0000 0000000000000000";
    assert!(read_statistics(&hex(&format!("{gap} {BARE}"))).is_ok());
}

#[test]
fn s07_absent_entries() {
    assert_eq!(told("00000001 00000000 0000000C"), "7 statistics 0");
    assert_eq!(told("00000001 00000003 0000000C FF"), "7 statistics 0");
    // Only once all pairs are read.
    assert_eq!(
        told("00000002 00000001 00000014 00000009 00000014"),
        "7 statistics 12"
    );
}

#[test]
fn s08_entries_end_at_the_next_larger_offset() {
    // Entry 1 begins inside what would be the chance, and cuts it.
    let cut = "00000003 00000000 0000001C 00000003 00000026 00000001 00000020";
    let file = format!("{cut} 0000 0000000000000000 {BARE}");
    assert_eq!(told(&file), "2 statistics 30");
    // Entry 3 stands first: its faults come first, bytes left over too.
    let turned = "00000002 00000000 0000001C 00000003 00000014";
    let file = format!("{turned} {BARE} EE FFFF");
    assert_eq!(told(&file), "3 statistics 27");
}

#[test]
fn s09_the_partitioners_name_is_not_looked_at() {
    let named = "00000002 00000000 00000014 00000003 0000001F 0001 FF 0000000000000000";
    let stats = read_statistics(&hex(&format!("{named} {BARE}"))).unwrap();
    assert_eq!(stats.validation.name_at, 22);
    assert_eq!(stats.validation.name_len, 1);
}

#[test]
fn s10_the_chance() {
    let with = |chance: &str| {
        let head = "00000002 00000000 00000014 00000003 0000001F 0000";
        read_statistics(&hex(&format!("{head} {chance} EE {BARE}")))
    };
    for fine in ["8000000000000000", "0000000000000000", "3FF0000000000000"] {
        // The byte left over shows that the chance was taken.
        assert_eq!(no(with(fine)), "3 statistics 30");
    }
    let bad = [
        "3FF0000000000001",
        "8000000000000001",
        "7FF8000000000000",
        "7FF0000000000000",
        "FFF0000000000000",
    ];
    for chance in bad {
        assert_eq!(no(with(chance)), "5 statistics 22");
    }
    let minus_zero = t(BARE);
    let bits = [&minus_zero[..22], &hex("80"), &minus_zero[23..]].concat();
    let stats = read_statistics(&bits).unwrap();
    assert_eq!(stats.validation.chance_bits, 1 << 63);
}

#[test]
fn s11_a_name_seen_before() {
    assert_eq!(
        stats("000000 00 00 01 01 76 00 01 01 76 00"),
        "9 statistics 41"
    );
    // Before its type is read.
    assert_eq!(
        stats("000000 00 00 00 02 01 76 00 01 76 01 23"),
        "9 statistics 41"
    );
}

#[test]
fn s12_an_empty_name() {
    let once = read_statistics(&t("000000 00 00 00 01 00 00")).unwrap();
    assert_eq!(
        once.schema[16..],
        hex("03 03 00 FF 00000026 00000000 00000000")
    );
    assert_eq!(stats("000000 00 00 00 02 00 00 00 00"), "9 statistics 40");
}

#[test]
fn s13_key_and_clustering_types_may_be_any() {
    let schema = |ty: &str| {
        let text = gen::Text {
            key: ty.into(),
            clustering: vec![ty.into()],
            ..gen::Text::default()
        };
        read_statistics(&gen::statistics(&text)).unwrap().schema
    };
    let any = [
        ("CounterColumnType", 7),
        ("ListType(a)", 20),
        ("MapType(a)", 22),
        ("SetType(a)", 25),
        ("UserType(a)", 32),
    ];
    for (ty, line) in any {
        assert_eq!(schema(ty)[..4], [0, line, 0, 255]);
        assert_eq!(schema(ty)[16..20], [1, line, 0, 255]);
    }
}
