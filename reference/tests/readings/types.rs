//! T: type strings.

use super::*;

/// The key's line, mark and width, or what is told.
fn key(text: &str) -> String {
    of(
        &[
            &hex("000000")[..],
            &[text.len() as u8],
            text.as_bytes(),
            &[0; 3],
        ]
        .concat(),
        0,
    )
}

/// The same of regular column x.
fn column(text: &str) -> String {
    let head = hex("000000 00 00 00 01 01 78");
    of(
        &[&head[..], &[text.len() as u8], text.as_bytes()].concat(),
        16,
    )
}

fn of(entry3: &[u8], record: usize) -> String {
    match read_statistics(&[t(""), entry3.to_vec()].concat()) {
        Ok(stats) => match stats.schema[record + 1..record + 4] {
            [line, mark, width] => format!("{line} {mark} {width}"),
            _ => unreachable!(),
        },
        Err(refusal) => no::<()>(Err(refusal)),
    }
}

fn open(count: usize) -> String {
    "(".repeat(count)
}

const BAD: &str = "7 statistics 34";
const DEEP: &str = "8 statistics 34";

#[test]
fn t01_names() {
    assert_eq!(key("AsciiType"), "1 0 255");
    assert_eq!(key("UTF8Type"), "33 0 255");
    assert_eq!(key("PartitionerDefinedOrder(a)"), "23 0 255");
    assert_eq!(key("org.apache.cassandra.db.marshal.Int32Type"), "17 0 4");
    for bad in [
        "marshal.Int32Type",
        ".Int32Type",
        "utf8type",
        "Int32",
        "UTF8 Type",
    ] {
        assert_eq!(key(bad), BAD);
    }
    // The longest run: a name byte behind the name belongs to it.
    for bad in ["Int32Type-", "Int32Type&", "Int32Type_"] {
        assert_eq!(key(bad), BAD);
    }
}

#[test]
fn t02_blanks_and_no_name() {
    assert_eq!(key(" \t\nInt32Type"), "17 0 4");
    assert_eq!(key("\rInt32Type"), BAD);
    assert_eq!(key(""), "3 0 255");
    assert_eq!(key(" \t\n"), "3 0 255");
    assert_eq!(key("("), BAD);
    assert_eq!(key("()"), BAD);
}

#[test]
fn t03_where_blanks_are_skipped() {
    assert_eq!(key("ReversedType( Int32Type )"), "17 1 4");
    assert_eq!(key("ListType (a)"), "20 0 255");
    assert_eq!(key("ListType(a) "), BAD);
    assert_eq!(key("ReversedType(Int32Type) "), BAD);
    assert_eq!(key("ReversedType(FrozenType(a) )"), BAD);
}

#[test]
fn t04_parameters_exactly_where_001_says_yes() {
    assert_eq!(key("TupleType()"), "31 0 255");
    for bad in [
        "TupleType",
        "PartitionerDefinedOrder",
        "ReversedType",
        "Int32Type()",
    ] {
        assert_eq!(key(bad), BAD);
    }
}

#[test]
fn t05_reversed_holds_one_type_string() {
    assert_eq!(key("ReversedType()"), "3 1 255");
    assert_eq!(key("ReversedType(Int32Type,)"), BAD);
    assert_eq!(key("ReversedType(Int32Type,Int32Type)"), BAD);
}

#[test]
fn t06_reversed_in_reversed() {
    assert_eq!(key("ReversedType(ReversedType(a))"), BAD);
    assert_eq!(key("ReversedType(ReversedType(Int32Type))"), BAD);
    assert_eq!(key("ReversedType(FrozenType(ReversedType(a)))"), "15 1 255");
}

#[test]
fn t07_characters_inside_others() {
    assert_eq!(key("TupleType(aZ09-+._&,:=> ())"), "31 0 255");
    for bad in [
        "TupleType(\u{e9})",
        "TupleType(\t)",
        "TupleType(\n)",
        "TupleType(<)",
    ] {
        assert_eq!(key(bad), BAD);
    }
}

#[test]
fn t08_depth() {
    let closed = |n| format!("{}{}", open(n), ")".repeat(n));
    assert_eq!(key(&format!("FrozenType{}", closed(16))), "15 0 255");
    assert_eq!(key(&format!("FrozenType{}", closed(17))), DEEP);
    assert_eq!(
        key(&format!("ReversedType(FrozenType{})", closed(15))),
        "15 1 255"
    );
    assert_eq!(key(&format!("ReversedType(FrozenType{}", open(16))), DEEP);
}

#[test]
fn t09_the_leftmost_fault_decides() {
    assert_eq!(key(&format!("FrozenType{}!", open(17))), DEEP);
    assert_eq!(key(&format!("ListType(!{}", open(17))), BAD);
    assert_eq!(key(&format!("FrozenType{}", open(16))), BAD);
    assert_eq!(key(&format!("Int32Type{}", open(17))), BAD);
}

#[test]
fn t10_collections_and_counters_as_columns() {
    let refused = "7 statistics 40";
    assert_eq!(column(&format!("ListType{}", open(17))), refused);
    let bad = [
        "ListType(a)",
        "MapType(a)",
        "SetType(a)",
        "UserType(a)",
        "CounterColumnType",
    ];
    for ty in bad {
        assert_eq!(column(ty), refused);
        assert_eq!(column(&format!("ReversedType({ty})")), refused);
        assert_eq!(column(&format!("FrozenType({ty})")), "15 0 255");
    }
}

#[test]
fn t11_lines() {
    assert_eq!(key("UUIDType"), "34 0 16");
    assert_eq!(key("ReversedType(UUIDType)"), "34 1 16");
    assert_eq!(column("ReversedType(Int32Type)"), "17 1 4");
    for line in 1..=34u8 {
        let name = reference::types::line_of(line).unwrap().name;
        let parameters = if reference::types::line_of(line).unwrap().parametrized {
            "(a)"
        } else {
            ""
        };
        let read = key(&format!("{name}{parameters}"));
        // Reversed's parameter "a" is no type.
        let wanted = if line == 24 {
            BAD.into()
        } else {
            format!("{line} 0")
        };
        assert!(read.starts_with(&wanted), "{name}: {read}");
    }
}

#[test]
fn t12_widths_as_written() {
    assert_eq!(key("FrozenType(Int32Type)"), "15 0 255");
    for ty in [
        "EmptyType",
        "ByteType",
        "ShortType",
        "TimeType",
        "SimpleDateType",
    ] {
        assert!(key(ty).ends_with(" 0 255"));
    }
    let fixed = [
        ("BooleanType", 1),
        ("Int32Type", 4),
        ("FloatType", 4),
        ("LongType", 8),
        ("DoubleType", 8),
        ("TimestampType", 8),
        ("DateType", 8),
        ("UUIDType", 16),
        ("TimeUUIDType", 16),
        ("LexicalUUIDType", 16),
    ];
    for (ty, width) in fixed {
        assert!(key(ty).ends_with(&format!(" 0 {width}")));
        assert!(key(&format!("ReversedType({ty})")).ends_with(&format!(" 1 {width}")));
    }
}
