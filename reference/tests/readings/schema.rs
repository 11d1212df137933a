//! R: schema records.

use super::*;

const KEY: &str = "00 21 00 FF 00000000 00000000 00000000";
const REGULAR: &str = "03 11 00 04 00000000 00000001 00000000";

fn told(records: &[&str]) -> String {
    no(list(records))
}

fn list(records: &[&str]) -> Result<Vec<[u8; 64]>, Refusal> {
    list_data(&hex(&records.join("")), n().stats.bases, &[])
}

/// What a merge says whose Statistics are the five bytes "abcde".
fn merged(records: &[&str]) -> String {
    let schema = hex(&records.join(""));
    let table = Table {
        statistics: b"abcde",
        schema: &schema,
        bases: n().stats.bases,
        data: &[],
    };
    no(reference::merge(table, table, 0))
}

#[test]
fn r01_the_place_of_10() {
    assert_eq!(told(&[]), "10 schema 0");
    assert_eq!(told(&[KEY, "00000000"]), "10 schema 16");
    let last_byte = "01 11 00 04 00000000 00000000 00000001";
    assert_eq!(told(&[KEY, last_byte]), "10 schema 16");
    // In turn: a wrong record before the part of one.
    assert_eq!(
        told(&["00 21 00 FE 00000000 00000000 00000000 00"]),
        "10 schema 0"
    );
}

#[test]
fn r02_one_key_then_roles_that_never_fall() {
    assert!(list(&[KEY]).is_ok());
    assert_eq!(told(&[KEY, KEY]), "10 schema 16");
    assert_eq!(told(&[REGULAR]), "10 schema 0");
    let clustering = "01 11 00 04 00000000 00000000 00000000";
    assert!(list(&[KEY, clustering, REGULAR]).is_ok());
    assert_eq!(told(&[KEY, REGULAR, clustering]), "10 schema 32");
    for (role, most) in [(1, 32), (2, 63), (3, 63)] {
        let column = format!("0{role} 11 00 04 00000000 00000000 00000000");
        let fine = [KEY.to_string(), column.repeat(most)].concat();
        assert!(list(&[&fine]).is_ok());
        let place = 16 * (most + 1);
        assert_eq!(told(&[&fine, &column]), format!("10 schema {place}"));
    }
}

#[test]
fn r03_the_fields_of_a_record() {
    for line in 0..=255u8 {
        let width = reference::types::width_of(line);
        let given = (1..=34).contains(&line) && line != 24;
        let key = format!("00 {line:02X} 01 {width:02X} 00000000 00000000 00000000");
        assert_eq!(list(&[&key]).is_ok(), given, "line {line}");
        let column = format!("02 {line:02X} 01 {width:02X} 00000000 00000000 00000000");
        let given = given && ![7, 20, 22, 25, 32].contains(&line);
        assert_eq!(list(&[KEY, &column]).is_ok(), given, "line {line}");
    }
    assert_eq!(
        told(&["00 21 02 FF 00000000 00000000 00000000"]),
        "10 schema 0"
    );
    assert_eq!(
        told(&["00 21 00 04 00000000 00000000 00000000"]),
        "10 schema 0"
    );
    assert_eq!(
        told(&["00 21 00 FF 00000001 00000000 00000000"]),
        "10 schema 0"
    );
    assert_eq!(
        told(&["00 21 00 FF 00000000 00000001 00000000"]),
        "10 schema 0"
    );
    assert_eq!(
        told(&[KEY, "01 11 00 04 00000000 00000001 00000000"]),
        "10 schema 16"
    );
}

#[test]
fn r04_a_names_place() {
    let outside = "03 11 00 04 00000005 00000001 00000000";
    let at_end = "03 11 00 04 00000005 00000000 00000000";
    let huge = "03 11 00 04 FFFFFFFF FFFFFFFF 00000000";
    let wrong = "03 11 00 05 00000000 00000000 00000000";
    // In the merge alone, in one pass with the record's other tests.
    assert!(list(&[KEY, outside, huge]).is_ok());
    assert_eq!(merged(&[KEY, outside, wrong]), "10 schemaA 16");
    assert_eq!(told(&[KEY, outside, wrong]), "10 schema 32");
    assert_eq!(merged(&[KEY, huge]), "10 schemaA 16");
    // An empty name at the end and equal names pass: Data is read next.
    assert_eq!(merged(&[KEY, at_end, REGULAR, REGULAR]), "2 dataA 0");
}
