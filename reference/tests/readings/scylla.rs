//! Y: Scylla.db.

use super::*;

fn told(bytes: &str) -> String {
    no(read_scylla(&hex(bytes)))
}

/// A file of one component of this tag.
fn one(tag: u8, body: &str) -> String {
    let len = hex(body).len();
    format!("00000001 000000{tag:02X} {len:08X} {body}")
}

/// A bound of flag and token.
fn bound(flag: u8, token: u8) -> String {
    format!("{flag:02X} 0008 00000000000000{token:02X}")
}

#[test]
fn y01_counts_are_unsigned() {
    assert_eq!(told("FFFFFFFF"), "2 scylla 4");
    assert_eq!(told("80000000"), "2 scylla 4");
    assert_eq!(told(""), "2 scylla 0");
    assert_eq!(told("00000001 00000009 FFFFFFFF"), "2 scylla 8");
}

#[test]
fn y02_tags() {
    let skipped = "00000003 00000000 00000000 00000005 00000001 EE 00000005 00000000";
    assert_eq!(read_scylla(&hex(skipped)), Ok(ScyllaInfo::default()));
    let twice = "00000002 00000001 00000004 00000000 00000001";
    assert_eq!(told(twice), "9 scylla 16");
}

#[test]
fn y03_sizes_and_bytes_left_over() {
    assert_eq!(told("00000001 00000002 00000009 00"), "2 scylla 8");
    assert_eq!(told(&one(2, "00000000000000")), "2 scylla 12");
    assert_eq!(told(&one(2, "0000000000000000 EE")), "3 scylla 20");
    assert_eq!(told("00000000 EE"), "3 scylla 4");
    // Left over in the first comes before the second's fault.
    let both = "00000002 00000001 00000005 00000000 EE 00000002 FFFFFFFF";
    assert_eq!(told(both), "3 scylla 16");
}

#[test]
fn y04_the_run_identifier_is_two_fields() {
    assert_eq!(told(&one(4, "00000000000000000000")), "2 scylla 20");
    assert_eq!(told(&one(4, "00000000000000")), "2 scylla 12");
}

#[test]
fn y05_an_exclusive_flag_above_1() {
    assert_eq!(told(&one(1, "00000001 02")), "4 scylla 16");
    let right = format!("00000001 {} FF", bound(0, 1));
    assert_eq!(told(&one(1, &right)), "4 scylla 27");
}

#[test]
fn y06_token_lengths() {
    assert_eq!(
        told(&one(1, "00000001 00 0009 0000000000000000")),
        "2 scylla 17"
    );
    assert_eq!(
        told(&one(1, "00000001 00 0009 000000000000000000")),
        "7 scylla 17"
    );
    assert_eq!(
        told(&one(1, "00000001 00 0007 00000000000000")),
        "7 scylla 17"
    );
}

#[test]
fn y07_order_of_bounds() {
    let range = |left: &str, right: &str| one(1, &format!("00000001 {left} {right}"));
    assert_eq!(told(&range(&bound(0, 1), &bound(0, 0))), "9 scylla 27");
    assert_eq!(told(&range(&bound(1, 1), &bound(0, 1))), "9 scylla 27");
    assert!(read_scylla(&hex(&range(&bound(0, 1), &bound(0, 1)))).is_ok());
    let two = |next: &str| {
        let bounds = [bound(0, 1), bound(0, 2), next.to_string(), bound(0, 3)];
        hex(&one(1, &format!("00000002 {}", bounds.concat())))
    };
    assert_eq!(no(read_scylla(&two(&bound(0, 2)))), "9 scylla 38");
    assert!(read_scylla(&two(&bound(1, 2))).is_ok());
}

#[test]
fn y08_the_answer() {
    let info = read_scylla(&hex(&one(2, "0000000000000005"))).unwrap();
    assert_eq!(info.features, 5);
    assert_eq!(info.run_identifier, [0; 16]);
    let places = info.places.map(|p| (p.offset, p.length));
    assert_eq!(places, [(0, 0), (12, 8), (0, 0), (0, 0)]);
}
