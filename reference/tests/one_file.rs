//! "One file, whole": its listing and its five outcomes.

mod common;

use common::{at, printed};
use reference::gen::{one_file_statistics, ONE_FILE_DATA};
use reference::*;

fn list(data: &[u8]) -> Result<Vec<[u8; 64]>, Refusal> {
    let stats = read_statistics(&one_file_statistics()).unwrap();
    list_data(&stats.schema, stats.bases, data)
}

#[test]
fn the_listing() {
    let wanted = [
        "1 0 0 0 0 0 0 0 0 0 2 1",
        "3 1 0 0 1442880000000005 0 0 0 0 0 15 14",
        "5 0 0 0 0 0 0 0 0 0 17 4",
        "6 1 0 0 1442880000000005 0 0 0 0 0 25 4",
        "7 0 0 0 0 0 0 0 0 0 29 1",
    ];
    assert_eq!(printed(&list(&ONE_FILE_DATA).unwrap()), wanted);
}

#[test]
fn the_other_four_outcomes() {
    let mut data = ONE_FILE_DATA;
    data[21] = 8; // "Body size 08 gives 3 at 29"
    assert_eq!(at("data", list(&data)), (3, 29));
    data[21] = 6; // "06 gives 2 at 25"
    assert_eq!(at("data", list(&data)), (2, 25));
    // "Without the last byte: 2 at 29."
    assert_eq!(at("data", list(&ONE_FILE_DATA[..29])), (2, 29));
    // "Empty Data is accepted with no records."
    assert_eq!(list(&[]), Ok(vec![]));
}

#[test]
fn the_writer_gives_the_file_back() {
    let stats = read_statistics(&one_file_statistics()).unwrap();
    let records = list(&ONE_FILE_DATA).unwrap().concat();
    let out = write_data(&stats.schema, stats.bases, &records, &ONE_FILE_DATA, 30).unwrap();
    assert_eq!(out, ONE_FILE_DATA);
    let short = write_data(&stats.schema, stats.bases, &records, &ONE_FILE_DATA, 29);
    assert_eq!(at("output", short), (13, 30));
}

#[test]
fn every_cut_is_told_at_its_field() {
    // What ends early is told at the first byte of the field that does.
    let wanted: [u64; 30] = [
        0, 0, 0, 3, 3, 3, 3, 7, 7, 7, 7, 7, 7, 7, 7, // header: length, key, local, mark
        15, 16, 17, 17, 17, 17, // flags, clustering header, value
        21, 21, 21, 21, 21, 21, 21, 21, 29, // body size, what it announces, end byte
    ];
    for cut in 1..30 {
        assert_eq!(
            at("data", list(&ONE_FILE_DATA[..cut])),
            (2, wanted[cut]),
            "cut {cut}"
        );
    }
}
