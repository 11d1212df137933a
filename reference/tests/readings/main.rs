//! Every decided reading that an outcome can show: one test each, named after
//! its entry in `docs/DECISIONS.md` (`s03_...` is S3).

#[path = "../common/mod.rs"]
mod common;

mod calls;
mod data;
mod listing;
mod merge;
mod schema;
mod scylla;
mod statistics;
mod types;
mod writer;

use common::Known;
use reference::*;

/// Bytes in hex; blanks are free.
fn hex(text: &str) -> Vec<u8> {
    let digits: Vec<u8> = text.bytes().filter(|b| !b.is_ascii_whitespace()).collect();
    let byte = |pair: &[u8]| u8::from_str_radix(std::str::from_utf8(pair).unwrap(), 16).unwrap();
    digits.chunks(2).map(byte).collect()
}

/// "9 statistics 41": number, slice and place of a refusal.
fn no<T: std::fmt::Debug>(answer: Result<T, Refusal>) -> String {
    let refusal = answer.expect_err("refused").to_string();
    refusal.strip_prefix("refused ").unwrap().to_string()
}

/// H: a live partition of key "k"; its items begin at 15.
const H: &str = "00016B 7FFFFFFF 8000000000000000";

/// H and `items`.
fn h(items: &str) -> Vec<u8> {
    hex(&format!("{H}{items}"))
}

/// Table n: no columns but the key, bases 0.
fn n() -> Known {
    Known::zero(&[], &[], &[])
}

/// Clustering Int32, static Int32, regular Int32, bases 0.
fn c() -> Known {
    Known::zero(&["Int32Type"], &["Int32Type"], &["Int32Type"])
}

/// What listing H and `items` is told.
fn refused(known: &Known, items: &str) -> String {
    no(known.list(&h(items)))
}

/// The printed records of H and `items`.
fn listed(known: &Known, items: &str) -> Vec<String> {
    common::printed(&known.list(&h(items)).unwrap())
}

/// T(x): Statistics whose entry 3 is `x`, from 30 on.
fn t(entry3: &str) -> Vec<u8> {
    let head = "00000002 00000000 00000014 00000003 0000001E 0000 0000000000000000";
    hex(&format!("{head}{entry3}"))
}

/// What reading T(x) is told.
fn stats(entry3: &str) -> String {
    no(read_statistics(&t(entry3)))
}
