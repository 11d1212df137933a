//! The merge's definition spelled out slowly, over listings, with orders
//! written apart from the library's.
#![allow(dead_code)]

use std::cmp::Ordering;
use std::collections::BTreeMap;

use reference::gen::naive_compare;
use reference::*;

#[derive(Clone, Debug, Default)]
pub struct NaiveRow {
    pub record: Record,
    pub values: Vec<Vec<u8>>,
    /// By column: the cell's record and its bytes.
    pub cells: BTreeMap<u8, (Record, Vec<u8>)>,
}

#[derive(Clone, Debug)]
pub struct NaivePartition {
    pub record: Record,
    pub key: Vec<u8>,
    pub fixed: Option<NaiveRow>,
    pub rows: Vec<NaiveRow>,
}

fn shown(record: &Record, data: &[u8]) -> Vec<u8> {
    data[record.offset as usize..][..record.length as usize].to_vec()
}

/// One partition from its listing.
pub fn parse(records: &[[u8; 64]], data: &[u8]) -> NaivePartition {
    let mut out = NaivePartition {
        record: Record::default(),
        key: vec![],
        fixed: None,
        rows: vec![],
    };
    for raw in records {
        let record = Record::from_bytes(raw).unwrap();
        let row = NaiveRow {
            record,
            ..NaiveRow::default()
        };
        match record.kind {
            1 => {
                out.record = record;
                out.key = shown(&record, data);
            }
            2 => out.fixed = Some(row),
            3 => out.rows.push(row),
            5 => out
                .rows
                .last_mut()
                .unwrap()
                .values
                .push(shown(&record, data)),
            6 => {
                let row = match out.rows.last_mut() {
                    Some(row) => row,
                    None => out.fixed.as_mut().unwrap(),
                };
                row.cells
                    .insert(record.column, (record, shown(&record, data)));
            }
            7 => {}
            other => panic!("kind {other} in a merge"),
        }
    }
    out
}

/// "greater mark, then later local time; live is least"
fn greater_deletion(a: &Record, b: &Record) -> bool {
    let live_a = a.flags & 4 == 0;
    let live_b = b.flags & 4 == 0;
    if live_a || live_b {
        return !live_a && live_b;
    }
    a.mark > b.mark || (a.mark == b.mark && a.local > b.local)
}

fn take_deletion(into: &mut Record, from: &Record) {
    into.flags = (into.flags & !4) | (from.flags & 4);
    into.mark = from.mark;
    into.local = from.local;
}

/// "then expiring over not, later expiry, greater TTL"
fn compare_expiry(a: &Record, b: &Record) -> Ordering {
    let (expiring_a, expiring_b) = (a.flags & 2 != 0, b.flags & 2 != 0);
    if expiring_a != expiring_b {
        return if expiring_a {
            Ordering::Greater
        } else {
            Ordering::Less
        };
    }
    if a.expiry != b.expiry {
        return a.expiry.cmp(&b.expiry);
    }
    a.ttl.cmp(&b.ttl)
}

/// "greater timestamp; then a tombstone over a value; ..."
fn compare_cells(a: &(Record, Vec<u8>), b: &(Record, Vec<u8>)) -> Ordering {
    if a.0.timestamp != b.0.timestamp {
        return a.0.timestamp.cmp(&b.0.timestamp);
    }
    let (dead_a, dead_b) = (a.0.flags & 4 != 0, b.0.flags & 4 != 0);
    match (dead_a, dead_b) {
        (true, false) => Ordering::Greater,
        (false, true) => Ordering::Less,
        (true, true) => a.0.local.cmp(&b.0.local),
        (false, false) => a.1.cmp(&b.1).then(compare_expiry(&a.0, &b.0)),
    }
}

fn compare_liveness(a: &Record, b: &Record) -> Ordering {
    let (has_a, has_b) = (a.flags & 1 != 0, b.flags & 1 != 0);
    if !has_a || !has_b {
        return has_a.cmp(&has_b);
    }
    a.timestamp.cmp(&b.timestamp).then(compare_expiry(a, b))
}

fn take_liveness(into: &mut Record, from: &Record) {
    into.flags = (into.flags & !3) | (from.flags & 3);
    into.timestamp = from.timestamp;
    into.ttl = from.ttl;
    into.expiry = from.expiry;
}

fn join_rows(rows: &[&NaiveRow]) -> NaiveRow {
    let mut out = rows[0].clone();
    for row in &rows[1..] {
        if greater_deletion(&row.record, &out.record) {
            take_deletion(&mut out.record, &row.record);
        }
        if compare_liveness(&row.record, &out.record).is_gt() {
            take_liveness(&mut out.record, &row.record);
        }
        for (column, cell) in &row.cells {
            let wins = out
                .cells
                .get(column)
                .is_none_or(|old| compare_cells(cell, old).is_gt());
            if wins {
                out.cells.insert(*column, cell.clone());
            }
        }
    }
    out
}

/// Drops what is covered; nothing where the row has nothing left.
fn uncovered(mut row: NaiveRow, partition: &Record) -> Option<NaiveRow> {
    if !greater_deletion(&row.record, partition) {
        take_deletion(&mut row.record, &Record::default());
    }
    let mut marks = Vec::new();
    for deletion in [partition, &row.record] {
        if deletion.flags & 4 != 0 {
            marks.push(deletion.mark);
        }
    }
    let covered = |timestamp: i64| marks.iter().any(|&mark| timestamp <= mark);
    if row.record.flags & 1 != 0 && covered(row.record.timestamp) {
        take_liveness(&mut row.record, &Record::default());
    }
    row.cells.retain(|_, (cell, _)| !covered(cell.timestamp));
    (row.record.flags != 0 || !row.cells.is_empty()).then_some(row)
}

/// "One or more partitions reconcile to ...".
pub fn reconcile(schema: &Schema, parts: &[NaivePartition]) -> NaivePartition {
    let mut out = NaivePartition {
        record: parts[0].record,
        key: parts[0].key.clone(),
        fixed: None,
        rows: vec![],
    };
    for part in &parts[1..] {
        if greater_deletion(&part.record, &out.record) {
            take_deletion(&mut out.record, &part.record);
        }
    }
    let fixed: Vec<&NaiveRow> = parts.iter().filter_map(|p| p.fixed.as_ref()).collect();
    if !fixed.is_empty() {
        out.fixed = uncovered(join_rows(&fixed), &out.record);
    }
    let mut all: Vec<&NaiveRow> = parts.iter().flat_map(|p| &p.rows).collect();
    all.sort_by(|a, b| naive_compare(schema, &a.values, &b.values));
    for group in all.chunk_by(|a, b| a.values == b.values) {
        out.rows.extend(uncovered(join_rows(group), &out.record));
    }
    out
}

/// Records and lent bytes of a partition.
pub fn records(part: &NaivePartition) -> (Vec<u8>, Vec<u8>) {
    let mut list = Vec::new();
    let mut lent = vec![0xEE];
    let mut push = |mut record: Record, value: Option<&[u8]>| {
        record.offset = 0;
        record.length = 0;
        if let Some(value) = value.filter(|v| !v.is_empty()) {
            record.offset = lent.len() as u64;
            record.length = value.len() as u64;
            lent.extend_from_slice(value);
        }
        list.extend(record.to_bytes());
    };
    push(part.record, Some(&part.key));
    for row in part.fixed.iter().chain(&part.rows) {
        push(row.record, None);
        for (column, value) in row.values.iter().enumerate() {
            let flags = if value.is_empty() { 8 } else { 0 };
            push(
                Record {
                    kind: 5,
                    flags,
                    column: column as u8,
                    ..Record::default()
                },
                Some(value),
            );
        }
        for (cell, value) in row.cells.values() {
            push(*cell, Some(value));
        }
    }
    push(
        Record {
            kind: 7,
            ..Record::default()
        },
        None,
    );
    (list, lent)
}
