//! The writer's form of partitions, rows and markers.  The writer and the
//! merge both end here: "The output has the writer's form".

use crate::data::{self, Bases, Cell, Content, Deletion, Expiry, Liveness};
use crate::schema::Column;
use crate::varint;

/// A row as it is to be written.
pub struct RowImage<'r, 'a> {
    pub is_static: bool,
    /// One value for each clustering column; none for a static row.
    pub clustering: &'r [&'a [u8]],
    pub liveness: Option<Liveness>,
    pub deletion: Option<Deletion>,
    /// A bit for each column that has a cell.
    pub present: u64,
    /// Cells by column; those without their bit are not looked at.
    pub cells: &'r [Cell<'a>],
}

/// Appends items to Data.
pub struct Encoder {
    pub out: Vec<u8>,
    body: Vec<u8>,
    bases: Bases,
    partition_at: usize,
    /// The previous row or marker of the partition, "static aside".
    previous_at: Option<usize>,
}

impl Encoder {
    pub fn new(bases: Bases) -> Encoder {
        Encoder {
            out: Vec::new(),
            body: Vec::new(),
            bases,
            partition_at: 0,
            previous_at: None,
        }
    }

    pub fn partition(&mut self, key: &[u8], deletion: Option<Deletion>) {
        self.partition_at = self.out.len();
        self.previous_at = None;
        self.out
            .extend_from_slice(&(key.len() as u16).to_be_bytes());
        self.out.extend_from_slice(key);
        // "live is exactly 7FFFFFFF and -2^63"
        let (local, mark) = deletion.map_or((0x7FFF_FFFF, i64::MIN), |d| (d.local, d.mark));
        self.out.extend_from_slice(&local.to_be_bytes());
        self.out.extend_from_slice(&mark.to_be_bytes());
    }

    pub fn end(&mut self) {
        self.out.push(data::END);
    }

    /// A row of a table whose clustering columns and cells' columns are given.
    pub fn row(&mut self, row: &RowImage, clustering: &[Column], columns: &[Column]) {
        let at = self.out.len();
        let all = data::low_bits(columns.len());
        self.out.push(row_flags(row, all));
        if row.is_static {
            self.out.push(0x01); // "80 on static rows alone"
        } else {
            self.clustering(row.clustering, clustering);
        }
        self.row_body(row, all, columns);
        // "the writer puts 0 for a static row"
        let previous = if row.is_static { 0 } else { self.back_from(at) };
        self.sizes_and_body(previous);
        if !row.is_static {
            self.previous_at = Some(at);
        }
    }

    pub fn marker(
        &mut self,
        kind: u8,
        prefix: &[&[u8]],
        clustering: &[Column],
        first: Deletion,
        second: Option<Deletion>,
    ) {
        let at = self.out.len();
        self.out.extend_from_slice(&[data::MARKER, kind]);
        self.out
            .extend_from_slice(&(prefix.len() as u16).to_be_bytes());
        self.clustering(prefix, clustering);
        self.body.clear();
        self.deletion(first);
        if let Some(second) = second {
            self.deletion(second);
        }
        let previous = self.back_from(at);
        self.sizes_and_body(previous);
        self.previous_at = Some(at);
    }

    /// "else the bytes back to the previous row or marker, static aside, or if
    /// none to the partition's first byte"
    fn back_from(&self, at: usize) -> u64 {
        (at - self.previous_at.unwrap_or(self.partition_at)) as u64
    }

    /// Header and values; "(none for no columns)".
    fn clustering(&mut self, values: &[&[u8]], columns: &[Column]) {
        if values.is_empty() {
            return;
        }
        let empty = |header: u64, (i, value): (usize, &&[u8])| {
            header | (u64::from(value.is_empty()) << (2 * i))
        };
        varint::write(&mut self.out, values.iter().enumerate().fold(0, empty));
        for (value, column) in values.iter().zip(columns) {
            if !value.is_empty() {
                push_value(&mut self.out, value, column);
            }
        }
    }

    /// "Body: liveness (timestamp, TTL, local deletion time), deletion (mark,
    /// local time), missing-column mask unless 20 is set ..., cells in column
    /// order."
    fn row_body(&mut self, row: &RowImage, all: u64, columns: &[Column]) {
        self.body.clear();
        if let Some(liveness) = row.liveness {
            self.timestamp(liveness.timestamp);
            if let Some(expiry) = liveness.expiry {
                self.ttl(expiry.ttl);
                self.local(expiry.local);
            }
        }
        if let Some(deletion) = row.deletion {
            self.deletion(deletion);
        }
        if row.present != all {
            varint::write(&mut self.body, all & !row.present);
        }
        let mut left = row.present;
        while left != 0 {
            let index = left.trailing_zeros() as usize;
            self.cell(&row.cells[index], row.liveness, &columns[index]);
            left &= left - 1;
        }
    }

    /// "The writer sets cell flag 08 when the row has that timestamp, 10 when an
    /// expiring cell has the row's TTL and expiry, 04 ... for empty values".
    fn cell(&mut self, cell: &Cell, liveness: Option<Liveness>, column: &Column) {
        let flags_at = self.body.len();
        let mut flags = 0;
        self.body.push(0);
        if liveness.is_some_and(|row| row.timestamp == cell.timestamp) {
            flags |= data::USE_ROW_TIMESTAMP;
        } else {
            self.timestamp(cell.timestamp);
        }
        match cell.content {
            Content::Tombstone { local } => {
                flags |= data::TOMBSTONE | data::EMPTY;
                self.local(local);
            }
            Content::Value { bytes, expiry } => {
                flags |= self.expiry(expiry, liveness.and_then(|row| row.expiry));
                if bytes.is_empty() {
                    flags |= data::EMPTY;
                } else {
                    push_value(&mut self.body, bytes, column);
                }
            }
        }
        self.body[flags_at] = flags;
    }

    fn expiry(&mut self, expiry: Option<Expiry>, row: Option<Expiry>) -> u8 {
        match expiry {
            None => 0,
            Some(_) if expiry == row => data::EXPIRING | data::USE_ROW_TTL,
            Some(expiry) => {
                self.local(expiry.local);
                self.ttl(expiry.ttl);
                data::EXPIRING
            }
        }
    }

    fn deletion(&mut self, deletion: Deletion) {
        self.timestamp(deletion.mark);
        self.local(deletion.local);
    }

    // Deltas from the bases, which lie at or below what is written.

    fn timestamp(&mut self, value: i64) {
        debug_assert!(value >= self.bases.timestamp);
        varint::write(
            &mut self.body,
            value.wrapping_sub(self.bases.timestamp) as u64,
        );
    }

    fn local(&mut self, value: u32) {
        varint::write(&mut self.body, u64::from(value - self.bases.local as u32));
    }

    fn ttl(&mut self, value: u32) {
        varint::write(&mut self.body, u64::from(value - self.bases.ttl as u32));
    }

    /// "Body size counts the bytes after its own varint, the previous-size
    /// varint included."
    fn sizes_and_body(&mut self, previous: u64) {
        let size = varint::len(previous) + self.body.len();
        varint::write(&mut self.out, size as u64);
        varint::write(&mut self.out, previous);
        self.out.extend_from_slice(&self.body);
    }
}

fn row_flags(row: &RowImage, all: u64) -> u8 {
    let mut flags = 0;
    if let Some(liveness) = row.liveness {
        flags |= data::ROW_TIMESTAMP;
        if liveness.expiry.is_some() {
            flags |= data::ROW_TTL;
        }
    }
    if row.deletion.is_some() {
        flags |= data::ROW_DELETION;
    }
    if row.present == all {
        flags |= data::ALL_COLUMNS; // "20 when no column is missing"
    }
    if row.is_static {
        flags |= data::EXTENDED;
    }
    flags
}

/// A value that is not empty.
fn push_value(out: &mut Vec<u8>, value: &[u8], column: &Column) {
    if column.fixed().is_none() {
        varint::write(out, value.len() as u64);
    }
    out.extend_from_slice(value);
}
