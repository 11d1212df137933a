//! Random Data, in the writer's form or not.

use crate::data::Bases;
use crate::rng::Rng;
use crate::schema::{Column, Schema};
use crate::types;
use crate::varint;

/// How Data is spelled.
#[derive(Clone, Copy, PartialEq, Eq)]
pub enum Spelling {
    /// Shortest varints, the flags that the writer sets.
    Writer,
    /// Any accepted spelling.
    Any,
}

/// Makes Data for one schema.
pub struct DataMaker<'s> {
    pub schema: &'s Schema,
    pub bases: Bases,
    pub spelling: Spelling,
    /// Range markers too.
    pub markers: bool,
    /// Rows rise strictly in document 01's order.
    pub sorted: bool,
    /// Times are base plus less than this.
    pub spread: u64,
    pub rng: Rng,
}

/// A cell with a value of its own.
#[derive(Clone)]
struct OwnCell {
    timestamp: u64,
    tombstone: Option<u64>,
    expiry: Option<(u64, u64)>,
    value: Vec<u8>,
}

/// A row's own times, as deltas.
#[derive(Clone, Copy, Default)]
struct RowTimes {
    timestamp: Option<u64>,
    /// Local time and TTL.
    expiry: Option<(u64, u64)>,
}

impl DataMaker<'_> {
    fn varint(&mut self, out: &mut Vec<u8>, value: u64) {
        let shortest = varint::len(value);
        if self.spelling == Spelling::Any && self.rng.one_in(6) {
            let total = shortest + self.rng.index(varint::MAX_LEN - shortest + 1);
            varint::write_form(out, value, total);
        } else {
            varint::write(out, value);
        }
    }

    /// A timestamp's delta that gives a sum in range, if there is one.
    fn timestamp(&mut self) -> u64 {
        let range = i64::MAX.wrapping_sub(self.bases.timestamp) as u64;
        let least = u64::from(self.bases.timestamp == i64::MIN);
        least
            + self
                .rng
                .below(self.spread.min((range - least).saturating_add(1)))
    }

    fn local(&mut self) -> Option<u64> {
        let range = 2_147_483_646u64.checked_sub(self.bases.local as u64)?;
        Some(self.rng.below(self.spread.min(range + 1)))
    }

    fn ttl(&mut self) -> u64 {
        let range = 2_147_483_647 - self.bases.ttl as u64;
        let least = u64::from(self.bases.ttl == 0);
        least + self.rng.below(self.spread.min(range - least + 1))
    }

    fn deletion(&mut self) -> Option<(u64, u64)> {
        let local = self.local()?;
        Some((self.timestamp(), local))
    }

    fn value(&mut self, column: &Column) -> Vec<u8> {
        if self.rng.one_in(5) {
            return Vec::new();
        }
        if column.line == types::BOOLEAN {
            return vec![self.rng.below(3) as u8];
        }
        match column.fixed() {
            Some(width) => {
                let mut value = vec![0; width];
                if self.rng.one_in(3) {
                    value.fill(0xFF);
                }
                value[width - 1] = self.rng.below(4) as u8;
                value
            }
            None => {
                let len = 1 + self.rng.index(3);
                (0..len)
                    .map(|_| *self.rng.pick(&[0x00, 0x61, 0x62, 0xFF]))
                    .collect()
            }
        }
    }

    fn push_value(&mut self, out: &mut Vec<u8>, value: &[u8], column: &Column) {
        if column.fixed().is_none() {
            self.varint(out, value.len() as u64);
        }
        out.extend_from_slice(value);
    }

    /// Clustering header and values.
    fn clustering(&mut self, out: &mut Vec<u8>, values: &[Vec<u8>]) {
        if values.is_empty() {
            return;
        }
        let columns: Vec<Column> = self.schema.clustering().to_vec();
        let mut header = 0u64;
        for (i, value) in values.iter().enumerate() {
            let spelled = columns[i].fixed().is_none()
                && self.spelling == Spelling::Any
                && self.rng.one_in(2);
            if value.is_empty() && !spelled {
                header |= 1 << (2 * i);
            }
        }
        self.varint(out, header);
        for (i, value) in values.iter().enumerate() {
            if header >> (2 * i) & 1 == 0 {
                self.push_value(out, value, &columns[i]);
            }
        }
    }

    /// Body size, previous size and body.
    fn sizes(&mut self, out: &mut Vec<u8>, previous: u64, body: &[u8]) {
        let mut sized = Vec::new();
        let previous = if self.spelling == Spelling::Any {
            self.rng.next()
        } else {
            previous
        };
        self.varint(&mut sized, previous);
        sized.extend_from_slice(body);
        self.varint(out, sized.len() as u64);
        out.extend(sized);
    }

    fn clustering_values(&mut self, count: usize) -> Vec<Vec<u8>> {
        let columns: Vec<Column> = self.schema.clustering()[..count].to_vec();
        columns.iter().map(|c| self.value(c)).collect()
    }

    fn own_cell(&mut self, column: &Column, row: RowTimes) -> OwnCell {
        let timestamp = match row.timestamp {
            Some(t) if self.rng.one_in(2) => t,
            _ => self.timestamp(),
        };
        let local = self.local();
        if self.rng.one_in(4) && local.is_some() {
            return OwnCell {
                timestamp,
                tombstone: local,
                expiry: None,
                value: vec![],
            };
        }
        let expiry = match (self.rng.below(4), local) {
            (0, Some(local)) => Some((local, self.ttl())),
            (1, _) => row.expiry,
            _ => None,
        };
        OwnCell {
            timestamp,
            tombstone: None,
            expiry,
            value: self.value(column),
        }
    }

    fn push_cell(&mut self, out: &mut Vec<u8>, cell: &OwnCell, column: &Column, row: RowTimes) {
        let loose = self.spelling == Spelling::Any;
        let use_timestamp = row.timestamp == Some(cell.timestamp) && !(loose && self.rng.one_in(2));
        let use_ttl =
            cell.expiry.is_some() && cell.expiry == row.expiry && !(loose && self.rng.one_in(2));
        let spelled_empty = loose && column.fixed().is_none() && self.rng.one_in(2);
        let empty = cell.tombstone.is_some() || (cell.value.is_empty() && !spelled_empty);
        let flags = u8::from(cell.tombstone.is_some())
            | u8::from(cell.expiry.is_some()) << 1
            | u8::from(empty) << 2
            | u8::from(use_timestamp) << 3
            | u8::from(use_ttl) << 4;
        out.push(flags);
        if !use_timestamp {
            self.varint(out, cell.timestamp);
        }
        if let Some(local) = cell.tombstone {
            self.varint(out, local);
        }
        if let (Some((local, ttl)), false) = (cell.expiry, use_ttl) {
            self.varint(out, local);
            self.varint(out, ttl);
        }
        if !empty {
            self.push_value(out, &cell.value, column);
        }
    }

    /// A row at the end of `out`.
    fn row(&mut self, out: &mut Vec<u8>, is_static: bool, values: &[Vec<u8>], previous: u64) {
        let mut body = Vec::new();
        let (mut flags, times) = self.row_times(&mut body);
        flags |= self.row_cells(&mut body, is_static, times);
        if is_static {
            out.extend([flags | 0x80, 0x01]);
        } else {
            if self.spelling == Spelling::Any && self.rng.one_in(6) {
                out.extend([flags | 0x80, 0x00]);
            } else {
                out.push(flags);
            }
            self.clustering(out, values);
        }
        self.sizes(out, previous, &body);
    }

    /// Liveness and deletion; their flags.
    fn row_times(&mut self, body: &mut Vec<u8>) -> (u8, RowTimes) {
        let mut flags = 0u8;
        let mut times = RowTimes::default();
        if !self.rng.one_in(3) {
            flags |= 0x04;
            let timestamp = self.timestamp();
            self.varint(body, timestamp);
            times.timestamp = Some(timestamp);
            if let (0, Some(local)) = (self.rng.below(3), self.local()) {
                flags |= 0x08;
                let ttl = self.ttl();
                self.varint(body, ttl);
                self.varint(body, local);
                times.expiry = Some((local, ttl));
            }
        }
        if self.rng.one_in(4) {
            if let Some((mark, local)) = self.deletion() {
                flags |= 0x10;
                self.varint(body, mark);
                self.varint(body, local);
            }
        }
        (flags, times)
    }

    /// Mask and cells; the flag 20 where it is set.
    fn row_cells(&mut self, body: &mut Vec<u8>, is_static: bool, row: RowTimes) -> u8 {
        let columns: Vec<Column> = self.schema.cells_of(is_static).to_vec();
        let all = crate::data::low_bits(columns.len());
        let present = if self.rng.one_in(2) {
            all
        } else {
            self.rng.next() & all
        };
        let spelled = present != all || (self.spelling == Spelling::Any && self.rng.one_in(3));
        if spelled {
            self.varint(body, all & !present);
        }
        for (i, column) in columns.iter().enumerate() {
            if present >> i & 1 == 1 {
                let cell = self.own_cell(column, row);
                self.push_cell(body, &cell, column, row);
            }
        }
        if spelled {
            0
        } else {
            0x20
        }
    }

    fn marker(&mut self, out: &mut Vec<u8>, kind: u8, deletions: &[(u64, u64)], previous: u64) {
        let count = self.rng.index(self.schema.clustering().len() + 1);
        let values = self.clustering_values(count);
        out.extend([0x02, kind, 0, count as u8]);
        self.clustering(out, &values);
        let mut body = Vec::new();
        for &(mark, local) in deletions {
            self.varint(&mut body, mark);
            self.varint(&mut body, local);
        }
        self.sizes(out, previous, &body);
    }

    /// The clustering values of a partition's rows.
    fn row_values(&mut self, count: usize) -> Vec<Vec<Vec<u8>>> {
        let columns = self.schema.clustering().len();
        let mut rows: Vec<Vec<Vec<u8>>> = (0..count)
            .map(|_| self.clustering_values(columns))
            .collect();
        if self.sorted {
            let schema = self.schema;
            rows.sort_by(|a, b| naive_compare(schema, a, b));
            rows.dedup();
        }
        rows
    }

    /// A whole partition at the end of `out`.
    pub fn partition(&mut self, out: &mut Vec<u8>, key: &[u8], rows: usize) {
        let mut previous_at = out.len();
        self.partition_head(out, key);
        if !self.schema.statics().is_empty() && self.rng.one_in(2) {
            self.row(out, true, &[], 0);
        }
        let mut open: Option<(u64, u64)> = None;
        for values in self.row_values(rows) {
            if self.markers && self.rng.one_in(2) {
                let at = out.len();
                if self.next_marker(out, &mut open, (at - previous_at) as u64) {
                    previous_at = at;
                }
            }
            let at = out.len();
            self.row(out, false, &values, (at - previous_at) as u64);
            previous_at = at;
        }
        if let Some(end) = open {
            let kind = *self.rng.pick(&[0, 6]);
            let at = out.len();
            self.marker(out, kind, &[end], (at - previous_at) as u64);
        }
        out.push(0x01);
    }

    /// Key and deletion.
    fn partition_head(&mut self, out: &mut Vec<u8>, key: &[u8]) {
        out.extend((key.len() as u16).to_be_bytes());
        out.extend(key);
        let (mut local, mut mark) = (0x7FFF_FFFF, i64::MIN);
        if self.rng.one_in(3) {
            local = self.rng.below(2_147_483_647) as u32;
            let above = self.rng.below(self.spread) as i64;
            mark = self.bases.timestamp.saturating_add(above).max(i64::MIN + 1);
        }
        out.extend(local.to_be_bytes());
        out.extend(mark.to_be_bytes());
    }

    /// A marker that is in turn, if a deletion can be had.
    fn next_marker(
        &mut self,
        out: &mut Vec<u8>,
        open: &mut Option<(u64, u64)>,
        previous: u64,
    ) -> bool {
        let Some(new) = self.deletion() else {
            return false;
        };
        match *open {
            None => {
                let kind = *self.rng.pick(&[1, 7]);
                self.marker(out, kind, &[new], previous);
                *open = Some(new);
            }
            Some(old) if self.rng.one_in(2) => {
                let kind = *self.rng.pick(&[2, 5]);
                self.marker(out, kind, &[old, new], previous);
                *open = Some(new);
            }
            Some(old) => {
                let kind = *self.rng.pick(&[0, 6]);
                self.marker(out, kind, &[old], previous);
                *open = None;
            }
        }
        true
    }
}

/// Document 01's order of clusterings, spelled apart from the merge's.
pub fn naive_compare(schema: &Schema, a: &[Vec<u8>], b: &[Vec<u8>]) -> std::cmp::Ordering {
    use std::cmp::Ordering;
    for (i, column) in schema.clustering().iter().enumerate() {
        let order = match (a[i].as_slice(), b[i].as_slice()) {
            ([], []) => Ordering::Equal,
            ([], _) => Ordering::Less,
            (_, []) => Ordering::Greater,
            (x, y) => {
                let natural = match column.line {
                    types::INT32 => signed(x).cmp(&signed(y)),
                    types::LONG | types::TIMESTAMP => signed(x).cmp(&signed(y)),
                    _ => x.cmp(y),
                };
                if column.reversed {
                    natural.reverse()
                } else {
                    natural
                }
            }
        };
        if order != Ordering::Equal {
            return order;
        }
    }
    Ordering::Equal
}

fn signed(bytes: &[u8]) -> i64 {
    match bytes.len() {
        4 => i64::from(i32::from_be_bytes(bytes.try_into().expect("four"))),
        _ => i64::from_be_bytes(bytes.try_into().expect("eight")),
    }
}
