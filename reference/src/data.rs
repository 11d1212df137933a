//! Data: partitions, rows, markers and cells as they stand on file.

use crate::reader::Reader;
use crate::refusal::{number, Part, Refusal};
use crate::schema::{Column, Schema};

/// "The header's three varints give the bases".
#[derive(Clone, Copy, PartialEq, Eq, Debug)]
pub struct Bases {
    pub timestamp: i64,
    pub local: i32,
    pub ttl: i32,
}

impl Bases {
    /// "Every call tests 1 first, then 5 for bases"; "5 for bases handed over: 0"
    /// (DECISIONS E3).
    pub fn check(&self) -> Result<(), Refusal> {
        if self.local < 0 || self.ttl < 0 {
            return Err(Refusal::new(number::OUT_OF_RANGE, Part::Bases, 0));
        }
        Ok(())
    }

    /// "its bases the least of each kind given"
    pub fn least(self, other: Bases) -> Bases {
        Bases {
            timestamp: self.timestamp.min(other.timestamp),
            local: self.local.min(other.local),
            ttl: self.ttl.min(other.ttl),
        }
    }
}

/// "local deletion time 0 to 2147483646"
pub const MOST_LOCAL: u32 = 2_147_483_646;
/// "TTL 1 to 2147483647"
pub const MOST_TTL: u32 = 2_147_483_647;

/// "timestamp and deletion mark -2^63+1 to 2^63-1"
#[inline]
pub fn is_timestamp(value: i64) -> bool {
    value != i64::MIN
}

#[inline]
pub fn is_local(value: u32) -> bool {
    value <= MOST_LOCAL
}

#[inline]
pub fn is_ttl(value: u32) -> bool {
    (1..=MOST_TTL).contains(&value)
}

// The derived orders below are document 01's: fields compare from the first,
// nothing (`None`) is least, and of an enum's variants the later is greater.

/// "Deletions: greater mark, then later local time; live is least" (`None`).
#[derive(Clone, Copy, PartialEq, Eq, PartialOrd, Ord, Debug)]
pub struct Deletion {
    pub mark: i64,
    pub local: u32,
}

/// "later expiry, greater TTL"
#[derive(Clone, Copy, PartialEq, Eq, PartialOrd, Ord, Debug)]
pub struct Expiry {
    pub local: u32,
    pub ttl: u32,
}

/// "Liveness: the same without values": timestamp, "then expiring over not".
#[derive(Clone, Copy, PartialEq, Eq, PartialOrd, Ord, Debug)]
pub struct Liveness {
    pub timestamp: i64,
    pub expiry: Option<Expiry>,
}

/// "Cells: greater timestamp; then ..." what it holds.
#[derive(Clone, Copy, PartialEq, Eq, PartialOrd, Ord, Debug)]
pub struct Cell<'a> {
    pub timestamp: i64,
    pub content: Content<'a>,
}

/// "a tombstone over a value; two tombstones by later local time; two values by
/// greater unsigned bytes, then expiring over not, later expiry, greater TTL."
#[derive(Clone, Copy, PartialEq, Eq, PartialOrd, Ord, Debug)]
pub enum Content<'a> {
    Value {
        bytes: &'a [u8],
        expiry: Option<Expiry>,
    },
    Tombstone {
        local: u32,
    },
}

// Row flags.
pub const END: u8 = 0x01;
pub const MARKER: u8 = 0x02;
pub const ROW_TIMESTAMP: u8 = 0x04;
pub const ROW_TTL: u8 = 0x08;
pub const ROW_DELETION: u8 = 0x10;
pub const ALL_COLUMNS: u8 = 0x20;
pub const COMPLEX_DELETION: u8 = 0x40;
pub const EXTENDED: u8 = 0x80;

// Cell flags.
pub const TOMBSTONE: u8 = 0x01;
pub const EXPIRING: u8 = 0x02;
pub const EMPTY: u8 = 0x04;
pub const USE_ROW_TIMESTAMP: u8 = 0x08;
pub const USE_ROW_TTL: u8 = 0x10;

/// A table's Data, with what is needed to read it.
#[derive(Clone, Copy)]
pub struct Source<'a> {
    pub schema: &'a Schema,
    pub bases: Bases,
    pub data: &'a [u8],
}

/// A partition's first fields.
#[derive(Clone, Copy, Debug)]
pub struct PartitionHead<'a> {
    pub key: &'a [u8],
    pub key_at: usize,
    /// `None` is live.
    pub deletion: Option<Deletion>,
    /// The byte after the header.
    pub next: usize,
}

/// A row up to its cells.
#[derive(Clone, Copy, Debug)]
pub struct RowHead {
    pub at: usize,
    pub is_static: bool,
    pub clustering_header: u64,
    /// The first clustering value.
    pub clustering_at: usize,
    pub liveness: Option<Liveness>,
    pub deletion: Option<Deletion>,
    /// A bit for each column that has a cell.
    pub present: u64,
    /// The first cell.
    pub cells_at: usize,
    pub body_end: usize,
}

/// A whole range marker.
#[derive(Clone, Copy, Debug)]
pub struct MarkerHead {
    pub at: usize,
    pub kind: u8,
    pub count: u8,
    pub clustering_header: u64,
    pub clustering_at: usize,
    /// "one deletion, or end then start for 2 and 5"
    pub first: Deletion,
    pub second: Option<Deletion>,
    pub body_end: usize,
}

impl MarkerHead {
    /// The range that is open behind this marker.
    pub fn open_after(&self) -> Option<Deletion> {
        match self.kind {
            1 | 7 => Some(self.first),
            _ => self.second,
        }
    }
}

/// What stands where an item is due.
#[derive(Clone, Copy, Debug)]
pub enum Head {
    Row(RowHead),
    Marker(MarkerHead),
    End { at: usize },
}

/// "two bits a column from the lowest, empty then null"
#[inline]
pub fn is_empty_in(header: u64, column: usize) -> bool {
    (header >> (2 * column)) & 1 == 1
}

/// Bits below `count`; `count` is at most 64.
#[inline]
pub fn low_bits(count: usize) -> u64 {
    if count >= 64 {
        u64::MAX
    } else {
        (1 << count) - 1
    }
}

const NULL_BITS: u64 = 0xAAAA_AAAA_AAAA_AAAA;

/// "null is refused (a marker's count gives its prefix), as are bits above the
/// columns." (DECISIONS D6)
#[inline]
pub fn is_clustering_header(header: u64, columns: usize) -> bool {
    header & (NULL_BITS | !low_bits(2 * columns)) == 0
}

/// "kind (0 exclusive end, 1 inclusive start, 2 exclusive end with inclusive
/// start, 5 inclusive end with exclusive start, 6 inclusive end, 7 exclusive
/// start)"
pub fn is_marker_kind(kind: u8) -> bool {
    matches!(kind, 0 | 1 | 2 | 5 | 6 | 7)
}

pub fn is_start(kind: u8) -> bool {
    matches!(kind, 1 | 7)
}

pub fn is_boundary(kind: u8) -> bool {
    matches!(kind, 2 | 5)
}

impl<'a> Source<'a> {
    #[inline]
    pub fn reader(&self, at: usize) -> Reader<'a> {
        Reader::new(self.data, at, Part::Data)
    }

    /// A reader from `at` to `end`; both lie in Data.
    #[inline]
    pub fn reader_to(&self, at: usize, end: usize) -> Reader<'a> {
        Reader::new(&self.data[..end], at, Part::Data)
    }

    /// "A partition: 16-bit key length, key, local deletion time (32), mark
    /// (64)".
    pub fn partition_head(&self, at: usize) -> Result<PartitionHead<'a>, Refusal> {
        let mut reader = self.reader(at);
        let len = reader.u16()?;
        let key_at = reader.at();
        let key = reader.announced(u64::from(len), at)?;
        let deletion = read_partition_deletion(&mut reader)?;
        Ok(PartitionHead {
            key,
            key_at,
            deletion,
            next: reader.at(),
        })
    }

    /// A row, a marker or the end byte.  `first` holds right behind the
    /// partition's header; `open` is the open range's deletion.
    #[inline]
    pub fn head(&self, at: usize, first: bool, open: Option<Deletion>) -> Result<Head, Refusal> {
        self.head_with(at, first, open, |_, _| {})
    }

    /// As [`Source::head`]; each clustering value, with its end, goes to `sink`.
    #[inline]
    pub fn head_with(
        &self,
        at: usize,
        first: bool,
        open: Option<Deletion>,
        sink: impl FnMut(&'a [u8], usize),
    ) -> Result<Head, Refusal> {
        let mut reader = self.reader(at);
        let flags = reader.u8()?;
        if flags == END {
            // "the partition ends closed"; 6 at the "end byte"
            return match open {
                None => Ok(Head::End { at }),
                Some(_) => Err(reader.refuse(number::OUT_OF_TURN, at)),
            };
        }
        if flags == MARKER {
            return self.marker(reader, at, open, sink).map(Head::Marker);
        }
        if !is_row_flags(flags) {
            return Err(reader.refuse(number::BAD_FLAGS, at));
        }
        self.row(reader, flags, first, sink).map(Head::Row)
    }

    #[inline]
    fn row(
        &self,
        mut reader: Reader<'a>,
        flags: u8,
        first: bool,
        sink: impl FnMut(&'a [u8], usize),
    ) -> Result<RowHead, Refusal> {
        let at = reader.at() - 1;
        let is_static = flags & EXTENDED != 0 && self.extended(&mut reader, first)?;
        let columns = if is_static {
            &[]
        } else {
            self.schema.clustering()
        };
        let clustering_header = read_clustering_header(&mut reader, columns.len())?;
        let clustering_at = reader.at();
        read_clustering(&mut reader, clustering_header, columns, sink)?;
        let mut body = read_body(&mut reader)?;
        let liveness = self.liveness(&mut body, flags)?;
        let deletion = self.row_deletion(&mut body, flags)?;
        let present = self.present(&mut body, flags, is_static)?;
        Ok(RowHead {
            at,
            is_static,
            clustering_header,
            clustering_at,
            liveness,
            deletion,
            present,
            cells_at: body.at(),
            body_end: body.end(),
        })
    }

    /// "Extended: 00 nothing, 01 static, 02 and 80 shadowable (7), others bad.
    /// A static row stands first and only where static columns exist."
    /// (DECISIONS D4, D5)
    fn extended(&self, reader: &mut Reader, first: bool) -> Result<bool, Refusal> {
        let at = reader.at();
        match reader.u8()? {
            0x00 => Ok(false),
            0x01 if first && !self.schema.statics().is_empty() => Ok(true),
            0x01 => Err(reader.refuse(number::OUT_OF_TURN, at)),
            0x02 | 0x80 => Err(reader.refuse(number::NOT_CARRIED, at)),
            _ => Err(reader.refuse(number::BAD_FLAGS, at)),
        }
    }

    /// "liveness (timestamp, TTL, local deletion time)"
    #[inline]
    fn liveness(&self, body: &mut Reader, flags: u8) -> Result<Option<Liveness>, Refusal> {
        if flags & ROW_TIMESTAMP == 0 {
            return Ok(None);
        }
        let timestamp = self.timestamp(body)?;
        let expiry = if flags & ROW_TTL != 0 {
            let ttl = self.ttl(body)?;
            let local = self.local(body)?;
            Some(Expiry { local, ttl })
        } else {
            None
        };
        Ok(Some(Liveness { timestamp, expiry }))
    }

    #[inline]
    fn row_deletion(&self, body: &mut Reader, flags: u8) -> Result<Option<Deletion>, Refusal> {
        if flags & ROW_DELETION == 0 {
            return Ok(None);
        }
        self.deletion(body).map(Some)
    }

    /// "missing-column mask unless 20 is set (a varint, lowest bit the first
    /// column, 1 for missing, no bit above the columns)"
    #[inline]
    fn present(&self, body: &mut Reader, flags: u8, is_static: bool) -> Result<u64, Refusal> {
        let all = low_bits(self.schema.cells_of(is_static).len());
        if flags & ALL_COLUMNS != 0 {
            return Ok(all);
        }
        let at = body.at();
        let missing = body.varint()?;
        if missing & !all != 0 {
            return Err(body.refuse(number::BAD_FLAGS, at));
        }
        Ok(all & !missing)
    }

    /// "Marker: kind ..., 16-bit count, prefix, sizes, one deletion, or end then
    /// start for 2 and 5."
    fn marker(
        &self,
        mut reader: Reader<'a>,
        at: usize,
        open: Option<Deletion>,
        sink: impl FnMut(&'a [u8], usize),
    ) -> Result<MarkerHead, Refusal> {
        let kind = read_marker_kind(&mut reader, open)?;
        let count = self.marker_count(&mut reader)?;
        let prefix = &self.schema.clustering()[..count];
        let clustering_header = read_clustering_header(&mut reader, count)?;
        let clustering_at = reader.at();
        read_clustering(&mut reader, clustering_header, prefix, sink)?;
        let mut body = read_body(&mut reader)?;
        let deletion_at = body.at();
        let first = self.deletion(&mut body)?;
        // "an end or boundary an open range with that same deletion"
        if !is_start(kind) && open != Some(first) {
            return Err(body.refuse(number::OUT_OF_TURN, deletion_at));
        }
        let second = if is_boundary(kind) {
            Some(self.deletion(&mut body)?)
        } else {
            None
        };
        body.filled()?;
        Ok(MarkerHead {
            at,
            kind,
            count: count as u8,
            clustering_header,
            clustering_at,
            first,
            second,
            body_end: body.end(),
        })
    }

    /// "marker count above the columns included" in 5.
    fn marker_count(&self, reader: &mut Reader) -> Result<usize, Refusal> {
        let at = reader.at();
        let count = usize::from(reader.u16()?);
        if count > self.schema.clustering().len() {
            return Err(reader.refuse(number::OUT_OF_RANGE, at));
        }
        Ok(count)
    }

    /// One cell of `column`: "Cell flags and fields as in 002."
    #[inline]
    pub fn cell(
        &self,
        body: &mut Reader<'a>,
        liveness: Option<Liveness>,
        column: &Column,
    ) -> Result<Cell<'a>, Refusal> {
        let at = body.at();
        let flags = body.u8()?;
        let row_expiry = liveness.and_then(|l| l.expiry);
        if !is_cell_flags(flags, liveness.is_some(), row_expiry.is_some()) {
            return Err(body.refuse(number::BAD_FLAGS, at));
        }
        let timestamp = match liveness {
            Some(row) if flags & USE_ROW_TIMESTAMP != 0 => row.timestamp,
            _ => self.timestamp(body)?,
        };
        if flags & TOMBSTONE != 0 {
            let local = self.local(body)?;
            return Ok(Cell {
                timestamp,
                content: Content::Tombstone { local },
            });
        }
        let expiry = self.cell_expiry(body, flags, row_expiry)?;
        let bytes = if flags & EMPTY != 0 {
            &[][..]
        } else {
            read_value(body, column)?
        };
        Ok(Cell {
            timestamp,
            content: Content::Value { bytes, expiry },
        })
    }

    /// 002's order: local deletion time, then TTL.
    #[inline]
    fn cell_expiry(
        &self,
        body: &mut Reader,
        flags: u8,
        row: Option<Expiry>,
    ) -> Result<Option<Expiry>, Refusal> {
        if flags & EXPIRING == 0 {
            return Ok(None);
        }
        if flags & USE_ROW_TTL != 0 {
            return Ok(row);
        }
        let local = self.local(body)?;
        let ttl = self.ttl(body)?;
        Ok(Some(Expiry { local, ttl }))
    }

    /// "deletion (mark, local time)"
    fn deletion(&self, reader: &mut Reader) -> Result<Deletion, Refusal> {
        let mark = self.timestamp(reader)?;
        let local = self.local(reader)?;
        Ok(Deletion { mark, local })
    }

    // "Deltas in Data add to a base exactly. Sums ... must lie: ..."

    #[inline]
    fn timestamp(&self, reader: &mut Reader) -> Result<i64, Refusal> {
        let at = reader.at();
        let delta = reader.varint()?;
        match self.bases.timestamp.checked_add_unsigned(delta) {
            Some(sum) if is_timestamp(sum) => Ok(sum),
            _ => Err(reader.refuse(number::OUT_OF_RANGE, at)),
        }
    }

    #[inline]
    fn local(&self, reader: &mut Reader) -> Result<u32, Refusal> {
        let at = reader.at();
        match add_small(self.bases.local, reader.varint()?) {
            Some(sum) if is_local(sum) => Ok(sum),
            _ => Err(reader.refuse(number::OUT_OF_RANGE, at)),
        }
    }

    #[inline]
    fn ttl(&self, reader: &mut Reader) -> Result<u32, Refusal> {
        let at = reader.at();
        match add_small(self.bases.ttl, reader.varint()?) {
            Some(sum) if is_ttl(sum) => Ok(sum),
            _ => Err(reader.refuse(number::OUT_OF_RANGE, at)),
        }
    }
}

/// A 32-bit base, not negative, plus a delta, where that fits 32 bits.
#[inline]
fn add_small(base: i32, delta: u64) -> Option<u32> {
    u32::try_from(delta).ok()?.checked_add(base as u32)
}

/// "live is exactly 7FFFFFFF and -2^63"; "a partition's deletion unless live,
/// must lie" in the ranges (DECISIONS D1).
fn read_partition_deletion(reader: &mut Reader) -> Result<Option<Deletion>, Refusal> {
    let local_at = reader.at();
    let local = reader.u32()?;
    if local > MOST_TTL {
        // Negative: neither live nor in range, whatever follows.
        return Err(reader.refuse(number::OUT_OF_RANGE, local_at));
    }
    let mark_at = reader.at();
    let mark = reader.u64()? as i64;
    match (is_local(local), is_timestamp(mark)) {
        (true, true) => Ok(Some(Deletion { mark, local })),
        (false, false) => Ok(None),
        (false, true) => Err(reader.refuse(number::OUT_OF_RANGE, local_at)),
        (true, false) => Err(reader.refuse(number::OUT_OF_RANGE, mark_at)),
    }
}

/// "01 end (alone), 02 marker (alone), ... 08 TTL (only with 04), ... 40
/// complex deletion (bad here)": of a row.
#[inline]
fn is_row_flags(flags: u8) -> bool {
    let ttl_alone = flags & (ROW_TIMESTAMP | ROW_TTL) == ROW_TTL;
    flags & (END | MARKER | COMPLEX_DELETION) == 0 && !ttl_alone
}

/// "Refused: bits above 1F; 01 with 02; 01 without 04; 08 without row
/// timestamp; 10 without row TTL or on a cell not expiring."
#[inline]
fn is_cell_flags(flags: u8, row_timestamp: bool, row_ttl: bool) -> bool {
    let has = |bit: u8| flags & bit != 0;
    flags <= 0x1F
        && !(has(TOMBSTONE) && (has(EXPIRING) || !has(EMPTY)))
        && (!has(USE_ROW_TIMESTAMP) || row_timestamp)
        && (!has(USE_ROW_TTL) || (row_ttl && has(EXPIRING)))
}

/// 4 for a kind that is none, then 6: "A start needs nothing open, an end or
/// boundary an open range" (DECISIONS D7).
fn read_marker_kind(reader: &mut Reader, open: Option<Deletion>) -> Result<u8, Refusal> {
    let at = reader.at();
    let kind = reader.u8()?;
    if !is_marker_kind(kind) {
        return Err(reader.refuse(number::BAD_FLAGS, at));
    }
    if is_start(kind) == open.is_some() {
        return Err(reader.refuse(number::OUT_OF_TURN, at));
    }
    Ok(kind)
}

/// "Clustering header (none for no columns)".
#[inline]
fn read_clustering_header(reader: &mut Reader, columns: usize) -> Result<u64, Refusal> {
    if columns == 0 {
        return Ok(0);
    }
    let at = reader.at();
    let header = reader.varint()?;
    if !is_clustering_header(header, columns) {
        return Err(reader.refuse(number::BAD_FLAGS, at));
    }
    Ok(header)
}

#[inline]
fn read_clustering<'a>(
    reader: &mut Reader<'a>,
    header: u64,
    columns: &[Column],
    mut sink: impl FnMut(&'a [u8], usize),
) -> Result<(), Refusal> {
    for (i, column) in columns.iter().enumerate() {
        let value = read_clustering_value(reader, header, i, column)?;
        sink(value, reader.at());
    }
    Ok(())
}

/// One clustering value, empty where the header says so.
#[inline]
pub fn read_clustering_value<'a>(
    reader: &mut Reader<'a>,
    header: u64,
    index: usize,
    column: &Column,
) -> Result<&'a [u8], Refusal> {
    if is_empty_in(header, index) {
        return Ok(&[]);
    }
    read_value(reader, column)
}

/// "Variable-width values, clustering too, follow their varint length; 0 is an
/// empty value."
#[inline]
fn read_value<'a>(reader: &mut Reader<'a>, column: &Column) -> Result<&'a [u8], Refusal> {
    match column.fixed() {
        Some(width) => reader.field(width),
        None => reader.varint_announced(),
    }
}

/// "Body size counts the bytes after its own varint, the previous-size varint
/// included. Previous size is read and not checked".  The body, behind the
/// previous size, as a region.
#[inline]
fn read_body<'a>(reader: &mut Reader<'a>) -> Result<Reader<'a>, Refusal> {
    let size_at = reader.at();
    let size = reader.varint()?;
    let mut body = reader.region(size, size_at)?;
    body.varint()?;
    Ok(body)
}
