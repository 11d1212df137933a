//! Reconciling two partitions.

use std::cmp::Ordering;

use crate::data::{
    low_bits, Bases, Cell, Content, Deletion, Expiry, Head, Liveness, PartitionHead, RowHead,
    Source,
};
use crate::encode::{Encoder, RowImage};
use crate::record::{self, Record};
use crate::refusal::{number, test_limit, test_room, Part, Refusal, Side};
use crate::schema::{Column, Schema};
use crate::types;

/// "each partition is lent alone, beside the Statistics in which its schema's
/// names stand"
#[derive(Clone, Copy)]
pub struct Table<'a> {
    pub statistics: &'a [u8],
    pub schema: &'a [u8],
    pub bases: Bases,
    pub data: &'a [u8],
}

/// Merges the partition of `a` with that of `b` into at most `output` bytes.
///
/// "The merge: 10, 11 for schemas, 7 for an unordered type, A read, B read ...,
/// 11 for keys, 12, 9 unless rows rise strictly, each A first, 13."
pub fn merge(a: Table, b: Table, output: usize) -> Result<(Vec<u8>, Bases), Refusal> {
    // "Every call tests 1 first, then 5 for bases."
    test_limits(&a).map_err(|r| r.on(Side::A))?;
    test_limits(&b).map_err(|r| r.on(Side::B))?;
    test_limit(Part::Output, output)?;
    a.bases.check().map_err(|r| r.on(Side::A))?;
    b.bases.check().map_err(|r| r.on(Side::B))?;
    let schema = check_schemas(&a, &b)?;

    let source_a = Source {
        schema: &schema,
        bases: a.bases,
        data: a.data,
    };
    let source_b = Source {
        schema: &schema,
        bases: b.bases,
        data: b.data,
    };
    let bases = a.bases.least(b.bases);
    let Some(out) = Merger::new(&schema, bases).run(&source_a, &source_b) else {
        // Something is to be refused: find out what comes first.
        check_carefully(&source_a, &source_b)?;
        unreachable!("the merge stops at refusals alone");
    };
    debug_assert!(check_carefully(&source_a, &source_b).is_ok());
    test_room(out.len(), output)?;
    Ok((out, bases))
}

/// "A read, B read ..., 11 for keys, 12, 9 unless rows rise strictly, each A
/// first": the first refusal of two partitions, if there is one.
#[cold]
fn check_carefully(source_a: &Source, source_b: &Source) -> Result<(), Refusal> {
    let a = read_partition(source_a).map_err(|r| r.on(Side::A))?;
    let b = read_partition(source_b).map_err(|r| r.on(Side::B))?;
    check_partitions(&a, &b)
}

fn test_limits(table: &Table) -> Result<(), Refusal> {
    test_limit(Part::Statistics, table.statistics.len())?;
    test_limit(Part::Schema, table.schema.len())?;
    test_limit(Part::Data, table.data.len())
}

/// "10, 11 for schemas, 7 for an unordered type" (DECISIONS M1, E7).
fn check_schemas(a: &Table, b: &Table) -> Result<Schema, Refusal> {
    let schema_a = Schema::check_with_names(a.schema, a.statistics).map_err(|r| r.on(Side::A))?;
    let schema_b = Schema::check_with_names(b.schema, b.statistics).map_err(|r| r.on(Side::B))?;
    if !schema_a.equals(a.statistics, &schema_b, b.statistics) {
        return Err(Refusal::new(number::DIFFER, Part::Schema, 0).on(Side::A));
    }
    if let Some(place) = schema_a.first_unordered() {
        return Err(Refusal::new(number::NOT_CARRIED, Part::Schema, place).on(Side::A));
    }
    Ok(schema_a)
}

/// "11 for keys, 12, 9 unless rows rise strictly, each A first" (DECISIONS M5).
fn check_partitions(a: &Partition, b: &Partition) -> Result<(), Refusal> {
    if a.head.key != b.head.key {
        return Err(Refusal::new(number::DIFFER, Part::Data, 0).on(Side::A));
    }
    let sides = [(Side::A, a), (Side::B, b)];
    for (side, partition) in sides {
        if let Some(at) = partition.first_marker {
            return Err(Refusal::new(number::MARKER_IN_MERGE, Part::Data, at).on(side));
        }
    }
    for (side, partition) in sides {
        if let Some(at) = partition.first_unrisen {
            return Err(Refusal::new(number::TWICE_OR_UNORDERED, Part::Data, at).on(side));
        }
    }
    Ok(())
}

/// A row with its values and cells.
#[derive(Clone)]
struct Row<'a> {
    clustering: Vec<&'a [u8]>,
    liveness: Option<Liveness>,
    deletion: Option<Deletion>,
    present: u64,
    /// By column; only those of `present` count.
    cells: Vec<Cell<'a>>,
    next: usize,
}

const NO_CELL: Cell = Cell {
    timestamp: 0,
    content: Content::Value {
        bytes: &[],
        expiry: None,
    },
};

impl<'a> Row<'a> {
    fn new() -> Row<'a> {
        Row {
            clustering: Vec::with_capacity(32),
            liveness: None,
            deletion: None,
            present: 0,
            cells: vec![NO_CELL; 63],
            next: 0,
        }
    }

    /// Takes the row that `head` begins, whose clustering values are read
    /// already, and reads its cells.
    #[inline]
    fn load(&mut self, source: &Source<'a>, head: &RowHead) -> Result<(), Refusal> {
        self.liveness = head.liveness;
        self.deletion = head.deletion;
        self.present = head.present;
        self.next = head.body_end;
        self.load_cells(source, head)
    }

    #[inline]
    fn load_cells(&mut self, source: &Source<'a>, head: &RowHead) -> Result<(), Refusal> {
        let columns = source.schema.cells_of(head.is_static);
        let mut body = source.reader_to(head.cells_at, head.body_end);
        let mut left = head.present;
        while left != 0 {
            let index = left.trailing_zeros() as usize;
            self.cells[index] = source.cell(&mut body, head.liveness, &columns[index])?;
            left &= left - 1;
        }
        body.filled()
    }
}

/// What reading one partition finds.
struct Partition<'a> {
    head: PartitionHead<'a>,
    first_marker: Option<usize>,
    /// The first row that is not above the row before it.
    first_unrisen: Option<usize>,
}

/// Reads the one partition of a table: "(no partition: 2 at 0; a second: 3 at
/// it)".
fn read_partition<'a>(source: &Source<'a>) -> Result<Partition<'a>, Refusal> {
    let head = source.partition_head(0)?;
    let mut partition = Partition {
        head,
        first_marker: None,
        first_unrisen: None,
    };
    let (mut at, mut first, mut open) = (head.next, true, None);
    let mut row = Row::new();
    let mut before: Option<Vec<&[u8]>> = None;
    loop {
        row.clustering.clear();
        match source.head_with(at, first, open, |value, _| row.clustering.push(value))? {
            Head::End { at } => {
                source.reader(at + 1).filled()?;
                return Ok(partition);
            }
            Head::Marker(marker) => {
                partition.first_marker.get_or_insert(marker.at);
                open = marker.open_after();
                at = marker.body_end;
            }
            Head::Row(head) => {
                row.load(source, &head)?;
                at = head.body_end;
                if !head.is_static {
                    let values = std::mem::take(&mut row.clustering);
                    if before.is_some_and(|b| compare(source.schema, &b, &values).is_ge()) {
                        partition.first_unrisen.get_or_insert(head.at);
                    }
                    before = Some(values);
                }
            }
        }
        first = false;
    }
}

/// "the first unlike column decides"
#[inline]
fn compare(schema: &Schema, a: &[&[u8]], b: &[&[u8]]) -> Ordering {
    for ((column, a), b) in schema.clustering().iter().zip(a).zip(b) {
        let order = compare_values(column, a, b);
        if order.is_ne() {
            return order;
        }
    }
    Ordering::Equal
}

/// "Reversed turned round; empty before all in both" (DECISIONS M7).
#[inline]
fn compare_values(column: &Column, a: &[u8], b: &[u8]) -> Ordering {
    if a.is_empty() || b.is_empty() {
        return b.is_empty().cmp(&a.is_empty());
    }
    let order = match column.line {
        // "Int32, Long, Timestamp (signed)": both have the type's width.
        types::INT32 | types::LONG | types::TIMESTAMP => compare_signed(a, b),
        // "Boolean, Ascii, UTF8, Bytes (unsigned, a prefix first, ...)"
        _ => a.cmp(b),
    };
    if column.reversed {
        order.reverse()
    } else {
        order
    }
}

/// Big-endian two's complement numbers of one width.
#[inline]
fn compare_signed(a: &[u8], b: &[u8]) -> Ordering {
    (a[0] as i8)
        .cmp(&(b[0] as i8))
        .then_with(|| a[1..].cmp(&b[1..]))
}

/// The greater of two cells of a column, "the first on a full tie".
#[inline]
pub fn reconcile_cells<'a>(a: Cell<'a>, b: Cell<'a>) -> Cell<'a> {
    if b > a {
        b
    } else {
        a
    }
}

/// The same over two cell records, each with the slice that its place is in:
/// whose value it is, and the value as a part of that slice.  A place outside
/// its slice shows the empty part, as a tombstone does (DECISIONS M13).
pub fn reconcile_items<'a>(
    a: (&Record, &'a [u8]),
    b: (&Record, &'a [u8]),
) -> Result<(Side, &'a [u8]), Refusal> {
    test_limit(Part::Data, a.1.len()).map_err(|r| r.on(Side::A))?;
    test_limit(Part::Data, b.1.len()).map_err(|r| r.on(Side::B))?;
    let (cell_a, cell_b) = (cell_of(a.0, a.1), cell_of(b.0, b.1));
    let (side, winner) = if cell_b > cell_a {
        (Side::B, cell_b)
    } else {
        (Side::A, cell_a)
    };
    Ok(match winner.content {
        Content::Value { bytes, .. } => (side, bytes),
        Content::Tombstone { .. } => (side, &[]),
    })
}

fn cell_of<'a>(record: &Record, data: &'a [u8]) -> Cell<'a> {
    let content = if record.flags & record::HAS_DELETION != 0 {
        Content::Tombstone {
            local: record.local,
        }
    } else {
        let bytes = record.part_of(data).unwrap_or(&[]);
        let expires = record.flags & record::HAS_TTL != 0;
        let expiry = Expiry {
            local: record.expiry,
            ttl: record.ttl,
        };
        Content::Value {
            bytes,
            expiry: expires.then_some(expiry),
        }
    };
    Cell {
        timestamp: record.timestamp,
        content,
    }
}

/// Rows of one side, in order.  `None` from any call says that something in
/// the partition is to be refused.
struct Rows<'s, 'a> {
    source: &'s Source<'a>,
    row: Row<'a>,
    /// The clustering of the row before.
    before: Vec<&'a [u8]>,
    /// Whether `row` holds a row that is still to be taken.
    has_row: bool,
}

impl<'s, 'a> Rows<'s, 'a> {
    /// Starts behind the partition's header; the static row is handed back
    /// apart.
    fn start(
        source: &'s Source<'a>,
        head: &PartitionHead,
    ) -> Option<(Rows<'s, 'a>, Option<Row<'a>>)> {
        let mut rows = Rows {
            source,
            row: Row::new(),
            before: Vec::with_capacity(32),
            has_row: false,
        };
        if !rows.read(head.next, true)? {
            return Some((rows, None));
        }
        let fixed = rows.row.clone();
        rows.read(fixed.next, false)?;
        Some((rows, Some(fixed)))
    }

    /// Reads the item at `at`; true for a static row.
    #[inline]
    fn read(&mut self, at: usize, first: bool) -> Option<bool> {
        let values = &mut self.row.clustering;
        values.clear();
        match self
            .source
            .head_with(at, first, None, |value, _| values.push(value))
            .ok()?
        {
            Head::Row(head) => {
                self.row.load(self.source, &head).ok()?;
                self.has_row = true;
                Some(head.is_static)
            }
            Head::Marker(_) => None,
            Head::End { at } => {
                self.has_row = false;
                (at + 1 == self.source.data.len()).then_some(false)
            }
        }
    }

    /// Goes on to the next row, which must be above this one.
    #[inline]
    fn advance(&mut self) -> Option<()> {
        std::mem::swap(&mut self.before, &mut self.row.clustering);
        self.read(self.row.next, false)?;
        let rises = !self.has_row
            || compare(self.source.schema, &self.before, &self.row.clustering).is_lt();
        rises.then_some(())
    }
}

/// Writes the reconciled partition.
struct Merger<'s> {
    schema: &'s Schema,
    encoder: Encoder,
    deletion: Option<Deletion>,
}

impl<'s> Merger<'s> {
    fn new(schema: &'s Schema, bases: Bases) -> Merger<'s> {
        Merger {
            schema,
            encoder: Encoder::new(bases),
            deletion: None,
        }
    }

    /// A two-way merge over the sorted rows, or nothing where the partitions
    /// can't be merged.
    fn run<'a>(mut self, source_a: &Source<'a>, source_b: &Source<'a>) -> Option<Vec<u8>> {
        let head_a = source_a.partition_head(0).ok()?;
        let head_b = source_b.partition_head(0).ok()?;
        if head_a.key != head_b.key {
            return None;
        }
        self.encoder
            .out
            .reserve(source_a.data.len() + source_b.data.len());
        // "their key, the greatest partition deletion"
        self.deletion = head_a.deletion.max(head_b.deletion);
        self.encoder.partition(head_a.key, self.deletion);
        let (rows_a, static_a) = Rows::start(source_a, &head_a)?;
        let (rows_b, static_b) = Rows::start(source_b, &head_b)?;
        self.static_row(static_a, static_b);
        self.rows(rows_a, rows_b)?;
        self.encoder.end();
        Some(self.encoder.out)
    }

    fn rows<'a>(&mut self, mut a: Rows<'_, 'a>, mut b: Rows<'_, 'a>) -> Option<()> {
        while a.has_row || b.has_row {
            let order = self.next(&a, &b);
            if order.is_gt() {
                self.put(&mut b.row, false);
                b.advance()?;
                continue;
            }
            if order.is_eq() {
                reconcile_rows(&mut a.row, &b.row);
                b.advance()?;
            }
            self.put(&mut a.row, false);
            a.advance()?;
        }
        Some(())
    }

    /// Which side's row is next; one of them has a row.
    #[inline]
    fn next(&self, a: &Rows, b: &Rows) -> Ordering {
        match (a.has_row, b.has_row) {
            (true, true) => compare(self.schema, &a.row.clustering, &b.row.clustering),
            (true, false) => Ordering::Less,
            _ => Ordering::Greater,
        }
    }

    fn static_row<'a>(&mut self, a: Option<Row<'a>>, b: Option<Row<'a>>) {
        let merged = match (a, b) {
            (Some(mut a), Some(b)) => {
                reconcile_rows(&mut a, &b);
                Some(a)
            }
            (a, b) => a.or(b),
        };
        if let Some(mut row) = merged {
            self.put(&mut row, true);
        }
    }

    /// Drops what deletions cover and writes what is left of a row.
    #[inline]
    fn put(&mut self, row: &mut Row, is_static: bool) {
        drop_covered(row, self.deletion);
        // "rows left with nothing go, static too"
        if row.liveness.is_none() && row.deletion.is_none() && row.present == 0 {
            return;
        }
        let image = RowImage {
            is_static,
            clustering: &row.clustering,
            liveness: row.liveness,
            deletion: row.deletion,
            present: row.present,
            cells: &row.cells,
        };
        self.encoder.row(
            &image,
            self.schema.clustering(),
            self.schema.cells_of(is_static),
        );
    }
}

/// "the greatest row deletion, liveness and cell of each column", into `a`.
#[inline]
fn reconcile_rows<'a>(a: &mut Row<'a>, b: &Row<'a>) {
    a.deletion = a.deletion.max(b.deletion);
    a.liveness = a.liveness.max(b.liveness);
    let mut left = b.present;
    while left != 0 {
        let index = left.trailing_zeros() as usize;
        a.cells[index] = if a.present >> index & 1 == 1 {
            reconcile_cells(a.cells[index], b.cells[index])
        } else {
            b.cells[index]
        };
        left &= left - 1;
    }
    a.present |= b.present;
}

/// "Then row deletions not above the partition's in that order go; cells and
/// liveness with timestamp at or below the mark of a deletion over them go".
#[inline]
fn drop_covered(row: &mut Row, partition: Option<Deletion>) {
    if row.deletion <= partition {
        row.deletion = None;
    }
    let over = row.deletion.max(partition);
    let Some(Deletion { mark, .. }) = over else {
        return;
    };
    row.liveness = row.liveness.filter(|l| l.timestamp > mark);
    let mut left = row.present;
    while left != 0 {
        let index = left.trailing_zeros() as usize;
        if row.cells[index].timestamp <= mark {
            row.present &= !(1 << index);
        }
        left &= left - 1;
    }
    debug_assert_eq!(row.present & !low_bits(63), 0);
}
