//! The writer: Data from records.

use crate::data::{
    self, is_local, is_marker_kind, is_start, is_timestamp, is_ttl, Bases, Cell, Content, Deletion,
    Expiry, Liveness,
};
use crate::encode::{Encoder, RowImage};
use crate::record::{self, Record};
use crate::refusal::{number, test_limit, test_room, Part, Refusal};
use crate::schema::Schema;

/// Writes `records` as Data; values are parts of `bytes`, and the output must
/// fit in `output` bytes.
pub fn write_data(
    schema: &[u8],
    bases: Bases,
    records: &[u8],
    bytes: &[u8],
    output: usize,
) -> Result<Vec<u8>, Refusal> {
    test_limit(Part::Schema, schema.len())?;
    test_limit(Part::Records, records.len())?;
    test_limit(Part::Bytes, bytes.len())?;
    test_limit(Part::Output, output)?;
    bases.check()?;
    let schema = Schema::check(schema)?;
    let mut writer = Writer::new(&schema, bases, bytes);
    for (i, chunk) in records.chunks(record::LEN).enumerate() {
        writer.take(chunk, i * record::LEN, records.len())?;
    }
    if writer.due != Due::Partition {
        // "A list cut short is 10 at its end."
        return Err(Refusal::new(
            number::BAD_RECORD,
            Part::Records,
            records.len(),
        ));
    }
    let out = writer.encoder.out;
    test_room(out.len(), output)?;
    Ok(out)
}

/// What the next record may be.
#[derive(Clone, Copy, PartialEq, Eq, Debug)]
enum Due {
    Partition,
    /// A static row, or an item: a row, a marker or the end.
    First,
    /// A row's clustering value of this column.
    Clustering(u8),
    /// A marker's next prefix value, or an item.
    Prefix(u8),
    /// A cell of this column or a later one, or an item.
    Cell(u8),
}

/// The row or marker whose records are being taken.
#[derive(Clone, Copy)]
enum Pending {
    Nothing,
    Row {
        is_static: bool,
        liveness: Option<Liveness>,
        deletion: Option<Deletion>,
    },
    Marker {
        kind: u8,
        first: Deletion,
        second: Option<Deletion>,
    },
}

struct Writer<'s, 'a> {
    schema: &'s Schema,
    bases: Bases,
    bytes: &'a [u8],
    encoder: Encoder,
    due: Due,
    open: Option<Deletion>,
    pending: Pending,
    clustering: Vec<&'a [u8]>,
    cells: Vec<Cell<'a>>,
    present: u64,
}

const NO_CELL: Cell = Cell {
    timestamp: 0,
    content: Content::Value {
        bytes: &[],
        expiry: None,
    },
};

impl<'s, 'a> Writer<'s, 'a> {
    fn new(schema: &'s Schema, bases: Bases, bytes: &'a [u8]) -> Writer<'s, 'a> {
        Writer {
            schema,
            bases,
            bytes,
            encoder: Encoder::new(bases),
            due: Due::Partition,
            open: None,
            pending: Pending::Nothing,
            clustering: Vec::new(),
            cells: vec![NO_CELL; 63],
            present: 0,
        }
    }

    /// "The writer checks 10, then 5, in each record" (DECISIONS W1 to W3).
    fn take(&mut self, raw: &[u8], at: usize, end: usize) -> Result<(), Refusal> {
        let Ok(raw) = <&[u8; record::LEN]>::try_from(raw) else {
            return Err(Refusal::new(number::BAD_RECORD, Part::Records, end));
        };
        let found = Record::from_bytes(raw).filter(|r| self.is_good(r));
        let Some(record) = found else {
            return Err(Refusal::new(number::BAD_RECORD, Part::Records, at));
        };
        if let Some(field) = self.first_out_of_range(&record) {
            return Err(Refusal::new(
                number::OUT_OF_RANGE,
                Part::Records,
                at + field,
            ));
        }
        self.put(&record);
        Ok(())
    }

    /// Everything about a record but its numbers' ranges.
    fn is_good(&self, r: &Record) -> bool {
        self.is_due(r)
            && has_good_flags(r)
            && has_good_zeros(r)
            && self.has_good_place(r)
            && self.is_in_turn(r)
    }

    /// Kind and column against what is due.
    fn is_due(&self, r: &Record) -> bool {
        let clustering = self.schema.clustering().len();
        match r.kind {
            record::PARTITION => self.due == Due::Partition,
            record::STATIC_ROW => self.due == Due::First && !self.schema.statics().is_empty(),
            record::ROW | record::MARKER | record::END => {
                !matches!(self.due, Due::Partition | Due::Clustering(_))
            }
            record::CLUSTERING => match self.due {
                Due::Clustering(column) => r.column == column,
                Due::Prefix(column) => r.column == column && usize::from(column) < clustering,
                _ => false,
            },
            record::CELL => match self.due {
                Due::Cell(column) => r.column >= column && usize::from(r.column) < self.columns(),
                _ => false,
            },
            _ => false,
        }
    }

    /// How many columns the row in hand has.
    fn columns(&self) -> usize {
        match self.pending {
            Pending::Row { is_static, .. } => self.schema.cells_of(is_static).len(),
            _ => 0,
        }
    }

    /// "a value's place outside the lent bytes, or not 0, 0 without a value, is
    /// 10"; a whole item's place "the writer ignores".
    fn has_good_place(&self, r: &Record) -> bool {
        if !r.shows_value() {
            return true;
        }
        let tombstone = r.kind == record::CELL && r.flags & record::HAS_DELETION != 0;
        if tombstone || r.flags & record::IS_EMPTY != 0 {
            return (r.offset, r.length) == (0, 0);
        }
        self.value(r)
            .is_some_and(|value| !value.is_empty() && self.fits(r, value.len()))
    }

    /// The key or value that a record shows, if it lies in the lent bytes.
    fn value(&self, r: &Record) -> Option<&'a [u8]> {
        r.part_of(self.bytes)
    }

    /// Whether Data can hold a key or value of this length there.
    fn fits(&self, r: &Record, len: usize) -> bool {
        let index = usize::from(r.column);
        let column = match (r.kind, self.pending) {
            (record::PARTITION, _) => return len <= usize::from(u16::MAX),
            (record::CLUSTERING, _) => &self.schema.clustering()[index],
            (_, Pending::Row { is_static, .. }) => &self.schema.cells_of(is_static)[index],
            _ => return false,
        };
        column.fixed().is_none_or(|width| width == len)
    }

    /// "A start needs nothing open, an end or boundary an open range with that
    /// same deletion; the partition ends closed."
    fn is_in_turn(&self, r: &Record) -> bool {
        match r.kind {
            record::END => self.open.is_none(),
            record::MARKER if is_start(r.column) => self.open.is_none(),
            record::MARKER => self.open == Some(first_deletion(r)),
            _ => true,
        }
    }

    /// "a number out of range or below its base (5)": the first such field's
    /// place in the record.
    fn first_out_of_range(&self, r: &Record) -> Option<usize> {
        let boundary = r.kind == record::MARKER && data::is_boundary(r.column);
        let tombstone = r.kind == record::CELL && r.flags & record::HAS_DELETION != 0;
        let ttl = r.flags & record::HAS_TTL != 0;
        let deletion = r.flags & record::HAS_DELETION != 0;
        let checks = [
            (ttl, self.is_good_ttl(r.ttl), record::TTL_AT),
            (
                r.flags & record::HAS_TIMESTAMP != 0,
                self.is_good_timestamp(r.timestamp),
                record::TIMESTAMP_AT,
            ),
            (
                deletion && !tombstone,
                self.is_good_mark(r),
                record::MARK_AT,
            ),
            (deletion, self.is_good_deletion_time(r), record::LOCAL_AT),
            (ttl, self.is_good_local(r.expiry), record::EXPIRY_AT),
            (
                boundary,
                self.is_good_timestamp(r.second_mark),
                record::SECOND_MARK_AT,
            ),
            (
                boundary,
                self.is_good_local(r.second_local),
                record::SECOND_LOCAL_AT,
            ),
        ];
        checks
            .iter()
            .find(|(used, good, _)| *used && !good)
            .map(|(_, _, at)| *at)
    }

    fn is_good_timestamp(&self, value: i64) -> bool {
        is_timestamp(value) && value >= self.bases.timestamp
    }

    fn is_good_local(&self, value: u32) -> bool {
        is_local(value) && value >= self.bases.local as u32
    }

    fn is_good_ttl(&self, value: u32) -> bool {
        is_ttl(value) && value >= self.bases.ttl as u32
    }

    /// A partition's deletion is stored whole, so it has no base.
    fn is_good_mark(&self, r: &Record) -> bool {
        match r.kind {
            record::PARTITION => is_timestamp(r.mark),
            _ => self.is_good_timestamp(r.mark),
        }
    }

    fn is_good_deletion_time(&self, r: &Record) -> bool {
        match r.kind {
            record::PARTITION => is_local(r.local),
            _ => self.is_good_local(r.local),
        }
    }

    /// Takes a checked record.
    fn put(&mut self, r: &Record) {
        match r.kind {
            record::PARTITION => {
                let key = self.value(r).unwrap_or(&[]);
                self.encoder.partition(key, row_deletion(r));
                self.due = Due::First;
            }
            record::STATIC_ROW | record::ROW => self.put_row(r),
            record::MARKER => self.put_marker(r),
            record::CLUSTERING => self.put_clustering(r),
            record::CELL => self.put_cell(r),
            _ => {
                self.flush();
                self.encoder.end();
                self.due = Due::Partition;
            }
        }
    }

    fn put_row(&mut self, r: &Record) {
        self.flush();
        let is_static = r.kind == record::STATIC_ROW;
        self.pending = Pending::Row {
            is_static,
            liveness: liveness(r),
            deletion: row_deletion(r),
        };
        let has_clustering = !is_static && !self.schema.clustering().is_empty();
        self.due = if has_clustering {
            Due::Clustering(0)
        } else {
            Due::Cell(0)
        };
    }

    fn put_marker(&mut self, r: &Record) {
        self.flush();
        let first = first_deletion(r);
        let second = data::is_boundary(r.column).then_some(Deletion {
            mark: r.second_mark,
            local: r.second_local,
        });
        self.open = if is_start(r.column) {
            Some(first)
        } else {
            second
        };
        self.pending = Pending::Marker {
            kind: r.column,
            first,
            second,
        };
        self.due = Due::Prefix(0);
    }

    fn put_clustering(&mut self, r: &Record) {
        self.clustering.push(self.value(r).unwrap_or(&[]));
        let next = r.column + 1;
        self.due = match self.due {
            Due::Clustering(_) if usize::from(next) == self.schema.clustering().len() => {
                Due::Cell(0)
            }
            Due::Clustering(_) => Due::Clustering(next),
            _ => Due::Prefix(next),
        };
    }

    fn put_cell(&mut self, r: &Record) {
        let content = if r.flags & record::HAS_DELETION != 0 {
            Content::Tombstone { local: r.local }
        } else {
            Content::Value {
                bytes: self.value(r).unwrap_or(&[]),
                expiry: expiry(r),
            }
        };
        self.cells[usize::from(r.column)] = Cell {
            timestamp: r.timestamp,
            content,
        };
        self.present |= 1 << r.column;
        self.due = Due::Cell(r.column + 1);
    }

    /// Writes the row or marker in hand.
    fn flush(&mut self) {
        let clustering = self.schema.clustering();
        match self.pending {
            Pending::Nothing => {}
            Pending::Row {
                is_static,
                liveness,
                deletion,
            } => {
                let image = RowImage {
                    is_static,
                    clustering: &self.clustering,
                    liveness,
                    deletion,
                    present: self.present,
                    cells: &self.cells,
                };
                self.encoder
                    .row(&image, clustering, self.schema.cells_of(is_static));
            }
            Pending::Marker {
                kind,
                first,
                second,
            } => {
                self.encoder
                    .marker(kind, &self.clustering, clustering, first, second);
            }
        }
        self.pending = Pending::Nothing;
        self.clustering.clear();
        self.present = 0;
    }
}

/// The flags that a record of this kind can list with (DECISIONS W6).
fn has_good_flags(r: &Record) -> bool {
    use record::{HAS_DELETION, HAS_TIMESTAMP, HAS_TTL, IS_EMPTY};
    let within = |allowed: u8| r.flags & !allowed == 0;
    let has = |bit: u8| r.flags & bit != 0;
    match r.kind {
        record::PARTITION => within(HAS_DELETION | IS_EMPTY),
        record::STATIC_ROW | record::ROW => {
            within(HAS_TIMESTAMP | HAS_TTL | HAS_DELETION) && (!has(HAS_TTL) || has(HAS_TIMESTAMP))
        }
        record::MARKER => r.flags == HAS_DELETION && is_marker_kind(r.column),
        record::CLUSTERING => within(IS_EMPTY),
        record::CELL => {
            within(HAS_TIMESTAMP | HAS_TTL | HAS_DELETION | IS_EMPTY)
                && has(HAS_TIMESTAMP)
                && !(has(HAS_DELETION) && (has(HAS_TTL) || has(IS_EMPTY)))
        }
        _ => r.flags == 0,
    }
}

/// "the rest zero": numbers that the kind and flags leave unused.
fn has_good_zeros(r: &Record) -> bool {
    let timestamp = r.flags & record::HAS_TIMESTAMP != 0;
    let ttl = r.flags & record::HAS_TTL != 0;
    let deletion = r.flags & record::HAS_DELETION != 0;
    let mark = deletion && r.kind != record::CELL;
    let second = r.kind == record::MARKER && data::is_boundary(r.column);
    let column = matches!(r.kind, record::MARKER | record::CLUSTERING | record::CELL);
    (column || r.column == 0)
        && (ttl || (r.ttl, r.expiry) == (0, 0))
        && (timestamp || r.timestamp == 0)
        && (mark || r.mark == 0)
        && (deletion || r.local == 0)
        && (second || (r.second_mark, r.second_local) == (0, 0))
}

fn first_deletion(r: &Record) -> Deletion {
    Deletion {
        mark: r.mark,
        local: r.local,
    }
}

fn row_deletion(r: &Record) -> Option<Deletion> {
    (r.flags & record::HAS_DELETION != 0).then_some(first_deletion(r))
}

fn expiry(r: &Record) -> Option<Expiry> {
    (r.flags & record::HAS_TTL != 0).then_some(Expiry {
        local: r.expiry,
        ttl: r.ttl,
    })
}

fn liveness(r: &Record) -> Option<Liveness> {
    let timestamp = r.timestamp;
    (r.flags & record::HAS_TIMESTAMP != 0).then_some(Liveness {
        timestamp,
        expiry: expiry(r),
    })
}
