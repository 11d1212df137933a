//! The walk and the listing.

use crate::data::{
    is_clustering_header, low_bits, read_clustering_value, Bases, Cell, Content, Deletion, Head,
    Liveness, MarkerHead, PartitionHead, RowHead, Source,
};
use crate::record::{self, Record};
use crate::refusal::{number, test_limit, test_room, Part, Refusal};
use crate::schema::Schema;

/// What is due at a state's position.
#[derive(Clone, Copy, PartialEq, Eq, Debug)]
pub enum Phase {
    /// A partition, or the end of Data.
    Partition,
    /// The first item of a partition: the one place for a static row.
    First,
    /// A row, a marker or the end byte.
    Items,
    /// A clustering value of the row or marker in hand.
    Clustering,
    /// A cell of the row in hand, or the end of its body.
    Cells,
}

/// The row or marker in hand, between its own record and its last value.
#[derive(Clone, Copy, PartialEq, Eq, Debug)]
pub struct Hand {
    pub is_static: bool,
    pub is_marker: bool,
    /// The next clustering value's or cell's column.
    pub column: u8,
    /// How many clustering values it has.
    pub count: u8,
    pub clustering_header: u64,
    /// Where to go on behind the clustering values.
    pub resume: usize,
    pub body_end: usize,
    pub liveness: Option<Liveness>,
    /// The columns that have a cell.
    pub present: u64,
}

const NOTHING: Hand = Hand {
    is_static: false,
    is_marker: false,
    column: 0,
    count: 0,
    clustering_header: 0,
    resume: 0,
    body_end: 0,
    liveness: None,
    present: 0,
};

/// The walk's state, which goes in and comes back by value.
#[derive(Clone, Copy, PartialEq, Eq, Debug)]
pub struct State {
    pub position: usize,
    pub phase: Phase,
    /// The open range's deletion.
    pub open: Option<Deletion>,
    pub hand: Hand,
}

/// An item: its record, and the key or value "as the part of Data that holds
/// it".
#[derive(Clone, Copy, Debug)]
pub struct Item<'a> {
    pub record: Record,
    pub value: &'a [u8],
}

/// What a step gives.
#[derive(Clone, Copy, Debug)]
#[allow(clippy::large_enum_variant)]
pub enum Step<'a> {
    Next(Item<'a>, State),
    Done,
}

impl State {
    pub fn start() -> State {
        State {
            position: 0,
            phase: Phase::Partition,
            open: None,
            hand: NOTHING,
        }
    }

    /// "One step takes the walk's state by value and hands back the next item
    /// and state".
    #[inline]
    pub fn step<'a>(self, source: &Source<'a>) -> Result<Step<'a>, Refusal> {
        if !self.is_valid(source) {
            return Err(Refusal::new(number::BAD_RECORD, Part::State, 0));
        }
        match self.phase {
            Phase::Partition => self.partition(source),
            Phase::First | Phase::Items => self.item(source),
            Phase::Clustering => self.clustering(source),
            Phase::Cells => self.cells(source),
        }
    }

    /// "A state past the end, or with a column or phase that the schema lacks,
    /// gives 10": all that the phase holds is tested (DECISIONS L12, L13).
    #[inline]
    fn is_valid(&self, source: &Source) -> bool {
        let end = source.data.len();
        let in_body = self.position <= self.hand.body_end && self.hand.body_end <= end;
        match self.phase {
            Phase::Clustering => {
                in_body && self.hand.has_values_in(source.schema) && self.hand.resume <= end
            }
            Phase::Cells => in_body && self.hand.has_cells_in(source.schema),
            _ => self.position <= end,
        }
    }

    fn partition<'a>(self, source: &Source<'a>) -> Result<Step<'a>, Refusal> {
        if self.position == source.data.len() {
            return Ok(Step::Done); // "Empty Data is accepted with no records."
        }
        let head = source.partition_head(self.position)?;
        let state = State {
            position: head.next,
            phase: Phase::First,
            open: None,
            hand: NOTHING,
        };
        Ok(Step::Next(partition_item(&head), state))
    }

    #[inline]
    fn item<'a>(self, source: &Source<'a>) -> Result<Step<'a>, Refusal> {
        match source.head(self.position, self.phase == Phase::First, self.open)? {
            Head::Row(head) => Ok(Step::Next(
                row_item(&head),
                self.after_row(&head, source.schema),
            )),
            Head::Marker(head) => Ok(Step::Next(marker_item(&head), self.after_marker(&head))),
            Head::End { at } => {
                let state = State {
                    position: at + 1,
                    phase: Phase::Partition,
                    open: None,
                    hand: NOTHING,
                };
                Ok(Step::Next(end_item(at), state))
            }
        }
    }

    #[inline]
    fn after_row(self, head: &RowHead, schema: &Schema) -> State {
        let count = if head.is_static {
            0
        } else {
            schema.clustering().len()
        };
        let hand = Hand {
            is_static: head.is_static,
            is_marker: false,
            column: 0,
            count: count as u8,
            clustering_header: head.clustering_header,
            resume: head.cells_at,
            body_end: head.body_end,
            liveness: head.liveness,
            present: head.present,
        };
        if count == 0 {
            return State {
                position: head.cells_at,
                phase: Phase::Cells,
                open: self.open,
                hand,
            };
        }
        State {
            position: head.clustering_at,
            phase: Phase::Clustering,
            open: self.open,
            hand,
        }
    }

    fn after_marker(self, head: &MarkerHead) -> State {
        let open = head.open_after();
        if head.count == 0 {
            return State {
                position: head.body_end,
                phase: Phase::Items,
                open,
                hand: NOTHING,
            };
        }
        let hand = Hand {
            is_marker: true,
            count: head.count,
            clustering_header: head.clustering_header,
            resume: head.body_end,
            body_end: head.body_end,
            ..NOTHING
        };
        State {
            position: head.clustering_at,
            phase: Phase::Clustering,
            open,
            hand,
        }
    }

    #[inline]
    fn clustering<'a>(mut self, source: &Source<'a>) -> Result<Step<'a>, Refusal> {
        let index = usize::from(self.hand.column);
        let column = &source.schema.clustering()[index];
        let mut reader = source.reader(self.position);
        let value = read_clustering_value(&mut reader, self.hand.clustering_header, index, column)?;
        let item = clustering_item(self.hand.column, value, reader.at());
        self.hand.column += 1;
        self.position = reader.at();
        if self.hand.column == self.hand.count {
            self.hand.column = 0;
            self.position = self.hand.resume;
            self.phase = if self.hand.is_marker {
                Phase::Items
            } else {
                Phase::Cells
            };
        }
        Ok(Step::Next(item, self))
    }

    #[inline]
    fn cells<'a>(mut self, source: &Source<'a>) -> Result<Step<'a>, Refusal> {
        let left = self.hand.present & !low_bits(usize::from(self.hand.column));
        let mut body = source.reader_to(self.position, self.hand.body_end);
        if left == 0 {
            // No cell is left: the body must be, and an item is due.
            body.filled()?;
            self.phase = Phase::Items;
            self.hand = NOTHING;
            return self.item(source);
        }
        let index = left.trailing_zeros() as usize;
        let column = &source.schema.cells_of(self.hand.is_static)[index];
        let cell = source.cell(&mut body, self.hand.liveness, column)?;
        let item = cell_item(index as u8, &cell, body.at());
        self.hand.column = index as u8 + 1;
        self.position = body.at();
        Ok(Step::Next(item, self))
    }
}

impl Hand {
    /// Whether the next clustering value, and all behind it, suit the schema.
    #[inline]
    fn has_values_in(&self, schema: &Schema) -> bool {
        let count = usize::from(self.count);
        let known = schema.clustering().len();
        let counted = if self.is_marker {
            count <= known
        } else {
            count == known && self.present & !low_bits(schema.regulars().len()) == 0
        };
        counted && self.column < self.count && is_clustering_header(self.clustering_header, count)
    }

    /// Whether the cells left, or none, suit the schema.
    #[inline]
    fn has_cells_in(&self, schema: &Schema) -> bool {
        let columns = schema.cells_of(self.is_static).len();
        let has_row = !self.is_static || columns > 0;
        !self.is_marker
            && has_row
            && usize::from(self.column) <= columns
            && self.present & !low_bits(columns) == 0
    }
}

/// A record's offset and length "show key or value ... (0, 0 if empty or a
/// tombstone)", and flag 8 an empty one.
#[inline]
fn show_value(record: &mut Record, value: &[u8], value_end: usize) {
    if value.is_empty() {
        record.flags |= record::IS_EMPTY;
    } else {
        record.offset = (value_end - value.len()) as u64;
        record.length = value.len() as u64;
    }
}

/// "else the whole item"
#[inline]
fn show_item(record: &mut Record, at: usize, end: usize) {
    record.offset = at as u64;
    record.length = (end - at) as u64;
}

#[inline]
fn show_deletion(record: &mut Record, deletion: Deletion) {
    record.flags |= record::HAS_DELETION;
    record.mark = deletion.mark;
    record.local = deletion.local;
}

fn partition_item<'a>(head: &PartitionHead<'a>) -> Item<'a> {
    let mut record = Record {
        kind: record::PARTITION,
        ..Record::default()
    };
    if let Some(deletion) = head.deletion {
        show_deletion(&mut record, deletion);
    }
    show_value(&mut record, head.key, head.key_at + head.key.len());
    Item {
        record,
        value: head.key,
    }
}

#[inline]
fn row_item<'a>(head: &RowHead) -> Item<'a> {
    let kind = if head.is_static {
        record::STATIC_ROW
    } else {
        record::ROW
    };
    let mut record = Record {
        kind,
        ..Record::default()
    };
    if let Some(liveness) = head.liveness {
        record.flags |= record::HAS_TIMESTAMP;
        record.timestamp = liveness.timestamp;
        if let Some(expiry) = liveness.expiry {
            record.flags |= record::HAS_TTL;
            record.ttl = expiry.ttl;
            record.expiry = expiry.local;
        }
    }
    if let Some(deletion) = head.deletion {
        show_deletion(&mut record, deletion);
    }
    show_item(&mut record, head.at, head.body_end);
    Item { record, value: &[] }
}

fn marker_item<'a>(head: &MarkerHead) -> Item<'a> {
    let mut record = Record {
        kind: record::MARKER,
        column: head.kind,
        ..Record::default()
    };
    show_deletion(&mut record, head.first);
    if let Some(second) = head.second {
        record.second_mark = second.mark;
        record.second_local = second.local;
    }
    show_item(&mut record, head.at, head.body_end);
    Item { record, value: &[] }
}

#[inline]
fn clustering_item(column: u8, value: &[u8], value_end: usize) -> Item<'_> {
    let mut record = Record {
        kind: record::CLUSTERING,
        column,
        ..Record::default()
    };
    show_value(&mut record, value, value_end);
    Item { record, value }
}

/// "Cells carry absolute times."
#[inline]
fn cell_item<'a>(column: u8, cell: &Cell<'a>, value_end: usize) -> Item<'a> {
    let mut record = Record {
        kind: record::CELL,
        flags: record::HAS_TIMESTAMP,
        column,
        timestamp: cell.timestamp,
        ..Record::default()
    };
    match cell.content {
        Content::Tombstone { local } => {
            record.flags |= record::HAS_DELETION;
            record.local = local;
            Item { record, value: &[] }
        }
        Content::Value { bytes, expiry } => {
            if let Some(expiry) = expiry {
                record.flags |= record::HAS_TTL;
                record.ttl = expiry.ttl;
                record.expiry = expiry.local;
            }
            show_value(&mut record, bytes, value_end);
            Item {
                record,
                value: bytes,
            }
        }
    }
}

fn end_item<'a>(at: usize) -> Item<'a> {
    let mut record = Record {
        kind: record::END,
        ..Record::default()
    };
    show_item(&mut record, at, at + 1);
    Item { record, value: &[] }
}

/// Walks all of Data, handing each item to `take`: the same items and refusals
/// as stepping from [`State::start`] (which the tests compare), in plain loops.
#[inline]
pub fn walk<'a>(source: &Source<'a>, mut take: impl FnMut(&Item<'a>)) -> Result<(), Refusal> {
    let mut values = Vec::with_capacity(32);
    let mut at = 0;
    while at < source.data.len() {
        let head = source.partition_head(at)?;
        take(&partition_item(&head));
        at = walk_items(source, head.next, &mut values, &mut take)?;
    }
    Ok(())
}

/// Walks by single steps.
pub fn walk_by_steps<'a>(
    source: &Source<'a>,
    mut take: impl FnMut(&Item<'a>),
) -> Result<(), Refusal> {
    let mut state = State::start();
    while let Step::Next(item, next) = state.step(source)? {
        take(&item);
        state = next;
    }
    Ok(())
}

/// A partition's items from `at` on; the byte behind its end.
#[inline]
fn walk_items<'a>(
    source: &Source<'a>,
    mut at: usize,
    values: &mut Vec<(&'a [u8], usize)>,
    take: &mut impl FnMut(&Item<'a>),
) -> Result<usize, Refusal> {
    let mut open = None;
    let mut first = true;
    loop {
        values.clear();
        let head = source.head_with(at, first, open, |value, end| values.push((value, end)))?;
        first = false;
        match head {
            Head::End { at } => {
                take(&end_item(at));
                return Ok(at + 1);
            }
            Head::Marker(marker) => {
                take(&marker_item(&marker));
                take_values(values, take);
                open = marker.open_after();
                at = marker.body_end;
            }
            Head::Row(row) => {
                take(&row_item(&row));
                take_values(values, take);
                walk_cells(source, &row, take)?;
                at = row.body_end;
            }
        }
    }
}

#[inline]
fn take_values<'a>(values: &[(&'a [u8], usize)], take: &mut impl FnMut(&Item<'a>)) {
    for (i, (value, end)) in values.iter().enumerate() {
        take(&clustering_item(i as u8, value, *end));
    }
}

#[inline]
fn walk_cells<'a>(
    source: &Source<'a>,
    row: &RowHead,
    take: &mut impl FnMut(&Item<'a>),
) -> Result<(), Refusal> {
    let columns = source.schema.cells_of(row.is_static);
    let mut body = source.reader_to(row.cells_at, row.body_end);
    let mut left = row.present;
    while left != 0 {
        let index = left.trailing_zeros() as usize;
        let cell = source.cell(&mut body, row.liveness, &columns[index])?;
        take(&cell_item(index as u8, &cell, body.at()));
        left &= left - 1;
    }
    body.filled()
}

/// "Every call tests 1 first, then 5 for bases", then 10 for the schema.
pub fn check_call(schema: &[u8], bases: Bases, data: &[u8]) -> Result<Schema, Refusal> {
    test_limit(Part::Schema, schema.len())?;
    test_limit(Part::Data, data.len())?;
    bases.check()?;
    Schema::check(schema)
}

/// The listing of all of Data.
pub fn list_data(
    schema: &[u8],
    bases: Bases,
    data: &[u8],
) -> Result<Vec<[u8; record::LEN]>, Refusal> {
    let mut records = Vec::new();
    list_into(schema, bases, data, &mut records)?;
    Ok(records)
}

/// As [`list_data`], with a lent buffer of `output` bytes: 13 after all else
/// (DECISIONS E8).
pub fn list_within(
    schema: &[u8],
    bases: Bases,
    data: &[u8],
    output: usize,
) -> Result<Vec<[u8; record::LEN]>, Refusal> {
    test_limit(Part::Schema, schema.len())?;
    test_limit(Part::Data, data.len())?;
    test_limit(Part::Output, output)?;
    let records = list_data(schema, bases, data)?;
    test_room(record::LEN * records.len(), output)?;
    Ok(records)
}

/// As [`list_data`], into a list that is emptied first; on a refusal it holds
/// the records before it.
pub fn list_into(
    schema: &[u8],
    bases: Bases,
    data: &[u8],
    records: &mut Vec<[u8; record::LEN]>,
) -> Result<(), Refusal> {
    records.clear();
    let schema = check_call(schema, bases, data)?;
    let source = Source {
        schema: &schema,
        bases,
        data,
    };
    walk(&source, |item| records.push(item.record.to_bytes()))
}
