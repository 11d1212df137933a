//! "The schema is 16-byte records without a header, in the order key,
//! clustering, static, regular".

use crate::refusal::{number, Part, Refusal};
use crate::types::{self, Type, Use};

pub const RECORD: usize = 16;

/// "clustering columns 0 to 32; static 0 to 63; regular 0 to 63"; one key.
pub const MOST: [usize; 4] = [1, 32, 63, 63];

pub const KEY: u8 = 0;
pub const CLUSTERING: u8 = 1;
pub const STATIC: u8 = 2;
pub const REGULAR: u8 = 3;

/// "role 0 to 3; type's line in 001's table from 1 (under Reversed, its
/// parameter's); reversed 0 or 1; width or 255; name offset and length in
/// Statistics, 32-bit each (0 but for static and regular); four zero bytes."
pub fn record(role: u8, ty: Type, name_at: u32, name_len: u32) -> [u8; RECORD] {
    let mut out = [0; RECORD];
    out[0] = role;
    out[1] = ty.line;
    out[2] = u8::from(ty.reversed);
    out[3] = types::width_of(ty.line);
    out[4..8].copy_from_slice(&name_at.to_be_bytes());
    out[8..12].copy_from_slice(&name_len.to_be_bytes());
    out
}

/// One column as a schema record gives it.
#[derive(Clone, Copy, PartialEq, Eq, Debug)]
pub struct Column {
    pub role: u8,
    pub line: u8,
    pub reversed: bool,
    pub width: u8,
    pub name_at: u32,
    pub name_len: u32,
}

impl Column {
    /// The fixed width, if it has one.
    #[inline]
    pub fn fixed(&self) -> Option<usize> {
        (self.width != types::VARIABLE).then_some(usize::from(self.width))
    }

    /// The name in the Statistics beside the schema, if it lies inside.
    pub fn name<'a>(&self, statistics: &'a [u8]) -> Option<&'a [u8]> {
        let start = self.name_at as usize;
        let end = start.checked_add(self.name_len as usize)?;
        statistics.get(start..end)
    }

    fn decode(raw: &[u8; RECORD]) -> Column {
        let word = |at: usize| u32::from_be_bytes([raw[at], raw[at + 1], raw[at + 2], raw[at + 3]]);
        Column {
            role: raw[0],
            line: raw[1],
            reversed: raw[2] == 1,
            width: raw[3],
            name_at: word(4),
            name_len: word(8),
        }
    }
}

/// A checked schema.
#[derive(Clone, PartialEq, Eq, Debug)]
pub struct Schema {
    pub columns: Vec<Column>,
    /// Where clustering, static and regular columns start in `columns`.
    starts: [usize; 4],
}

impl Schema {
    /// Checks schema records (DECISIONS R1 to R3); names are not read.
    pub fn check(raw: &[u8]) -> Result<Schema, Refusal> {
        Schema::check_with(raw, None)
    }

    /// Checks schema records and each name's place: "a name's place is tested,
    /// likewise 10, only where names are read" (DECISIONS R4).
    pub fn check_with_names(raw: &[u8], statistics: &[u8]) -> Result<Schema, Refusal> {
        Schema::check_with(raw, Some(statistics))
    }

    fn check_with(raw: &[u8], names: Option<&[u8]>) -> Result<Schema, Refusal> {
        let mut columns: Vec<Column> = Vec::with_capacity(raw.len() / RECORD);
        let mut counts = [0usize; 4];
        for chunk in raw.chunks(RECORD) {
            let at = columns.len() * RECORD;
            let bad = || Refusal::new(number::BAD_RECORD, Part::Schema, at);
            let bytes: &[u8; RECORD] = chunk.try_into().map_err(|_| bad())?;
            let last_role = columns.last().map(|c| c.role);
            if !is_given(bytes) || !is_in_turn(bytes[0], last_role, &counts) {
                return Err(bad());
            }
            let column = Column::decode(bytes);
            if let Some(statistics) = names {
                column.name(statistics).ok_or_else(bad)?;
            }
            counts[usize::from(column.role)] += 1;
            columns.push(column);
        }
        if columns.is_empty() {
            // No key: none that Statistics gives.
            return Err(Refusal::new(number::BAD_RECORD, Part::Schema, 0));
        }
        let statics = 1 + counts[1];
        let regulars = statics + counts[2];
        Ok(Schema {
            starts: [1, statics, regulars, columns.len()],
            columns,
        })
    }

    #[inline]
    pub fn clustering(&self) -> &[Column] {
        &self.columns[self.starts[0]..self.starts[1]]
    }

    #[inline]
    pub fn statics(&self) -> &[Column] {
        &self.columns[self.starts[1]..self.starts[2]]
    }

    #[inline]
    pub fn regulars(&self) -> &[Column] {
        &self.columns[self.starts[2]..self.starts[3]]
    }

    /// The columns that a row's cells have.
    #[inline]
    pub fn cells_of(&self, is_static: bool) -> &[Column] {
        if is_static {
            self.statics()
        } else {
            self.regulars()
        }
    }

    /// "Schemas are equal when roles, type lines, reversed marks and names are."
    pub fn equals(&self, mine: &[u8], other: &Schema, theirs: &[u8]) -> bool {
        self.columns.len() == other.columns.len()
            && self.columns.iter().zip(&other.columns).all(|(a, b)| {
                (a.role, a.line, a.reversed) == (b.role, b.line, b.reversed)
                    && a.name(mine) == b.name(theirs)
            })
    }

    /// "Clustering types with an order: Int32, Long, Timestamp ..., Boolean,
    /// Ascii, UTF8, Bytes": the record of the first that has none.
    pub fn first_unordered(&self) -> Option<usize> {
        let found = self.clustering().iter().position(|c| !is_ordered(c.line))?;
        Some((self.starts[0] + found) * RECORD)
    }
}

/// "10 where roles, ..., lines, marks, widths or zeros are none that Statistics
/// gives": what one record shows alone.
fn is_given(raw: &[u8; RECORD]) -> bool {
    let [role, line, mark, width, ..] = *raw;
    let named = role == STATIC || role == REGULAR;
    role <= REGULAR
        && is_given_line(line, if named { Use::Column } else { Use::Key })
        && mark <= 1
        && width == types::width_of(line)
        && (named || raw[4..12] == [0; 8])
        && raw[12..] == [0; 4]
}

/// Lines 1 to 34 but for Reversed, which gives its parameter's, and for those
/// "refused" as a column.
fn is_given_line(line: u8, place: Use) -> bool {
    types::line_of(line).is_some()
        && line != types::REVERSED
        && !(place == Use::Column && types::is_refused_column(line))
}

/// "roles, counts": one key first, then clustering, static and regular
/// columns, each within its bound.
fn is_in_turn(role: u8, last: Option<u8>, counts: &[usize; 4]) -> bool {
    let follows = match last {
        None => role == KEY,
        Some(before) => before <= role,
    };
    follows && counts[usize::from(role)] < MOST[usize::from(role)]
}

fn is_ordered(line: u8) -> bool {
    use types::{ASCII, BOOLEAN, BYTES, INT32, LONG, TIMESTAMP, UTF8};
    matches!(
        line,
        INT32 | LONG | TIMESTAMP | BOOLEAN | ASCII | UTF8 | BYTES
    )
}

#[cfg(test)]
mod tests {
    use super::*;

    fn plain(role: u8, line: u8) -> [u8; RECORD] {
        record(
            role,
            Type {
                line,
                reversed: false,
            },
            0,
            0,
        )
    }

    fn refused_at(raw: &[u8]) -> Option<u64> {
        match Schema::check(raw) {
            Ok(_) => None,
            Err(r) => {
                assert_eq!((r.number, r.slice.part), (10, Part::Schema));
                Some(r.place)
            }
        }
    }

    #[test]
    fn roles_and_counts() {
        assert_eq!(refused_at(&[]), Some(0));
        assert_eq!(refused_at(&plain(0, 33)), None);
        assert_eq!(refused_at(&plain(1, 33)), Some(0));
        assert_eq!(refused_at(&[plain(0, 33), plain(0, 33)].concat()), Some(16));
        assert_eq!(refused_at(&[plain(0, 33), plain(4, 33)].concat()), Some(16));
        assert_eq!(
            refused_at(&[plain(0, 33), plain(2, 33), plain(1, 33)].concat()),
            Some(32)
        );
        for (role, most) in [(1u8, 32usize), (2, 63), (3, 63)] {
            let mut raw = plain(0, 33).to_vec();
            for _ in 0..most {
                raw.extend(plain(role, 33));
            }
            assert_eq!(refused_at(&raw), None);
            let over = raw.len() as u64;
            raw.extend(plain(role, 33));
            assert_eq!(refused_at(&raw), Some(over));
        }
        let mut cut = [plain(0, 33), plain(1, 33)].concat();
        cut.pop();
        assert_eq!(refused_at(&cut), Some(16));
    }

    #[test]
    fn lines_marks_widths_and_zeros() {
        for line in 0..=255u8 {
            let given = (1..=34).contains(&line) && line != 24;
            assert_eq!(refused_at(&plain(0, line)).is_none(), given, "line {line}");
            let as_column = [plain(0, 33), plain(3, line)].concat();
            let carried = given && !matches!(line, 7 | 20 | 22 | 25 | 32);
            assert_eq!(
                refused_at(&as_column),
                if carried { None } else { Some(16) }
            );
        }
        for at in 2..16 {
            let mut raw = [plain(0, 33), plain(1, 17), plain(3, 17)].concat();
            raw[32 + at] ^= 1;
            let free = at == 2 || (4..12).contains(&at);
            assert_eq!(
                refused_at(&raw),
                if free { None } else { Some(32) },
                "byte {at}"
            );
            let mut raw = [plain(0, 33), plain(1, 17), plain(3, 17)].concat();
            raw[16 + at] ^= 1;
            assert_eq!(
                refused_at(&raw),
                if at == 2 { None } else { Some(16) },
                "byte {at}"
            );
        }
        let mut raw = plain(0, 33);
        raw[2] = 2;
        assert_eq!(refused_at(&raw), Some(0));
    }

    #[test]
    fn names_only_where_read() {
        let ty = Type {
            line: 17,
            reversed: false,
        };
        let raw = [plain(0, 33), record(3, ty, 2, 3)].concat();
        assert!(Schema::check(&raw).is_ok());
        assert!(Schema::check_with_names(&raw, b"abcde").is_ok());
        assert_eq!(
            Schema::check_with_names(&raw, b"abcd").unwrap_err().place,
            16
        );
        let empty = [plain(0, 33), record(3, ty, 5, 0)].concat();
        assert!(Schema::check_with_names(&empty, b"abcde").is_ok());
        assert!(Schema::check_with_names(&empty, b"abcd").is_err());
        let huge = [plain(0, 33), record(3, ty, u32::MAX, u32::MAX)].concat();
        assert!(Schema::check_with_names(&huge, b"abcd").is_err());
    }
}
