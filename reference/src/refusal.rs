//! "Numbers given back": what a refusal says.

use std::fmt;

/// "Bounds: each slice up to 1,073,741,824 bytes".
pub const LIMIT: usize = 1_073_741_824;

/// The thirteen numbers of the table.
pub mod number {
    /// "slice over the limit"
    pub const OVER_LIMIT: u8 = 1;
    /// "a field or region passes the end of its region"
    pub const PASSES_END: u8 = 2;
    /// "bytes left over in a region, or after the end"
    pub const LEFT_OVER: u8 = 3;
    /// "bad flags, kind, header or mask"
    pub const BAD_FLAGS: u8 = 4;
    /// "number outside its range, marker count above the columns included"
    pub const OUT_OF_RANGE: u8 = 5;
    /// "item or marker out of turn"
    pub const OUT_OF_TURN: u8 = 6;
    /// "type, token length, entry or column kind not carried, or absent"
    pub const NOT_CARRIED: u8 = 7;
    /// "too many columns or entries, too deep"
    pub const TOO_MANY: u8 = 8;
    /// "named twice, or not in order"
    pub const TWICE_OR_UNORDERED: u8 = 9;
    /// "bad house record"
    pub const BAD_RECORD: u8 = 10;
    /// "schemas or keys differ"
    pub const DIFFER: u8 = 11;
    /// "range marker in a merge"
    pub const MARKER_IN_MERGE: u8 = 12;
    /// "output longer than the buffer"
    pub const NO_ROOM: u8 = 13;
}

/// Which argument of a call a refusal is about.
#[derive(Clone, Copy, PartialEq, Eq, Debug, Hash)]
pub enum Part {
    Statistics,
    Scylla,
    Schema,
    Data,
    Records,
    Bytes,
    Output,
    Bases,
    State,
}

/// Which of a merge's two tables; `Only` outside a merge.
#[derive(Clone, Copy, PartialEq, Eq, Debug, Hash)]
pub enum Side {
    Only,
    A,
    B,
}

/// "Each names the slice ...": DECISIONS E1.
#[derive(Clone, Copy, PartialEq, Eq, Debug, Hash)]
pub struct Slice {
    pub part: Part,
    pub side: Side,
}

/// A refusal: number, slice and place.
#[derive(Clone, Copy, PartialEq, Eq, Debug, Hash)]
pub struct Refusal {
    pub number: u8,
    pub slice: Slice,
    pub place: u64,
}

impl Refusal {
    #[cold]
    pub fn new(number: u8, part: Part, place: usize) -> Refusal {
        let slice = Slice {
            part,
            side: Side::Only,
        };
        Refusal {
            number,
            slice,
            place: place as u64,
        }
    }

    /// The same refusal, told of table A or B of a merge.
    pub fn on(mut self, side: Side) -> Refusal {
        self.slice.side = side;
        self
    }
}

impl fmt::Display for Part {
    fn fmt(&self, f: &mut fmt::Formatter<'_>) -> fmt::Result {
        f.write_str(match self {
            Part::Statistics => "statistics",
            Part::Scylla => "scylla",
            Part::Schema => "schema",
            Part::Data => "data",
            Part::Records => "records",
            Part::Bytes => "bytes",
            Part::Output => "output",
            Part::Bases => "bases",
            Part::State => "state",
        })
    }
}

impl fmt::Display for Slice {
    fn fmt(&self, f: &mut fmt::Formatter<'_>) -> fmt::Result {
        match self.side {
            Side::Only => write!(f, "{}", self.part),
            Side::A => write!(f, "{}A", self.part),
            Side::B => write!(f, "{}B", self.part),
        }
    }
}

impl fmt::Display for Refusal {
    fn fmt(&self, f: &mut fmt::Formatter<'_>) -> fmt::Result {
        write!(f, "refused {} {} {}", self.number, self.slice, self.place)
    }
}

/// "Every call tests 1 first": 1 at place 0 for a slice over the limit
/// (DECISIONS E2).
pub fn test_limit(part: Part, len: usize) -> Result<(), Refusal> {
    if len > LIMIT {
        return Err(Refusal::new(number::OVER_LIMIT, part, 0));
    }
    Ok(())
}

/// "output longer than the buffer": 13, whose place is the length needed
/// (DECISIONS E8).
pub fn test_room(needed: usize, output: usize) -> Result<(), Refusal> {
    if needed > output {
        return Err(Refusal::new(number::NO_ROOM, Part::Output, needed));
    }
    Ok(())
}
