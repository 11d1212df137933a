//! Source document 001's table of types and document 01's type strings.

use crate::refusal::number;

/// "width or 255": the mark of a variable width.
pub const VARIABLE: u8 = 255;

/// One line of 001's table.
pub struct Line {
    pub name: &'static str,
    /// 001's column "Parametrized".
    pub parametrized: bool,
    /// Fixed width, or [`VARIABLE`].
    pub width: u8,
}

const fn line(name: &'static str, parametrized: bool, width: u8) -> Line {
    Line {
        name,
        parametrized,
        width,
    }
}

/// 001's table.  "Fixed widths: Boolean 1; Int32, Float 4; Long, Double,
/// Timestamp, Date 8; UUID, TimeUUID, LexicalUUID 16; ... other names of 001's
/// table are variable."
pub const TABLE: [Line; 34] = [
    line("AsciiType", false, VARIABLE),
    line("BooleanType", false, 1),
    line("BytesType", false, VARIABLE),
    line("ByteType", false, VARIABLE),
    line("ColumnToCollectionType", true, VARIABLE),
    line("CompositeType", true, VARIABLE),
    line("CounterColumnType", false, VARIABLE),
    line("DateType", false, 8),
    line("DecimalType", false, VARIABLE),
    line("DoubleType", false, 8),
    line("DurationType", false, VARIABLE),
    line("DynamicCompositeType", true, VARIABLE),
    line("EmptyType", false, VARIABLE),
    line("FloatType", false, 4),
    line("FrozenType", true, VARIABLE),
    line("InetAddressType", false, VARIABLE),
    line("Int32Type", false, 4),
    line("IntegerType", false, VARIABLE),
    line("LexicalUUIDType", false, 16),
    line("ListType", true, VARIABLE),
    line("LongType", false, 8),
    line("MapType", true, VARIABLE),
    line("PartitionerDefinedOrder", true, VARIABLE),
    line("ReversedType", true, VARIABLE),
    line("SetType", true, VARIABLE),
    line("ShortType", false, VARIABLE),
    line("SimpleDateType", false, VARIABLE),
    line("TimestampType", false, 8),
    line("TimeType", false, VARIABLE),
    line("TimeUUIDType", false, 16),
    line("TupleType", true, VARIABLE),
    line("UserType", true, VARIABLE),
    line("UTF8Type", false, VARIABLE),
    line("UUIDType", false, 16),
];

// Lines "from 1" that the rules name.
pub const ASCII: u8 = 1;
pub const BOOLEAN: u8 = 2;
pub const BYTES: u8 = 3;
pub const COUNTER_COLUMN: u8 = 7;
pub const INT32: u8 = 17;
pub const LIST: u8 = 20;
pub const LONG: u8 = 21;
pub const MAP: u8 = 22;
pub const REVERSED: u8 = 24;
pub const SET: u8 = 25;
pub const TIMESTAMP: u8 = 28;
pub const USER: u8 = 32;
pub const UTF8: u8 = 33;

const PACKAGE: &[u8] = b"org.apache.cassandra.db.marshal.";

/// "type parameters may nest to a depth of 16" (DECISIONS T8)
pub const MAX_DEPTH: u32 = 16;

/// What a type string says: its line, under Reversed its parameter's.
#[derive(Clone, Copy, PartialEq, Eq, Debug)]
pub struct Type {
    pub line: u8,
    pub reversed: bool,
}

/// Where a type string stands.
#[derive(Clone, Copy, PartialEq, Eq, Debug)]
pub enum Use {
    /// Key or clustering.
    Key,
    /// Static or regular column.
    Column,
}

pub fn line_of(number: u8) -> Option<&'static Line> {
    TABLE.get(usize::from(number).checked_sub(1)?)
}

/// Width of a line, or [`VARIABLE`].
pub fn width_of(number: u8) -> u8 {
    line_of(number).map_or(VARIABLE, |l| l.width)
}

/// "As the outer type of a static or regular column, or under Reversed there,
/// List, Map, Set, User and CounterColumn are refused." (DECISIONS T10)
pub fn is_refused_column(line: u8) -> bool {
    matches!(line, LIST | MAP | SET | USER | COUNTER_COLUMN)
}

/// Reads a type string.  The refusal is a number only: "The first fault from
/// the left is 7, or 8 for depth, at the string's first byte."
pub fn parse(text: &[u8], place: Use) -> Result<Type, u8> {
    let mut scan = Scan {
        text,
        at: 0,
        depth: 0,
    };
    let outer = scan.type_string(place)?;
    if scan.at < text.len() {
        return Err(number::NOT_CARRIED); // "nothing after"
    }
    Ok(outer)
}

struct Scan<'a> {
    text: &'a [u8],
    at: usize,
    /// Parentheses open at `at`.
    depth: u32,
}

impl Scan<'_> {
    fn peek(&self) -> Option<u8> {
        self.text.get(self.at).copied()
    }

    /// "spaces, tabs and newlines skipped first and after the name"
    fn skip_blanks(&mut self) {
        while matches!(self.peek(), Some(b' ' | b'\t' | b'\n')) {
            self.at += 1;
        }
    }

    /// 001: "only alphanumerical characters and special chars like '-', '+',
    /// '.', '_', '&'".
    fn name(&mut self) -> &[u8] {
        let start = self.at;
        while self.peek().is_some_and(is_name_byte) {
            self.at += 1;
        }
        &self.text[start..self.at]
    }

    /// Blanks, a name, blanks and, where the table says Yes, parameters.
    fn type_string(&mut self, place: Use) -> Result<Type, u8> {
        let line = self.named_line(place)?;
        if line != REVERSED {
            self.other_parameters(line)?;
            return Ok(Type {
                line,
                reversed: false,
            });
        }
        // "Reversed holds one type string, not a Reversed."
        self.open()?;
        let inner = self.named_line(place)?;
        if inner == REVERSED {
            return Err(number::NOT_CARRIED);
        }
        self.other_parameters(inner)?;
        self.close()?;
        Ok(Type {
            line: inner,
            reversed: true,
        })
    }

    /// The line of the name that stands here, blanks skipped around it.
    fn named_line(&mut self, place: Use) -> Result<u8, u8> {
        self.skip_blanks();
        let line = find_line(self.name()).ok_or(number::NOT_CARRIED)?;
        if place == Use::Column && is_refused_column(line) {
            return Err(number::NOT_CARRIED);
        }
        self.skip_blanks();
        Ok(line)
    }

    /// "parameters in balanced parentheses, exactly where 001 says Yes": for
    /// every type but Reversed.
    fn other_parameters(&mut self, line: u8) -> Result<(), u8> {
        let parametrized = line_of(line).is_some_and(|l| l.parametrized);
        if !parametrized {
            // A '(' here is "nothing after"'s fault, told by the caller.
            return Ok(());
        }
        self.balanced()
    }

    /// "Inside others only balance, depth and the characters (letters, digits,
    /// `-+._&,:=>` and space) are checked."
    fn balanced(&mut self) -> Result<(), u8> {
        let outside = self.depth;
        self.open()?;
        while self.depth > outside {
            match self.peek() {
                Some(b'(') => self.open()?,
                Some(b')') => self.close()?,
                Some(b) if is_parameter_byte(b) => self.at += 1,
                _ => return Err(number::NOT_CARRIED),
            }
        }
        Ok(())
    }

    fn open(&mut self) -> Result<(), u8> {
        if self.peek() != Some(b'(') {
            return Err(number::NOT_CARRIED);
        }
        if self.depth == MAX_DEPTH {
            return Err(number::TOO_MANY);
        }
        self.depth += 1;
        self.at += 1;
        Ok(())
    }

    fn close(&mut self) -> Result<(), u8> {
        if self.peek() != Some(b')') {
            return Err(number::NOT_CARRIED);
        }
        self.depth -= 1;
        self.at += 1;
        Ok(())
    }
}

fn is_name_byte(b: u8) -> bool {
    b.is_ascii_alphanumeric() || matches!(b, b'-' | b'+' | b'.' | b'_' | b'&')
}

fn is_parameter_byte(b: u8) -> bool {
    is_name_byte(b) || matches!(b, b',' | b':' | b'=' | b'>' | b' ')
}

/// "empty is BytesType; a name without "." gets
/// "org.apache.cassandra.db.marshal.""
fn find_line(name: &[u8]) -> Option<u8> {
    if name.is_empty() {
        return Some(BYTES);
    }
    let class = if name.contains(&b'.') {
        name.strip_prefix(PACKAGE)?
    } else {
        name
    };
    let index = TABLE.iter().position(|l| l.name.as_bytes() == class)?;
    Some(index as u8 + 1)
}

#[cfg(test)]
mod tests {
    use super::*;

    fn key(text: &str) -> Result<Type, u8> {
        parse(text.as_bytes(), Use::Key)
    }

    fn column(text: &str) -> Result<Type, u8> {
        parse(text.as_bytes(), Use::Column)
    }

    fn plain(line: u8) -> Result<Type, u8> {
        Ok(Type {
            line,
            reversed: false,
        })
    }

    fn reversed(line: u8) -> Result<Type, u8> {
        Ok(Type {
            line,
            reversed: true,
        })
    }

    fn nested(prefix: &str, depth: usize) -> String {
        format!("{prefix}{}{}", "(".repeat(depth), ")".repeat(depth))
    }

    #[test]
    fn the_named_lines_are_those_of_the_table() {
        let named = [
            (ASCII, "AsciiType"),
            (BOOLEAN, "BooleanType"),
            (BYTES, "BytesType"),
            (COUNTER_COLUMN, "CounterColumnType"),
            (INT32, "Int32Type"),
            (LIST, "ListType"),
            (LONG, "LongType"),
            (MAP, "MapType"),
            (REVERSED, "ReversedType"),
            (SET, "SetType"),
            (TIMESTAMP, "TimestampType"),
            (USER, "UserType"),
            (UTF8, "UTF8Type"),
            (34, "UUIDType"),
        ];
        for (number, name) in named {
            assert_eq!(line_of(number).unwrap().name, name);
        }
        assert!(line_of(0).is_none() && line_of(35).is_none());
    }

    #[test]
    fn names_and_blanks() {
        assert_eq!(key("Int32Type"), plain(INT32));
        assert_eq!(
            key("org.apache.cassandra.db.marshal.Int32Type"),
            plain(INT32)
        );
        assert_eq!(key(" \t\nInt32Type\n\t "), plain(INT32));
        assert_eq!(key(""), plain(BYTES));
        assert_eq!(key(" \n\t"), plain(BYTES));
        assert_eq!(key("Int32Type\r"), Err(7));
        assert_eq!(key("\rInt32Type"), Err(7));
        assert_eq!(key("int32type"), Err(7));
        assert_eq!(key(".Int32Type"), Err(7));
        assert_eq!(key("org.apache.cassandra.db.marshal."), Err(7));
        assert_eq!(
            key("org.apache.cassandra.db.marshal.org.apache.cassandra.db.marshal.Int32Type"),
            Err(7)
        );
        assert_eq!(key("marshal.Int32Type"), Err(7));
        assert_eq!(key("Int32Type x"), Err(7));
        assert_eq!(key("Int32Type,"), Err(7));
        assert_eq!(key("("), Err(7));
        assert_eq!(key("()"), Err(7));
        assert_eq!(key(")"), Err(7));
        assert_eq!(parse(b"Int32Type\0", Use::Key), Err(7));
        assert_eq!(parse(b"\xC3\xA9", Use::Key), Err(7));
    }

    #[test]
    fn every_line_with_and_without_parameters() {
        for (i, l) in TABLE.iter().enumerate() {
            let number = i as u8 + 1;
            let bare = key(l.name);
            let with = key(&format!("{} (UTF8Type)", l.name));
            if number == REVERSED {
                assert_eq!((bare, with), (Err(7), reversed(UTF8)));
            } else if l.parametrized {
                assert_eq!((bare, with), (Err(7), plain(number)));
            } else {
                assert_eq!((bare, with), (plain(number), Err(7)));
            }
            let refused = matches!(number, 7 | 20 | 22 | 25 | 32);
            let spelled = if l.parametrized {
                format!("{}(UTF8Type)", l.name)
            } else {
                l.name.into()
            };
            assert_eq!(column(&spelled).is_err(), refused);
            if number != REVERSED {
                let under = column(&format!("ReversedType({spelled})"));
                assert_eq!(under, if refused { Err(7) } else { reversed(number) });
                assert_eq!(key(&format!("ReversedType({spelled})")), reversed(number));
            }
        }
    }

    #[test]
    fn reversed_holds_one_type_string() {
        assert_eq!(key("ReversedType( \tInt32Type\n )"), reversed(INT32));
        assert_eq!(
            key("ReversedType(FrozenType(ListType(Int32Type)))"),
            reversed(15)
        );
        assert_eq!(key("ReversedType(FrozenType(Int32Type) )"), Err(7));
        assert_eq!(key("ReversedType(Int32Type) "), Err(7));
        assert_eq!(key("ReversedType(ReversedType(Int32Type))"), Err(7));
        assert_eq!(
            key("ReversedType(FrozenType(ReversedType(Int32Type)))"),
            reversed(15)
        );
        assert_eq!(key("ReversedType(Int32Type,Int32Type)"), Err(7));
        assert_eq!(key("ReversedType(,Int32Type)"), Err(7));
        assert_eq!(key("ReversedType()"), reversed(BYTES));
        assert_eq!(key("ReversedType(Int32Type"), Err(7));
        assert_eq!(key("ReversedType(Int32Type))"), Err(7));
    }

    #[test]
    fn depth_and_the_first_fault_from_the_left() {
        assert_eq!(key(&nested("ListType", 16)), plain(LIST));
        assert_eq!(key(&nested("ListType", 17)), Err(8));
        assert_eq!(
            key(&format!("ReversedType({})", nested("ListType", 15))),
            reversed(LIST)
        );
        assert_eq!(
            key(&format!("ReversedType({})", nested("ListType", 16))),
            Err(8)
        );
        // A bad character left of the depth fault, and right of it.
        assert_eq!(key(&format!("ListType(#{}", "(".repeat(17))), Err(7));
        assert_eq!(key(&format!("ListType{}#", "(".repeat(17))), Err(8));
        // Unbalanced at the end, right of the depth fault.
        assert_eq!(key(&format!("ListType{}", "(".repeat(17))), Err(8));
        assert_eq!(key(&format!("ListType{}", "(".repeat(16))), Err(7));
        // A name that takes none, or that columns refuse, is left of it.
        assert_eq!(key(&nested("Int32Type", 17)), Err(7));
        assert_eq!(key(&nested("FooType", 17)), Err(7));
        assert_eq!(column(&nested("ListType", 17)), Err(7));
        assert_eq!(column(&nested("FrozenType", 17)), Err(8));
        // Sixteen again and again is no depth fault.
        assert_eq!(
            key(&format!("TupleType({}{})", nested("", 15), nested("", 15))),
            plain(31)
        );
    }

    #[test]
    fn characters_inside_others() {
        assert_eq!(
            key("UserType(ks,6e,61:Int32Type,62=>X-Y+Z._& )"),
            plain(USER)
        );
        assert_eq!(key("TupleType(\t)"), Err(7));
        assert_eq!(key("TupleType(\n)"), Err(7));
        assert_eq!(key("TupleType(;)"), Err(7));
        assert_eq!(key("TupleType(<)"), Err(7));
        assert_eq!(parse(b"TupleType(\xC3\xA9)", Use::Key), Err(7));
        assert_eq!(key("TupleType()"), plain(31));
        assert_eq!(key("TupleType()x"), Err(7));
        assert_eq!(key("TupleType() "), Err(7));
        assert_eq!(key("TupleType)("), Err(7));
    }
}
