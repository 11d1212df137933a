//! Type strings: sound in any spelling, and put together at random.

use reference::rng::Rng;
use reference::types::{is_refused_column, Use, REVERSED, TABLE};

use super::damage::damage;

const PACKAGE: &str = "org.apache.cassandra.db.marshal.";

/// What stands inside a type's parameters; the first of them are carried there.
const INSIDE: [&str; 12] = [
    "a",
    "Z",
    "09",
    "-+._&",
    ",",
    ":",
    "=>",
    " ",
    "Int32Type",
    "ReversedType",
    "!",
    "\t",
];

const CARRIED: usize = 10;

/// A type string that is carried.
pub fn sound(rng: &mut Rng, place: Use) -> String {
    if rng.one_in(4) {
        return plain(rng, place, 16);
    }
    match rng.below(12) {
        0 => format!(
            "{}ReversedType{}({})",
            blanks(rng),
            blanks(rng),
            plain(rng, place, 15)
        ),
        1 => String::new(),
        2 => blanks(rng),
        _ => rng
            .pick(&["Int32Type", "UTF8Type", "LongType", "UUIDType"])
            .to_string(),
    }
}

/// Any line but Reversed, with blanks around its name.
fn plain(rng: &mut Rng, place: Use, most: usize) -> String {
    let line = loop {
        let index = rng.index(TABLE.len());
        let number = index as u8 + 1;
        if number != REVERSED && !(place == Use::Column && is_refused_column(number)) {
            break &TABLE[index];
        }
    };
    let package = if rng.one_in(3) { PACKAGE } else { "" };
    let parameters = match line.parametrized {
        true => parameters(rng, most),
        false => String::new(),
    };
    let (before, behind) = (blanks(rng), blanks(rng));
    format!("{before}{package}{}{behind}{parameters}", line.name)
}

fn blanks(rng: &mut Rng) -> String {
    let count = rng.index(3) * rng.index(2);
    (0..count).map(|_| *rng.pick(&[' ', '\t', '\n'])).collect()
}

/// Balanced parentheses with this depth or less.
fn parameters(rng: &mut Rng, most: usize) -> String {
    let mut out = String::from("(");
    let mut depth = 1;
    let deep = rng.one_in(6);
    for _ in 0..rng.below(8) + if deep { 30 } else { 0 } {
        match rng.below(if deep { 6 } else { 4 }) {
            0 if depth > 1 && !deep => {
                out.push(')');
                depth -= 1;
            }
            0 | 4 | 5 if depth < most => {
                out.push('(');
                depth += 1;
            }
            _ => out.push_str(INSIDE[rng.index(CARRIED)]),
        }
    }
    out.push_str(&")".repeat(depth));
    out
}

/// Pieces of any kind in a row.
const PIECES: [&str; 30] = [
    "ReversedType",
    "ReversedType(",
    "Int32Type",
    "ListType",
    "MapType",
    "FrozenType",
    "TupleType",
    "UserType",
    "UTF8Type",
    "UUIDType",
    "CounterColumnType",
    "PartitionerDefinedOrder",
    PACKAGE,
    "marshal.",
    "(",
    "(",
    "(",
    ")",
    ")",
    ")",
    " ",
    "\t",
    "\n",
    "\r",
    ",",
    "x",
    ".",
    "#",
    "\u{e9}",
    "int32type",
];

/// A type string that may be carried or not.
pub fn any(rng: &mut Rng) -> Vec<u8> {
    match rng.below(6) {
        0 | 1 => nested(rng).into_bytes(),
        2 | 3 => {
            let mut text = sound(rng, Use::Key).into_bytes();
            match rng.below(2) {
                0 => damage(rng, &mut text),
                _ => text.insert(rng.index(text.len() + 1), *rng.pick(b"\r\t\n ().,!-")),
            }
            text
        }
        _ => pieces(rng).into_bytes(),
    }
}

fn pieces(rng: &mut Rng) -> String {
    let count = 1 + rng.below(7);
    let text: String = (0..count).map(|_| *rng.pick(&PIECES)).collect();
    match rng.below(4) {
        0 => format!("ReversedType({text})"),
        1 => format!("TupleType({text})"),
        _ => text,
    }
}

/// Parentheses to a depth of 15 to 18, closed or not quite, a character among
/// them.
fn nested(rng: &mut Rng) -> String {
    let name = *rng.pick(&["FrozenType", "ListType", "TupleType", "Int32Type", ""]);
    let reversed = rng.one_in(3);
    let depth = 15 + rng.index(4) - usize::from(reversed && rng.one_in(2));
    let mut text = format!("{name}{}{}", "(".repeat(depth), ")".repeat(depth));
    if rng.one_in(3) {
        let at = rng.index(text.len() + 1);
        let piece = *rng.pick(&INSIDE);
        text.insert_str(at, piece);
    }
    if rng.one_in(8) {
        text.truncate(rng.index(text.len() + 1));
    }
    if rng.one_in(8) {
        text.push_str("()");
    }
    match reversed {
        true => format!("ReversedType({text})"),
        false => text,
    }
}
