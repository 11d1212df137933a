//! Scylla.db: "Layout as 000; tags 1 to 4 known, at most once each, filled
//! exactly; others are skipped by their size."

use crate::reader::Reader;
use crate::refusal::{number, test_limit, Part, Refusal};

const SHARDING: u32 = 1;
const FEATURES: u32 = 2;
const ATTRIBUTES: u32 = 3;
const RUN_IDENTIFIER: u32 = 4;

/// "each component's place": where its bytes stand behind tag and size.
#[derive(Clone, Copy, PartialEq, Eq, Debug, Default)]
pub struct Place {
    pub offset: u64,
    pub length: u64,
}

/// "The answer gives feature bits, run identifier and each component's place,
/// zeros if absent."
#[derive(Clone, Copy, PartialEq, Eq, Debug, Default)]
pub struct ScyllaInfo {
    pub features: u64,
    pub run_identifier: [u8; 16],
    /// Places of tags 1 to 4.
    pub places: [Place; 4],
}

/// Reads a whole Scylla.db.
pub fn read_scylla(bytes: &[u8]) -> Result<ScyllaInfo, Refusal> {
    test_limit(Part::Scylla, bytes.len())?;
    let mut reader = Reader::new(bytes, 0, Part::Scylla);
    let mut info = ScyllaInfo::default();
    let mut seen = [false; 5];
    for _ in 0..reader.u32()? {
        read_component(&mut reader, &mut info, &mut seen)?;
    }
    reader.filled()?;
    Ok(info)
}

fn read_component(
    reader: &mut Reader,
    info: &mut ScyllaInfo,
    seen: &mut [bool; 5],
) -> Result<(), Refusal> {
    let tag_at = reader.at();
    let tag = reader.u32()?;
    let known = (SHARDING..=RUN_IDENTIFIER).contains(&tag);
    if known && std::mem::replace(&mut seen[tag as usize], true) {
        return Err(reader.refuse(number::TWICE_OR_UNORDERED, tag_at));
    }
    let size_at = reader.at();
    let size = reader.u32()?;
    let mut body = reader.region(u64::from(size), size_at)?;
    if !known {
        return Ok(());
    }
    info.places[tag as usize - 1] = Place {
        offset: body.at() as u64,
        length: u64::from(size),
    };
    match tag {
        SHARDING => read_sharding(&mut body)?,
        FEATURES => info.features = body.u64()?,
        ATTRIBUTES => read_attributes(&mut body)?,
        _ => info.run_identifier = read_run_identifier(&mut body)?,
    }
    body.filled()
}

/// One end of a token range.
#[derive(Clone, Copy)]
struct Bound {
    at: usize,
    exclusive: bool,
    token: i64,
}

/// 000: "token_bound = exclusive_flag token", "0=inclusive, 1=exclusive";
/// "Tokens are eight bytes, signed."
fn read_bound(reader: &mut Reader) -> Result<Bound, Refusal> {
    let at = reader.at();
    let flag = reader.u8()?;
    if flag > 1 {
        return Err(reader.refuse(number::BAD_FLAGS, at));
    }
    let size_at = reader.at();
    let size = reader.u16()?;
    // 2 before 7 on the one field (DECISIONS Y6).
    let token = reader.announced(u64::from(size), size_at)?;
    let token: [u8; 8] = token
        .try_into()
        .map_err(|_| reader.refuse(number::NOT_CARRIED, size_at))?;
    Ok(Bound {
        at,
        exclusive: flag == 1,
        token: i64::from_be_bytes(token),
    })
}

/// Order is told at the later bound, once it is read (DECISIONS Y7).
fn read_sharding(reader: &mut Reader) -> Result<(), Refusal> {
    let mut before: Option<Bound> = None;
    for _ in 0..reader.u32()? {
        let left = read_bound(reader)?;
        if before.is_some_and(|right| !is_above(right, left)) {
            return Err(reader.refuse(number::TWICE_OR_UNORDERED, left.at));
        }
        let right = read_bound(reader)?;
        if !is_range(left, right) {
            return Err(reader.refuse(number::TWICE_OR_UNORDERED, right.at));
        }
        before = Some(right);
    }
    Ok(())
}

/// "In a range left < right, or equal and both inclusive".
fn is_range(left: Bound, right: Bound) -> bool {
    let both_inclusive = !left.exclusive && !right.exclusive;
    left.token < right.token || (left.token == right.token && both_inclusive)
}

/// "the next left is above this right, or equal and not both inclusive".
fn is_above(right: Bound, next_left: Bound) -> bool {
    let both_inclusive = !right.exclusive && !next_left.exclusive;
    next_left.token > right.token || (next_left.token == right.token && !both_inclusive)
}

/// "Attribute keys aren't compared."
fn read_attributes(reader: &mut Reader) -> Result<(), Refusal> {
    for _ in 0..reader.u32()? {
        for _key_then_value in 0..2 {
            let size_at = reader.at();
            let size = reader.u32()?;
            reader.announced(u64::from(size), size_at)?;
        }
    }
    Ok(())
}

/// 000: "uuid = uuid_high_bits uuid_low_bits", both be64.
fn read_run_identifier(reader: &mut Reader) -> Result<[u8; 16], Refusal> {
    let high = reader.u64()?;
    let low = reader.u64()?;
    Ok(((u128::from(high) << 64) | u128::from(low)).to_be_bytes())
}

#[cfg(test)]
mod tests {
    use super::*;

    fn file(components: &[(u32, &[u8])]) -> Vec<u8> {
        let mut out = (components.len() as u32).to_be_bytes().to_vec();
        for (tag, body) in components {
            out.extend(tag.to_be_bytes());
            out.extend((body.len() as u32).to_be_bytes());
            out.extend(*body);
        }
        out
    }

    fn refused(bytes: &[u8]) -> (u8, u64) {
        let r = read_scylla(bytes).expect_err("refused");
        assert_eq!(r.slice.part, Part::Scylla);
        (r.number, r.place)
    }

    /// Ranges of (left exclusive, left, right exclusive, right).
    fn sharding(ranges: &[(u8, i64, u8, i64)]) -> Vec<u8> {
        let mut out = (ranges.len() as u32).to_be_bytes().to_vec();
        for &(le, l, re, r) in ranges {
            for (flag, token) in [(le, l), (re, r)] {
                out.extend([flag, 0, 8]);
                out.extend(token.to_be_bytes());
            }
        }
        out
    }

    #[test]
    fn answers() {
        assert_eq!(read_scylla(&file(&[])), Ok(ScyllaInfo::default()));
        let uuid: Vec<u8> = (1..=16).collect();
        let attributes = [
            0, 0, 0, 2, 0, 0, 0, 1, b'k', 0, 0, 0, 0, 0, 0, 0, 1, b'k', 0, 0, 0, 0,
        ];
        let bytes = file(&[
            (9, b"xyz"),
            (4, &uuid),
            (9, b""),
            (2, &5u64.to_be_bytes()),
            (3, &attributes),
        ]);
        let info = read_scylla(&bytes).unwrap();
        assert_eq!(info.features, 5);
        assert_eq!(info.run_identifier.to_vec(), uuid);
        assert_eq!(info.places[0], Place::default());
        assert_eq!(
            info.places[3],
            Place {
                offset: 23,
                length: 16
            }
        );
        assert_eq!(
            info.places[1],
            Place {
                offset: 55,
                length: 8
            }
        );
        assert_eq!(
            info.places[2],
            Place {
                offset: 71,
                length: 22
            }
        );
    }

    #[test]
    fn regions() {
        assert_eq!(refused(&[]), (2, 0));
        assert_eq!(refused(&[0, 0, 0, 1]), (2, 4));
        assert_eq!(refused(&[0, 0, 0, 1, 0, 0, 0, 2, 0]), (2, 8));
        assert_eq!(refused(&[0, 0, 0, 1, 0, 0, 0, 2, 0, 0, 0, 8, 1]), (2, 8));
        assert_eq!(refused(&[0, 0, 0, 0, 1]), (3, 4));
        assert_eq!(refused(&file(&[(2, &[0; 9])])), (3, 20));
        assert_eq!(refused(&file(&[(2, &[0; 7])])), (2, 12));
        assert_eq!(refused(&file(&[(4, &[0; 12])])), (2, 20));
        assert_eq!(refused(&file(&[(4, &[0; 17])])), (3, 28));
        assert_eq!(
            refused(&file(&[(3, &[0, 0, 0, 1, 0, 0, 0, 2, 1])])),
            (2, 16)
        );
        assert_eq!(refused(&file(&[(1, &[0; 8]), (1, &[0; 4])])), (3, 16));
        assert_eq!(refused(&file(&[(1, &[0; 4]), (1, &[0; 4])])), (9, 16));
        assert_eq!(
            refused(&[0xFF, 0xFF, 0xFF, 0xFF, 0, 0, 0, 9, 0, 0, 0, 0]),
            (2, 12)
        );
    }

    #[test]
    fn sharding_ranges() {
        let good = |r: &[(u8, i64, u8, i64)]| read_scylla(&file(&[(1, &sharding(r))])).is_ok();
        assert!(good(&[]));
        assert!(good(&[(0, 5, 0, 5)]));
        assert!(good(&[(1, -5, 1, -4), (1, -4, 0, i64::MAX)]));
        assert!(good(&[(1, 1, 0, 2), (1, 2, 0, 3)]));
        assert!(good(&[(0, i64::MIN, 0, i64::MIN), (1, i64::MIN, 0, 0)]));
        let bad = |r: &[(u8, i64, u8, i64)]| refused(&file(&[(1, &sharding(r))]));
        // Body starts at 12; the count takes four bytes, a bound eleven.
        assert_eq!(bad(&[(1, 5, 0, 5)]), (9, 27));
        assert_eq!(bad(&[(0, 5, 1, 5)]), (9, 27));
        assert_eq!(bad(&[(0, 5, 0, 4)]), (9, 27));
        assert_eq!(bad(&[(0, 1, 0, 2), (0, 2, 0, 3)]), (9, 38));
        assert_eq!(bad(&[(0, 1, 0, 2), (1, 1, 0, 3)]), (9, 38));
        assert_eq!(bad(&[(2, 5, 0, 5)]), (4, 16));
        assert_eq!(bad(&[(0, 5, 0xFF, 6)]), (4, 27));
    }

    #[test]
    fn token_lengths() {
        let body = |size: u16, left: usize| {
            let mut out = vec![0, 0, 0, 1, 0];
            out.extend(size.to_be_bytes());
            out.extend(vec![0; left]);
            out
        };
        assert_eq!(refused(&file(&[(1, &body(7, 30))])), (7, 17));
        assert_eq!(refused(&file(&[(1, &body(9, 30))])), (7, 17));
        assert_eq!(refused(&file(&[(1, &body(9, 8))])), (2, 17));
        assert_eq!(refused(&file(&[(1, &body(8, 7))])), (2, 17));
        assert_eq!(refused(&file(&[(1, &[0, 0, 0, 1, 0, 0])])), (2, 17));
    }
}
