//! "A varint's first byte has n leading one bits, 0 to 8, and n bytes follow;
//! the bits after the marker, then the bytes, highest first, are the value."

use crate::refusal::{number, test_limit, test_room, Part, Refusal};

/// The longest form: the first byte and eight more.
pub const MAX_LEN: usize = 9;

/// The call that reads one varint of `bytes` from `at`, in a region that ends
/// at `end`: its value and the place behind it.  2 at `at` where it does not
/// stand there whole, or where `at` or `end` is none of the slice (DECISIONS N2,
/// N6).
pub fn read_at(bytes: &[u8], at: usize, end: usize) -> Result<(u64, usize), Refusal> {
    test_limit(Part::Data, bytes.len())?;
    let found = bytes.get(at..end).and_then(read);
    match found {
        Some((value, len)) => Ok((value, at + len)),
        None => Err(Refusal::new(number::PASSES_END, Part::Data, at)),
    }
}

/// The call that puts the shortest form of `value` at the start of a lent
/// buffer of `output` bytes: those bytes (DECISIONS N6).
pub fn put(output: usize, value: u64) -> Result<Vec<u8>, Refusal> {
    test_limit(Part::Output, output)?;
    test_room(len(value), output)?;
    let mut out = Vec::with_capacity(MAX_LEN);
    write(&mut out, value);
    Ok(out)
}

/// Value and length of the varint that `bytes` starts with, or nothing when
/// `bytes` ends before it.  "Longer forms are read".
#[inline]
pub fn read(bytes: &[u8]) -> Option<(u64, usize)> {
    let first = *bytes.first()?;
    if first < 0x80 {
        return Some((u64::from(first), 1));
    }
    read_long(first, bytes)
}

#[inline]
fn read_long(first: u8, bytes: &[u8]) -> Option<(u64, usize)> {
    let following = first.leading_ones() as usize;
    // The marker is the leading ones and, below eight of them, a zero.
    let high = u64::from(first) & (0x7F_u64 >> following);
    let low = match bytes[1..].first_chunk::<8>() {
        // Eight bytes are at hand: take the first `following` of them at once.
        Some(eight) => u64::from_be_bytes(*eight) >> (64 - 8 * following),
        None => {
            let rest = bytes.get(1..1 + following)?;
            rest.iter().fold(0, |sum, &b| (sum << 8) | u64::from(b))
        }
    };
    // With eight bytes following there are no high bits.
    Some((high.wrapping_shl(8 * following as u32) | low, 1 + following))
}

/// Length of the shortest form of `value`, 1 to 9.
#[inline]
pub fn len(value: u64) -> usize {
    let bits = 64 - (value | 1).leading_zeros() as usize;
    if bits > 56 {
        MAX_LEN
    } else {
        bits.div_ceil(7)
    }
}

/// Appends the shortest form: "the writer uses the shortest".
#[inline]
pub fn write(out: &mut Vec<u8>, value: u64) {
    if value < 0x80 {
        out.push(value as u8);
    } else {
        write_form(out, value, len(value));
    }
}

/// Appends the form of `total` bytes, which must be long enough.
pub fn write_form(out: &mut Vec<u8>, value: u64, total: usize) {
    debug_assert!(len(value) <= total && total <= MAX_LEN);
    let following = total - 1;
    let marker = !(0xFF_u32 >> following) as u8;
    let bytes = value.to_be_bytes();
    if following == 8 {
        out.push(0xFF);
        out.extend_from_slice(&bytes);
    } else {
        let start = out.len();
        out.extend_from_slice(&bytes[8 - total..]);
        out[start] |= marker;
    }
}

#[cfg(test)]
mod tests {
    use super::*;
    use crate::rng::Rng;

    fn written(value: u64) -> Vec<u8> {
        let mut out = Vec::new();
        write(&mut out, value);
        out
    }

    /// "127 is 7F; 128 is 80 80; 2^56 is FF 01 and seven 00; 2^64-1 is nine FF."
    #[test]
    fn the_four_varints() {
        let mut two56 = vec![0xFF, 0x01];
        two56.extend([0; 7]);
        let table: [(u64, Vec<u8>); 4] = [
            (127, vec![0x7F]),
            (128, vec![0x80, 0x80]),
            (1 << 56, two56),
            (u64::MAX, vec![0xFF; 9]),
        ];
        for (value, bytes) in table {
            assert_eq!(written(value), bytes);
            assert_eq!(read(&bytes), Some((value, bytes.len())));
        }
    }

    #[test]
    fn edges_of_each_length() {
        for total in 1..=8usize {
            let top = (1u64 << (7 * total)) - 1;
            assert_eq!(len(top), total);
            assert_eq!(written(top).len(), total);
            assert_eq!(len(top + 1), total + 1);
            assert_eq!(written(top + 1).len(), total + 1);
        }
        assert_eq!(len(0), 1);
    }

    #[test]
    fn random_round_trip_in_every_form() {
        let mut rng = Rng::new(1);
        for _ in 0..20_000 {
            let value = rng.next() >> rng.below(64);
            for total in len(value)..=MAX_LEN {
                let mut out = Vec::new();
                write_form(&mut out, value, total);
                assert_eq!(out.len(), total);
                assert_eq!(read(&out), Some((value, total)));
                for cut in 0..total {
                    assert_eq!(read(&out[..cut]), None);
                }
                out.push(0xAB);
                assert_eq!(read(&out), Some((value, total)));
            }
        }
    }
}
