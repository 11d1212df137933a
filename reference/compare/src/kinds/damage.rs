//! Damage to any bytes, beside the reference's own.

use reference::gen;
use reference::rng::Rng;

/// Flips, overwrites, cuts, insertions and deletions, of single bytes and of
/// runs.
pub fn damage(rng: &mut Rng, bytes: &mut Vec<u8>) {
    if !rng.one_in(3) || bytes.is_empty() {
        return gen::damage(rng, bytes);
    }
    let at = rng.index(bytes.len());
    let len = 1 + rng.index((bytes.len() - at).min(12));
    let run = at..at + len;
    match rng.below(6) {
        0 => drop(bytes.drain(run)),
        1 => bytes[run].fill(*rng.pick(&[0x00, 0x01, 0x7F, 0x80, 0xFF])),
        2 => {
            let other = rng.bytes(len);
            bytes[run].copy_from_slice(&other);
        }
        3 => {
            let more = rng.bytes(len);
            drop(bytes.splice(at..at, more));
        }
        4 => {
            let copy = bytes[run].to_vec();
            let to = rng.index(bytes.len() + 1);
            drop(bytes.splice(to..to, copy));
        }
        _ => {
            let cut = bytes.len() - 1 - rng.index(bytes.len().min(9));
            bytes.truncate(cut);
        }
    }
}

/// A number beside `value`, or an odd one.
pub fn beside(rng: &mut Rng, value: u64) -> u64 {
    match rng.below(8) {
        0 | 1 => value.wrapping_add(1),
        2 | 3 => value.wrapping_sub(1),
        4 => 0,
        5 => value.wrapping_add(1 << 32),
        6 => *rng.pick(&[0x7FFF_FFFF, 0x8000_0000, 0xFFFF_FFFF, 1 << 63, u64::MAX]),
        _ => rng.below(2 * value.min(1 << 40) + 4),
    }
}
