//! "Records of 64 bytes, no header".

pub const LEN: usize = 64;

pub const PARTITION: u8 = 1;
pub const STATIC_ROW: u8 = 2;
pub const ROW: u8 = 3;
pub const MARKER: u8 = 4;
pub const CLUSTERING: u8 = 5;
pub const CELL: u8 = 6;
pub const END: u8 = 7;

/// Flags: "1 timestamp, 2 TTL, 4 deletion or tombstone, always on markers, 8
/// empty key or value, not on a tombstone".
pub const HAS_TIMESTAMP: u8 = 1;
pub const HAS_TTL: u8 = 2;
pub const HAS_DELETION: u8 = 4;
pub const IS_EMPTY: u8 = 8;

// Where the numbers stand in a record.
pub const TTL_AT: usize = 4;
pub const TIMESTAMP_AT: usize = 8;
pub const MARK_AT: usize = 16;
pub const LOCAL_AT: usize = 24;
pub const EXPIRY_AT: usize = 28;
pub const SECOND_MARK_AT: usize = 32;
pub const SECOND_LOCAL_AT: usize = 40;
pub const OFFSET_AT: usize = 48;
pub const LENGTH_AT: usize = 56;

/// One record, taken apart.
#[derive(Clone, Copy, PartialEq, Eq, Debug, Default)]
pub struct Record {
    pub kind: u8,
    pub flags: u8,
    /// "column from 0 or marker kind"
    pub column: u8,
    pub ttl: u32,
    pub timestamp: i64,
    pub mark: i64,
    /// The mark's local time, "a tombstone cell's too".
    pub local: u32,
    pub expiry: u32,
    pub second_mark: i64,
    pub second_local: u32,
    pub offset: u64,
    pub length: u64,
}

impl Record {
    #[inline]
    pub fn to_bytes(&self) -> [u8; LEN] {
        let mut out = [0; LEN];
        out[0] = self.kind;
        out[1] = self.flags;
        out[2] = self.column;
        out[TTL_AT..8].copy_from_slice(&self.ttl.to_be_bytes());
        out[TIMESTAMP_AT..16].copy_from_slice(&self.timestamp.to_be_bytes());
        out[MARK_AT..24].copy_from_slice(&self.mark.to_be_bytes());
        out[LOCAL_AT..28].copy_from_slice(&self.local.to_be_bytes());
        out[EXPIRY_AT..32].copy_from_slice(&self.expiry.to_be_bytes());
        out[SECOND_MARK_AT..40].copy_from_slice(&self.second_mark.to_be_bytes());
        out[SECOND_LOCAL_AT..44].copy_from_slice(&self.second_local.to_be_bytes());
        out[OFFSET_AT..56].copy_from_slice(&self.offset.to_be_bytes());
        out[LENGTH_AT..64].copy_from_slice(&self.length.to_be_bytes());
        out
    }

    /// The record in `raw`, if "the rest [is] zero": bytes 3 and 44 to 47.
    pub fn from_bytes(raw: &[u8; LEN]) -> Option<Record> {
        if raw[3] != 0 || raw[44..48] != [0; 4] {
            return None;
        }
        Some(Record::from_bytes_loosely(raw))
    }

    /// The record in `raw`, whatever the unused bytes hold.
    pub fn from_bytes_loosely(raw: &[u8; LEN]) -> Record {
        Record {
            kind: raw[0],
            flags: raw[1],
            column: raw[2],
            ttl: word(raw, TTL_AT),
            timestamp: long(raw, TIMESTAMP_AT) as i64,
            mark: long(raw, MARK_AT) as i64,
            local: word(raw, LOCAL_AT),
            expiry: word(raw, EXPIRY_AT),
            second_mark: long(raw, SECOND_MARK_AT) as i64,
            second_local: word(raw, SECOND_LOCAL_AT),
            offset: long(raw, OFFSET_AT),
            length: long(raw, LENGTH_AT),
        }
    }

    /// "twelve decimal fields a record, in the order above"
    pub fn print(&self) -> String {
        format!(
            "{} {} {} {} {} {} {} {} {} {} {} {}",
            self.kind,
            self.flags,
            self.column,
            self.ttl,
            self.timestamp,
            self.mark,
            self.local,
            self.expiry,
            self.second_mark,
            self.second_local,
            self.offset,
            self.length
        )
    }

    /// The bytes that offset and length show, if they lie in `bytes`.
    pub fn part_of<'a>(&self, bytes: &'a [u8]) -> Option<&'a [u8]> {
        let end = self.offset.checked_add(self.length)?;
        bytes.get(usize::try_from(self.offset).ok()?..usize::try_from(end).ok()?)
    }

    /// Whether offset and length show a key or value, and not a whole item.
    pub fn shows_value(&self) -> bool {
        matches!(self.kind, PARTITION | CLUSTERING | CELL)
    }
}

fn word(raw: &[u8; LEN], at: usize) -> u32 {
    u32::from_be_bytes([raw[at], raw[at + 1], raw[at + 2], raw[at + 3]])
}

fn long(raw: &[u8; LEN], at: usize) -> u64 {
    (u64::from(word(raw, at)) << 32) | u64::from(word(raw, at + 4))
}

#[cfg(test)]
mod tests {
    use super::*;
    use crate::rng::Rng;

    #[test]
    fn bytes_round_trip() {
        let mut rng = Rng::new(7);
        for _ in 0..1000 {
            let mut raw: [u8; LEN] = rng.bytes(LEN).try_into().unwrap();
            raw[3] = 0;
            raw[44..48].fill(0);
            assert_eq!(Record::from_bytes(&raw).unwrap().to_bytes(), raw);
            for at in [3, 44, 45, 46, 47] {
                let mut bad = raw;
                bad[at] = 1;
                assert_eq!(Record::from_bytes(&bad), None);
            }
        }
    }
}
