//! The proved library's calls through C, one safe function each.
//!
//! Every answer starts with three words: number, slice and place.  All three
//! are 0 where the call took what it was given; else the words behind are 0.

use std::fmt;

use reference::data::Bases;
use reference::{Part, Refusal, Side, Slice};

extern "C" {
    fn sstable_varint_read(
        bytes: *const u8,
        bytes_len: usize,
        at: usize,
        end: usize,
        answer: *mut [u64; 5],
    );
    fn sstable_varint_len(value: u64) -> usize;
    fn sstable_varint_put(out: *mut u8, out_len: usize, value: u64, answer: *mut [u64; 4]);
    fn sstable_statistics_read(
        file: *const u8,
        file_len: usize,
        schema: *mut u8,
        schema_len: usize,
        answer: *mut [u64; 12],
    );
    fn sstable_schema_check(schema: *const u8, schema_len: usize, answer: *mut [u64; 6]);
    fn sstable_schema_check_named(
        schema: *const u8,
        schema_len: usize,
        statistics: *const u8,
        statistics_len: usize,
        answer: *mut [u64; 6],
    );
    fn sstable_schema_same(
        a: *const u8,
        a_len: usize,
        t: *const u8,
        t_len: usize,
        b: *const u8,
        b_len: usize,
        u: *const u8,
        u_len: usize,
    ) -> bool;
    fn sstable_scylla_read(file: *const u8, file_len: usize, answer: *mut [u64; 14]);
    fn sstable_step(
        schema: *const u8,
        schema_len: usize,
        bases: *const [u64; 3],
        data: *const u8,
        data_len: usize,
        state: *mut [u64; 16],
        answer: *mut [u64; 15],
    );
    fn sstable_value(
        kind: u64,
        offset: usize,
        length: usize,
        data: *const u8,
        data_len: usize,
        answer: *mut [u64; 2],
    );
    fn sstable_count(
        schema: *const u8,
        schema_len: usize,
        bases: *const [u64; 3],
        data: *const u8,
        data_len: usize,
        answer: *mut [u64; 4],
    );
    fn sstable_list(
        schema: *const u8,
        schema_len: usize,
        bases: *const [u64; 3],
        data: *const u8,
        data_len: usize,
        out: *mut u8,
        out_len: usize,
        answer: *mut [u64; 4],
    );
    fn sstable_write(
        schema: *const u8,
        schema_len: usize,
        bases: *const [u64; 3],
        records: *const u8,
        records_len: usize,
        bytes: *const u8,
        bytes_len: usize,
        out: *mut u8,
        out_len: usize,
        answer: *mut [u64; 4],
    );
}

/// A schema, bases and Data, as the calls for Data take them: the bases are
/// timestamp (its signed number's bits), local deletion time and TTL.
#[derive(Clone, Copy)]
pub struct Table<'a> {
    pub schema: &'a [u8],
    pub bases: &'a [u64; 3],
    pub data: &'a [u8],
}

/// A schema, bases, records and the bytes beside them, as the writer takes them.
#[derive(Clone, Copy)]
pub struct Listed<'a> {
    pub schema: &'a [u8],
    pub bases: &'a [u64; 3],
    pub records: &'a [u8],
    pub bytes: &'a [u8],
}

/// Bases as words.
pub fn bases_words(bases: Bases) -> [u64; 3] {
    [bases.timestamp as u64, bases.local as u64, bases.ttl as u64]
}

/// The walk's state, in words.
pub type State = [u64; 16];

/// Why a call has no answer.
#[derive(Debug, PartialEq, Eq)]
pub enum Fault {
    Refused(Refusal),
    /// What no answer may be: words of another form, or a lent byte changed.
    Broken(String),
}

pub type Answer<T> = Result<T, Fault>;

impl fmt::Display for Fault {
    fn fmt(&self, f: &mut fmt::Formatter<'_>) -> fmt::Result {
        match self {
            Fault::Refused(refusal) => refusal.fmt(f),
            Fault::Broken(what) => write!(f, "broken answer: {what}"),
        }
    }
}

/// Words that no call leaves in an answer.
const UNTOUCHED: u64 = 0xA5A5_A5A5_A5A5_A5A5;

/// The varint of `bytes` at `at`, in a region that ends at `end`: its value and
/// the place behind it.
#[inline]
pub fn varint_read(bytes: &[u8], at: usize, end: usize) -> Answer<(u64, usize)> {
    let mut words = [UNTOUCHED; 5];
    varint_read_words(bytes, at, end, &mut words);
    taken(&words).map(|rest| (rest[0], rest[1] as usize))
}

/// The same, the answer's words as they are.
#[inline]
pub fn varint_read_words(bytes: &[u8], at: usize, end: usize, words: &mut [u64; 5]) {
    // SAFETY: pointer and length are those of a slice, the answer has room for
    // five words, and the library takes any `at` and `end`.
    unsafe { sstable_varint_read(bytes.as_ptr(), bytes.len(), at, end, words) }
}

/// The length of a number's shortest form.
pub fn varint_len(value: u64) -> usize {
    // SAFETY: numbers alone.
    unsafe { sstable_varint_len(value) }
}

/// Stores the shortest form of `value` at the start of `output`; its length.
pub fn varint_put(output: &mut [u8], value: u64) -> Answer<usize> {
    let mut words = [UNTOUCHED; 4];
    // SAFETY: pointer and length are those of a slice lent for writing, and the
    // answer has room for four words.
    unsafe { sstable_varint_put(output.as_mut_ptr(), output.len(), value, &mut words) };
    taken(&words).map(|rest| rest[0] as usize)
}

/// What a Statistics says beside the schema records that it puts into the lent
/// buffer: the words from 3 on.
pub fn statistics_read(file: &[u8], schema: &mut [u8]) -> Answer<[u64; 9]> {
    let words = asked::<12>(|words| {
        // SAFETY: pointers and lengths are those of slices, the second lent for
        // writing, and the answer has room for twelve words.
        unsafe {
            sstable_statistics_read(
                file.as_ptr(),
                file.len(),
                schema.as_mut_ptr(),
                schema.len(),
                words,
            )
        }
    })?;
    taken(&words).map(|rest| rest.try_into().expect("nine words"))
}

/// Checks schema records: counts of clustering, static and regular columns.
pub fn schema_check(schema: &[u8]) -> Answer<[u64; 3]> {
    let words = asked::<6>(|words| {
        // SAFETY: pointer and length are those of a slice, and the answer has
        // room for six words.
        unsafe { sstable_schema_check(schema.as_ptr(), schema.len(), words) }
    })?;
    taken(&words).map(|rest| rest.try_into().expect("three words"))
}

/// The same, and each name's place in `statistics`.
pub fn schema_check_named(schema: &[u8], statistics: &[u8]) -> Answer<[u64; 3]> {
    let words = asked::<6>(|words| {
        // SAFETY: pointers and lengths are those of slices, and the answer has
        // room for six words.
        unsafe {
            sstable_schema_check_named(
                schema.as_ptr(),
                schema.len(),
                statistics.as_ptr(),
                statistics.len(),
                words,
            )
        }
    })?;
    taken(&words).map(|rest| rest.try_into().expect("three words"))
}

/// Whether two schemas that the named check takes are equal.
pub fn schema_same(a: &[u8], t: &[u8], b: &[u8], u: &[u8]) -> bool {
    // SAFETY: pointers and lengths are those of slices.
    unsafe {
        sstable_schema_same(
            a.as_ptr(),
            a.len(),
            t.as_ptr(),
            t.len(),
            b.as_ptr(),
            b.len(),
            u.as_ptr(),
            u.len(),
        )
    }
}

/// What a Scylla.db says: the words from 3 on.
pub fn scylla_read(file: &[u8]) -> Answer<[u64; 11]> {
    let words = asked::<14>(|words| {
        // SAFETY: pointer and length are those of a slice, and the answer has
        // room for fourteen words.
        unsafe { sstable_scylla_read(file.as_ptr(), file.len(), words) }
    })?;
    taken(&words).map(|rest| rest.try_into().expect("eleven words"))
}

/// One step of the walk: the item's twelve words, or nothing where none is left.
/// The state is another one only behind an item.
pub fn step(table: Table, state: &mut State) -> Answer<Option<[u64; 12]>> {
    let mut lent = *state;
    let words = asked::<15>(|words| step_words(table, &mut lent, words))?;
    let item: [u64; 12] = match taken(&words) {
        Ok(rest) => rest.try_into().expect("twelve words"),
        Err(_) if lent != *state => {
            return Err(Fault::Broken("state changed by a refusal".into()));
        }
        Err(fault) => return Err(fault),
    };
    match item[0] {
        0 if item != [0; 12] => Err(Fault::Broken(format!("words {words:?}"))),
        0 if lent != *state => Err(Fault::Broken("state changed without an item".into())),
        0 => Ok(None),
        _ => {
            *state = lent;
            Ok(Some(item))
        }
    }
}

/// The same, the answer's words as they are.
#[inline]
pub fn step_words(table: Table, state: &mut State, words: &mut [u64; 15]) {
    let Table {
        schema,
        bases,
        data,
    } = table;
    // SAFETY: pointers and lengths are those of slices and arrays, of which
    // state and answer are lent for writing.
    unsafe {
        sstable_step(
            schema.as_ptr(),
            schema.len(),
            bases,
            data.as_ptr(),
            data.len(),
            state,
            words,
        )
    }
}

/// The part of `data` that an item of this kind, offset and length shows.
pub fn value(kind: u64, offset: u64, length: u64, data: &[u8]) -> Answer<&[u8]> {
    let [at, len] = asked::<2>(|words| {
        // SAFETY: pointer and length are those of a slice, and the answer has
        // room for two words.
        unsafe {
            sstable_value(
                kind,
                offset as usize,
                length as usize,
                data.as_ptr(),
                data.len(),
                words,
            )
        }
    })?;
    let end = at.checked_add(len).filter(|_| len != 0 || at == 0);
    end.and_then(|end| data.get(at as usize..end as usize))
        .ok_or_else(|| Fault::Broken(format!("value at {at}, {len} bytes")))
}

/// How many records Data has.
pub fn count(table: Table) -> Answer<usize> {
    let Table {
        schema,
        bases,
        data,
    } = table;
    let words = asked::<4>(|words| {
        // SAFETY: pointers and lengths are those of slices, and the answer has
        // room for four words.
        unsafe {
            sstable_count(
                schema.as_ptr(),
                schema.len(),
                bases,
                data.as_ptr(),
                data.len(),
                words,
            )
        }
    })?;
    taken(&words).map(|rest| rest[0] as usize)
}

/// Lists Data into `out`: how many records were stored.
pub fn list(table: Table, out: &mut [u8]) -> Answer<usize> {
    let Table {
        schema,
        bases,
        data,
    } = table;
    let words = asked::<4>(|words| {
        // SAFETY: pointers and lengths are those of slices, the last lent for
        // writing, and the answer has room for four words.
        unsafe {
            sstable_list(
                schema.as_ptr(),
                schema.len(),
                bases,
                data.as_ptr(),
                data.len(),
                out.as_mut_ptr(),
                out.len(),
                words,
            )
        }
    })?;
    taken(&words).map(|rest| rest[0] as usize)
}

/// Writes records as Data into `out`: how many bytes were stored.
pub fn write(listed: Listed, out: &mut [u8]) -> Answer<usize> {
    let Listed {
        schema,
        bases,
        records,
        bytes,
    } = listed;
    let words = asked::<4>(|words| {
        // SAFETY: pointers and lengths are those of slices, the last lent for
        // writing, and the answer has room for four words.
        unsafe {
            sstable_write(
                schema.as_ptr(),
                schema.len(),
                bases,
                records.as_ptr(),
                records.len(),
                bytes.as_ptr(),
                bytes.len(),
                out.as_mut_ptr(),
                out.len(),
                words,
            )
        }
    })?;
    taken(&words).map(|rest| rest[0] as usize)
}

/// Lends `call` an answer of N words; those behind it must stay as they are.
fn asked<const N: usize>(call: impl FnOnce(&mut [u64; N])) -> Answer<[u64; N]> {
    #[repr(C)]
    struct Lent<const N: usize> {
        words: [u64; N],
        behind: [u64; 2],
    }
    let mut lent = Lent {
        words: [UNTOUCHED; N],
        behind: [UNTOUCHED; 2],
    };
    call(&mut lent.words);
    match std::hint::black_box(lent) {
        Lent { words, behind } if behind == [UNTOUCHED; 2] => Ok(words),
        _ => Err(Fault::Broken(format!("more than {N} words stored"))),
    }
}

/// The words behind the first three, or the refusal that those give.
fn taken(words: &[u64]) -> Answer<&[u64]> {
    let (head, rest) = words.split_at(3);
    let told = match *head {
        [0, 0, 0] => return Ok(rest),
        [number, slice, place] if rest.iter().all(|&word| word == 0) => {
            refusal(number, slice, place)
        }
        _ => None,
    };
    Err(match told {
        Some(refusal) => Fault::Refused(refusal),
        None => Fault::Broken(format!("words {words:?}")),
    })
}

fn refusal(number: u64, slice: u64, place: u64) -> Option<Refusal> {
    let part = match slice & 15 {
        1 => Part::Statistics,
        2 => Part::Scylla,
        3 => Part::Data,
        4 => Part::Schema,
        5 => Part::Records,
        6 => Part::Bytes,
        7 => Part::Output,
        8 => Part::Bases,
        9 => Part::State,
        _ => return None,
    };
    let side = match slice - (slice & 15) {
        0 => Side::Only,
        16 => Side::A,
        32 => Side::B,
        _ => return None,
    };
    let number = u8::try_from(number).ok().filter(|n| (1..=17).contains(n))?;
    Some(Refusal {
        number,
        slice: Slice { part, side },
        place,
    })
}

/// Bytes on either side of a lent buffer, which no call may touch.
const BESIDE: usize = 16;

/// What a lent buffer holds before a call.
fn held(index: usize) -> u8 {
    (index as u8).wrapping_mul(31).wrapping_add(7)
}

/// Lends `call` a buffer of `len` bytes and hands back what it stored at the
/// buffer's start.  All other bytes must hold what they held before, every one
/// of them after a refusal.
pub fn lend(len: usize, call: impl FnOnce(&mut [u8]) -> Answer<usize>) -> Answer<Vec<u8>> {
    let mut all: Vec<u8> = (0..BESIDE + len + BESIDE).map(held).collect();
    let answer = call(&mut all[BESIDE..BESIDE + len]);
    let stored = match answer {
        Ok(stored) if stored > len => {
            return Err(Fault::Broken(format!("{stored} bytes stored in {len}")))
        }
        Ok(stored) => stored,
        Err(Fault::Refused(_)) => 0,
        Err(broken) => return Err(broken),
    };
    let kept = |(i, &byte): (usize, &u8)| (BESIDE..BESIDE + stored).contains(&i) || byte == held(i);
    if let Some(i) = all.iter().enumerate().position(|pair| !kept(pair)) {
        let place = i as i64 - BESIDE as i64;
        let what = match &answer {
            Ok(stored) => format!("{stored} bytes stored"),
            Err(fault) => fault.to_string(),
        };
        return Err(Fault::Broken(format!(
            "byte {place} of output changed, {what}"
        )));
    }
    answer.map(|stored| all[BESIDE..BESIDE + stored].to_vec())
}

#[cfg(test)]
mod tests {
    use super::*;

    fn told(words: &[u64]) -> String {
        taken(words).unwrap_err().to_string()
    }

    #[test]
    fn answers_of_words() {
        assert_eq!(taken(&[0, 0, 0, 7, 8]), Ok(&[7, 8][..]));
        assert_eq!(told(&[2, 3, 9, 0, 0]), "refused 2 data 9");
        assert_eq!(told(&[11, 16 + 4, 0, 0]), "refused 11 schemaA 0");
        assert_eq!(told(&[9, 32 + 3, 29, 0]), "refused 9 dataB 29");
        for broken in [
            [0, 3, 0, 0],
            [0, 0, 5, 0],
            [2, 3, 9, 1],
            [2, 0, 9, 0],
            [2, 48 + 3, 9, 0],
            [99, 3, 9, 0],
            [UNTOUCHED; 4],
        ] {
            assert!(told(&broken).starts_with("broken answer"));
        }
    }

    #[test]
    fn lent_bytes_are_looked_at() {
        let refused = || Fault::Refused(Refusal::new(13, Part::Output, 9));
        let stored = lend(4, |lent| {
            lent[..2].copy_from_slice(&[1, 2]);
            Ok(2)
        });
        assert_eq!(stored, Ok(vec![1, 2]));
        assert_eq!(lend(4, |_| Err(refused())), Err(refused()));
        let beside = lend(4, |lent| {
            lent[2] ^= 1;
            Ok(2)
        });
        assert!(matches!(beside, Err(Fault::Broken(_))));
        let after_refusal = lend(4, |lent| {
            lent[0] ^= 1;
            Err(refused())
        });
        assert!(matches!(after_refusal, Err(Fault::Broken(_))));
        assert!(matches!(lend(4, |_| Ok(5)), Err(Fault::Broken(_))));
    }
}
