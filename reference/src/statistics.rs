//! Statistics.db: contents, validation entry, serialization header.

use crate::data::Bases;
use crate::reader::Reader;
use crate::refusal::{number, test_limit, test_room, Part, Refusal};
use crate::schema::{self, CLUSTERING, KEY, REGULAR, STATIC};
use crate::types::{self, Type, Use};

/// "Count (0 to 4, more is 8)"
const MOST_ENTRIES: i32 = 4;
const VALIDATION: i32 = 0;
const HEADER: i32 = 3;

/// What the reader keeps of Statistics.
#[derive(Clone, PartialEq, Eq, Debug)]
pub struct Stats {
    pub bases: Bases,
    pub validation: Validation,
    /// Schema records, 16 bytes each, one after the other.
    pub schema: Vec<u8>,
}

/// Entry 0.
#[derive(Clone, Copy, PartialEq, Eq, Debug)]
pub struct Validation {
    /// Where the partitioner's name stands in Statistics.
    pub name_at: usize,
    pub name_len: usize,
    /// The false-positive chance's bits, kept as they are.
    pub chance_bits: u64,
}

/// One pair of the contents.
#[derive(Clone, Copy)]
struct Entry {
    kind: i32,
    offset: usize,
}

/// Reads a whole Statistics.db.
pub fn read_statistics(bytes: &[u8]) -> Result<Stats, Refusal> {
    test_limit(Part::Statistics, bytes.len())?;
    let entries = read_contents(bytes)?;
    for wanted in [VALIDATION, HEADER] {
        // "Then 0 and 3 must be present": "an absent entry ...: 0".
        if !entries.iter().any(|e| e.kind == wanted) {
            return Err(Refusal::new(number::NOT_CARRIED, Part::Statistics, 0));
        }
    }
    read_entries(bytes, entries)
}

/// As [`read_statistics`], with a lent buffer of `output` bytes for the schema
/// records: 13 after all else (DECISIONS E8).
pub fn read_statistics_within(bytes: &[u8], output: usize) -> Result<Stats, Refusal> {
    test_limit(Part::Statistics, bytes.len())?;
    test_limit(Part::Output, output)?;
    let stats = read_statistics(bytes)?;
    test_room(stats.schema.len(), output)?;
    Ok(stats)
}

/// "Count ..., then type and offset pairs": signed, judged field by field
/// (DECISIONS S1, S4).
fn read_contents(bytes: &[u8]) -> Result<Vec<Entry>, Refusal> {
    let mut reader = Reader::new(bytes, 0, Part::Statistics);
    let count = reader.u32()? as i32;
    if count < 0 {
        return Err(reader.refuse(number::OUT_OF_RANGE, 0));
    }
    if count > MOST_ENTRIES {
        return Err(reader.refuse(number::TOO_MANY, 0));
    }
    let contents_end = 4 + 8 * count as usize;
    let mut entries: Vec<Entry> = Vec::new();
    for _ in 0..count {
        let kind = read_kind(&mut reader, &entries)?;
        let offset = read_offset(&mut reader, &entries, contents_end)?;
        entries.push(Entry { kind, offset });
    }
    Ok(entries)
}

/// "types 0 to 3 (else 7), each at most once" (DECISIONS S2)
fn read_kind(reader: &mut Reader, before: &[Entry]) -> Result<i32, Refusal> {
    let at = reader.at();
    let kind = reader.u32()? as i32;
    if !(0..=3).contains(&kind) {
        return Err(reader.refuse(number::NOT_CARRIED, at));
    }
    if before.iter().any(|e| e.kind == kind) {
        return Err(reader.refuse(number::TWICE_OR_UNORDERED, at));
    }
    Ok(kind)
}

/// "Offsets differ (else 9), and lie neither before the contents' end (5) nor
/// past the file's (2)"; "on one field the smaller number comes first"
/// (DECISIONS S3).
fn read_offset(
    reader: &mut Reader,
    before: &[Entry],
    contents_end: usize,
) -> Result<usize, Refusal> {
    let at = reader.at();
    let signed = reader.u32()? as i32;
    let offset = usize::try_from(signed).map_err(|_| reader.refuse(number::OUT_OF_RANGE, at))?;
    if offset > reader.end() {
        return Err(reader.refuse(number::PASSES_END, at));
    }
    if offset < contents_end {
        return Err(reader.refuse(number::OUT_OF_RANGE, at));
    }
    if before.iter().any(|e| e.offset == offset) {
        return Err(reader.refuse(number::TWICE_OR_UNORDERED, at));
    }
    Ok(offset)
}

/// "Entries are read by place, each to the next larger offset or the end; 0
/// and 3 are filled exactly"; "other entries are skipped unopened".
fn read_entries(bytes: &[u8], mut entries: Vec<Entry>) -> Result<Stats, Refusal> {
    entries.sort_by_key(|e| e.offset);
    let mut validation = None;
    let mut header = None;
    for (i, entry) in entries.iter().enumerate() {
        let end = entries.get(i + 1).map_or(bytes.len(), |next| next.offset);
        let mut reader = Reader::new(&bytes[..end], entry.offset, Part::Statistics);
        match entry.kind {
            VALIDATION => {
                validation = Some(read_validation(&mut reader)?);
                reader.filled()?;
            }
            HEADER => {
                header = Some(read_header(&mut reader)?);
                reader.filled()?;
            }
            _ => {}
        }
    }
    // Both were found present above.
    let (bases, schema) = header.expect("entry 3");
    Ok(Stats {
        bases,
        validation: validation.expect("entry 0"),
        schema,
    })
}

/// "Entry 0: 16-bit length, name, then the false-positive chance, a double
/// that compares between 0 and 1, both taken."
fn read_validation(reader: &mut Reader) -> Result<Validation, Refusal> {
    let length_at = reader.at();
    let len = reader.u16()?;
    let name_at = reader.at();
    reader.announced(u64::from(len), length_at)?;
    let chance_at = reader.at();
    let chance_bits = reader.u64()?;
    // NaN compares with nothing, so it is refused; -0.0 compares equal to 0.
    if !(0.0..=1.0).contains(&f64::from_bits(chance_bits)) {
        return Err(reader.refuse(number::OUT_OF_RANGE, chance_at));
    }
    Ok(Validation {
        name_at,
        name_len: usize::from(len),
        chance_bits,
    })
}

/// "Entry 3: bases, key type, clustering types, static columns, regular
/// columns (001), no column name twice."
fn read_header(reader: &mut Reader) -> Result<(Bases, Vec<u8>), Refusal> {
    let bases = read_bases(reader)?;
    let mut records = Vec::new();
    let key = read_type(reader, Use::Key)?;
    records.extend(schema::record(KEY, key, 0, 0));
    for _ in 0..read_count(reader, CLUSTERING)? {
        let ty = read_type(reader, Use::Key)?;
        records.extend(schema::record(CLUSTERING, ty, 0, 0));
    }
    let mut names: Vec<&[u8]> = Vec::new();
    for role in [STATIC, REGULAR] {
        for _ in 0..read_count(reader, role)? {
            records.extend(read_column(reader, role, &mut names)?);
        }
    }
    Ok((bases, records))
}

/// "The header's three varints give the bases".
fn read_bases(reader: &mut Reader) -> Result<Bases, Refusal> {
    // "timestamp 1442880000000000 plus the varint, modulo 2^64 and signed"
    let timestamp = 1_442_880_000_000_000_u64.wrapping_add(reader.varint()?) as i64;
    // "local deletion time 1442880000 plus the varint, modulo 2^32 and signed,
    // 0 to 2147483647"
    let local_at = reader.at();
    let local = 1_442_880_000_u32.wrapping_add(reader.varint()? as u32) as i32;
    if local < 0 {
        return Err(reader.refuse(number::OUT_OF_RANGE, local_at));
    }
    // "TTL the varint, at most 2147483647"
    let ttl_at = reader.at();
    let ttl =
        i32::try_from(reader.varint()?).map_err(|_| reader.refuse(number::OUT_OF_RANGE, ttl_at))?;
    Ok(Bases {
        timestamp,
        local,
        ttl,
    })
}

/// A count of columns: "too many columns" is 8.
fn read_count(reader: &mut Reader, role: u8) -> Result<u64, Refusal> {
    let at = reader.at();
    let count = reader.varint()?;
    if count > schema::MOST[usize::from(role)] as u64 {
        return Err(reader.refuse(number::TOO_MANY, at));
    }
    Ok(count)
}

/// 001: "Type is just a byte buffer with an unsigned variant integer length";
/// its fault is told "at the string's first byte".
fn read_type(reader: &mut Reader, place: Use) -> Result<Type, Refusal> {
    let text = reader.varint_announced()?;
    let at = reader.at() - text.len();
    types::parse(text, place).map_err(|number| reader.refuse(number, at))
}

/// A static or regular column: name, then type; "no column name twice"
/// (DECISIONS S11, S12).
fn read_column<'a>(
    reader: &mut Reader<'a>,
    role: u8,
    names: &mut Vec<&'a [u8]>,
) -> Result<[u8; schema::RECORD], Refusal> {
    let name = reader.varint_announced()?;
    let name_at = reader.at() - name.len();
    if names.contains(&name) {
        return Err(reader.refuse(number::TWICE_OR_UNORDERED, name_at));
    }
    names.push(name);
    let ty = read_type(reader, Use::Column)?;
    Ok(schema::record(role, ty, name_at as u32, name.len() as u32))
}

#[cfg(test)]
mod tests {
    use super::*;
    use crate::gen::{entry0, entry3, one_file_statistics, statistics, Text};

    fn refused(bytes: &[u8]) -> (u8, u64) {
        let r = read_statistics(bytes).expect_err("refused");
        assert_eq!(r.slice.part, Part::Statistics);
        (r.number, r.place)
    }

    /// Contents of `pairs` and `body` behind them.
    fn contents(count: u32, pairs: &[(u32, u32)], body: &[u8]) -> Vec<u8> {
        let mut out = count.to_be_bytes().to_vec();
        for (kind, offset) in pairs {
            out.extend(kind.to_be_bytes());
            out.extend(offset.to_be_bytes());
        }
        out.extend(body);
        out
    }

    fn header(
        key: &str,
        clustering: &[&str],
        statics: &[(&str, &str)],
        regulars: &[(&str, &str)],
    ) -> Vec<u8> {
        entry3([0, 0, 0], key, clustering, statics, regulars)
    }

    /// A file of entry 0 and `header`; and where that header starts.
    fn file(header: &[u8]) -> (Vec<u8>, u64) {
        let zero = entry0("p", 0.5);
        let at = 20 + zero.len() as u64;
        (
            contents(
                2,
                &[(0, 20), (3, at as u32)],
                &[zero, header.to_vec()].concat(),
            ),
            at,
        )
    }

    #[test]
    fn the_one_file() {
        let bytes = one_file_statistics();
        let stats = read_statistics(&bytes).unwrap();
        assert_eq!(
            stats.bases,
            Bases {
                timestamp: 1_442_880_000_000_000,
                local: 1_442_880_000,
                ttl: 0
            }
        );
        let name = &bytes[stats.validation.name_at..][..stats.validation.name_len];
        assert_eq!(name, b"org.apache.cassandra.dht.Murmur3Partitioner");
        assert_eq!(f64::from_bits(stats.validation.chance_bits), 0.01);
        assert_eq!(stats.schema.len(), 48);
        assert_eq!(
            stats.schema[..16],
            [0, 33, 0, 255, 0, 0, 0, 0, 0, 0, 0, 0, 0, 0, 0, 0]
        );
        assert_eq!(
            stats.schema[16..32],
            [1, 17, 0, 4, 0, 0, 0, 0, 0, 0, 0, 0, 0, 0, 0, 0]
        );
        let name_at = u32::from_be_bytes(stats.schema[36..40].try_into().unwrap()) as usize;
        assert_eq!(&bytes[name_at..name_at + 1], b"v");
        assert_eq!(stats.schema[32..36], [3, 17, 0, 4]);
        assert_eq!(stats.schema[40..], [0, 0, 0, 1, 0, 0, 0, 0]);
        assert!(crate::schema::Schema::check_with_names(&stats.schema, &bytes).is_ok());
    }

    #[test]
    fn contents_refusals() {
        assert_eq!(refused(&[]), (2, 0));
        assert_eq!(refused(&[0, 0, 0]), (2, 0));
        assert_eq!(refused(&contents(5, &[], &[])), (8, 0));
        assert_eq!(refused(&contents(u32::MAX, &[], &[])), (5, 0));
        assert_eq!(refused(&contents(0, &[], &[])), (7, 0));
        assert_eq!(refused(&contents(1, &[], &[0; 3])), (2, 4));
        assert_eq!(refused(&contents(1, &[], &[0; 7])), (2, 8));
        assert_eq!(refused(&contents(1, &[(4, 12)], &[])), (7, 4));
        assert_eq!(refused(&contents(1, &[(u32::MAX, 12)], &[])), (7, 4));
        assert_eq!(refused(&contents(1, &[(0, 11)], &[])), (5, 8));
        assert_eq!(refused(&contents(1, &[(0, 13)], &[])), (2, 8));
        assert_eq!(refused(&contents(1, &[(0, u32::MAX)], &[])), (5, 8));
        assert_eq!(refused(&contents(1, &[(0, 12)], &[])), (7, 0));
        assert_eq!(refused(&contents(2, &[(0, 20), (0, 20)], &[])), (9, 12));
        assert_eq!(refused(&contents(2, &[(0, 20), (3, 20)], &[])), (9, 16));
        // Before the contents' end and past the file's at once: the smaller.
        assert_eq!(refused(&contents(4, &[(0, 20)], &[])), (2, 8));
        assert_eq!(refused(&contents(4, &[(0, 10)], &[])), (5, 8));
    }

    #[test]
    fn entries_are_read_by_place() {
        let zero = entry0("p", 1.0);
        let three = header("UTF8Type", &[], &[], &[]);
        let other = [0xEE; 5];
        let first = 36u32;
        // Order on file: 3, 1, 0, 2, with a gap before the first.
        let at3 = first + 2;
        let at1 = at3 + three.len() as u32;
        let at0 = at1 + 5;
        let at2 = at0 + zero.len() as u32;
        let body = [&[9, 9][..], &three, &other, &zero, &other].concat();
        let good = contents(4, &[(0, at0), (1, at1), (2, at2), (3, at3)], &body);
        assert!(read_statistics(&good).is_ok());
        // Both opened entries faulty: that at the smaller place is told.
        let mut bad = good.clone();
        bad[at0 as usize] = 0xFF;
        assert_eq!(refused(&bad), (2, u64::from(at0)));
        bad[at3 as usize] = 0xFF;
        bad[at3 as usize + 1] = 0xFF;
        bad[at3 as usize + 8] = 0xFF;
        bad[at3 as usize + 9] = 0xFF;
        let (_, place) = refused(&bad);
        assert!(place < u64::from(at1));
        // An entry that starts at the file's end is empty.
        let (mut tail, _) = file(&three);
        let len = tail.len() as u32;
        tail.splice(0..4, 3u32.to_be_bytes());
        tail.splice(
            20..20,
            [0, 0, 0, 2].into_iter().chain((len + 8).to_be_bytes()),
        );
        for at in [8, 16] {
            let old = u32::from_be_bytes(tail[at..at + 4].try_into().unwrap());
            tail.splice(at..at + 4, (old + 8).to_be_bytes());
        }
        assert!(read_statistics(&tail).is_ok());
    }

    #[test]
    fn entry_zero() {
        let three = header("UTF8Type", &[], &[], &[]);
        let build = |zero: &[u8]| {
            let at3 = 20 + zero.len() as u32;
            contents(2, &[(0, 20), (3, at3)], &[zero, &three].concat())
        };
        for chance in [0.0, -0.0, 1.0, 0.01, f64::MIN_POSITIVE] {
            let stats = read_statistics(&build(&entry0("", chance))).unwrap();
            assert_eq!(stats.validation.chance_bits, chance.to_bits());
        }
        for chance in [
            f64::NAN,
            -f64::NAN,
            1.0000000000000002,
            -5e-324,
            f64::INFINITY,
        ] {
            assert_eq!(refused(&build(&entry0("ab", chance))), (5, 24));
        }
        let mut long = entry0("ab", 0.5);
        long.push(0);
        assert_eq!(refused(&build(&long)), (3, 32));
        assert_eq!(refused(&build(&long[..11])), (2, 24));
        assert_eq!(refused(&build(&[0, 3, 1, 1])), (2, 20));
        assert_eq!(refused(&build(&[0])), (2, 20));
    }

    #[test]
    fn bases_of_the_header() {
        let bases = |ts: u64, local: u64, ttl: u64| {
            let (bytes, at) = file(&entry3([ts, local, ttl], "", &[], &[], &[]));
            read_statistics(&bytes)
                .map(|s| s.bases)
                .map_err(|r| (r.number, r.place - at))
        };
        let max = 2_147_483_647u64;
        assert_eq!(
            bases(u64::MAX, 0, 0).unwrap().timestamp,
            1_442_879_999_999_999
        );
        let to_min = (1u64 << 63) - 1_442_880_000_000_000;
        assert_eq!(bases(to_min, 0, 0).unwrap().timestamp, i64::MIN);
        assert_eq!(bases(to_min - 1, 0, 0).unwrap().timestamp, i64::MAX);
        assert_eq!(bases(0, max - 1_442_880_000, 0).unwrap().local, i32::MAX);
        assert_eq!(bases(0, max - 1_442_880_000 + 1, 0), Err((5, 1)));
        assert_eq!(bases(0, (1 << 32) - 1_442_880_000, 0).unwrap().local, 0);
        assert_eq!(bases(0, (1 << 32) - 1_442_880_001, 0), Err((5, 1)));
        assert_eq!(bases(0, 1 << 32, 0).unwrap().local, 1_442_880_000);
        assert_eq!(bases(0, u64::MAX, 0).unwrap().local, 1_442_879_999);
        assert_eq!(bases(0, 0, max).unwrap().ttl, i32::MAX);
        assert_eq!(bases(0, 0, max + 1), Err((5, 2)));
        assert_eq!(bases(0, 0, 1 << 32), Err((5, 2)));
    }

    #[test]
    fn columns_and_names() {
        let many: Vec<String> = (0..64).map(|i| format!("c{i}")).collect();
        let pairs: Vec<(&str, &str)> = many.iter().map(|n| (n.as_str(), "")).collect();
        let types: Vec<&str> = vec!["Int32Type"; 33];
        let (good, _) = file(&header("", &types[..32], &pairs[..63], &[]));
        assert_eq!(read_statistics(&good).unwrap().schema.len(), 16 * 96);
        let (bytes, at) = file(&header("", &types, &[], &[]));
        assert_eq!(refused(&bytes), (8, at + 4));
        let (bytes, at) = file(&header("", &[], &pairs, &[]));
        assert_eq!(refused(&bytes), (8, at + 5));
        let (bytes, at) = file(&header("", &[], &[], &pairs));
        assert_eq!(refused(&bytes), (8, at + 6));
        // Named twice, across the roles: at the later name's first byte.
        let (bytes, at) = file(&header("", &[], &[("ab", "")], &[("ab", "#")]));
        // bases 3, key 1, count 1, count 1, name 1+2, type 1, count 1, length 1
        assert_eq!(refused(&bytes), (9, at + 12));
        let (bytes, at) = file(&header("", &[], &[], &[("", ""), ("", "")]));
        assert_eq!(refused(&bytes), (9, at + 10));
        // A type's fault: at the string's first byte.
        let (bytes, at) = file(&header("Foo", &[], &[], &[]));
        assert_eq!(refused(&bytes), (7, at + 4));
        let deep = format!("ListType{}{}", "(".repeat(17), ")".repeat(17));
        let (bytes, at) = file(&header(&deep, &[], &[], &[]));
        assert_eq!(refused(&bytes), (8, at + 4));
        let (bytes, at) = file(&header("", &[], &[], &[("n", "SetType(UTF8Type)")]));
        assert_eq!(refused(&bytes), (7, at + 10));
        // What a length announces passes the end: at the length.
        let mut cut = header("Int32Type", &[], &[], &[]);
        cut.truncate(8);
        let (bytes, at) = file(&cut);
        assert_eq!(refused(&bytes), (2, at + 3));
        // Left over.
        let mut long = header("", &[], &[], &[]);
        long.push(7);
        let (bytes, at) = file(&long);
        assert_eq!(refused(&bytes), (3, at + 7));
    }

    #[test]
    fn generated_statistics_read_back() {
        let text = Text {
            bases: [5, 6, 7],
            key: "UUIDType".into(),
            clustering: vec!["ReversedType(LongType)".into()],
            statics: vec![("s".into(), "DoubleType".into())],
            regulars: vec![("r".into(), "FrozenType(MapType(UTF8Type,UTF8Type))".into())],
        };
        let stats = read_statistics(&statistics(&text)).unwrap();
        assert_eq!(
            stats.bases,
            Bases {
                timestamp: 1_442_880_000_000_005,
                local: 1_442_880_006,
                ttl: 7
            }
        );
        let firsts: Vec<[u8; 4]> = stats
            .schema
            .chunks(16)
            .map(|r| r[..4].try_into().unwrap())
            .collect();
        assert_eq!(
            firsts,
            [
                [0, 34, 0, 16],
                [1, 21, 1, 8],
                [2, 10, 0, 8],
                [3, 15, 0, 255]
            ]
        );
    }
}
