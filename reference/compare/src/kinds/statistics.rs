//! Statistics.db.

use reference::batch::answer::stats_line;
use reference::batch::{kind, Call, Case};
use reference::rng::Rng;
use reference::schema::{MOST, RECORD};
use reference::statistics::{read_statistics_within, Validation};
use reference::types::Use;
use reference::varint::{self, MAX_LEN};
use reference::{read_statistics, Bases, Stats, LIMIT};

use super::damage::{beside, damage};
use super::{line, type_strings, Kind, Limit};
use crate::library::{self, lend, Answer, Fault};

pub struct Statistics;

/// Room for every schema: one key, and all columns of each role.
const ROOM: usize = RECORD * (MOST[0] + MOST[1] + MOST[2] + MOST[3]);

impl Kind for Statistics {
    fn name(&self) -> &'static str {
        "statistics"
    }

    fn count(&self) -> u64 {
        500_000
    }

    fn generate(&self, rng: &mut Rng) -> Case {
        let mut bytes = file(rng);
        match rng.below(60) {
            0..=11 => damage(rng, &mut bytes),
            12 => cut_in_contents(rng, &mut bytes),
            _ => {}
        }
        let mut blobs = vec![bytes];
        if !rng.one_in(3) {
            let output = output(rng, &blobs[0]);
            blobs.push(output.to_be_bytes().to_vec());
        }
        Case {
            kind: kind::STATISTICS,
            blobs,
        }
    }

    fn library(&self, call: &Call, full: bool) -> Option<String> {
        match *call {
            Call::Statistics { statistics, output } => {
                let read = stats(statistics, output.unwrap_or(ROOM));
                Some(line(read.map(|stats| stats_line(&stats, full))))
            }
            _ => None,
        }
    }

    fn limits(&self) -> Vec<Limit> {
        let mut over = vec![0; LIMIT + 1];
        let mut limits = Vec::new();
        // Entry 3 and entry 0 at the start, then entry 1 to the file's end.
        let head = [
            &[0, 0, 0, 3, 0, 0, 0, 3, 0, 0, 0, 28][..],
            &[0, 0, 0, 0, 0, 0, 0, 35, 0, 0, 0, 1, 0, 0, 0, 45],
        ];
        over[..28].copy_from_slice(&head.concat());
        for (what, len) in [
            ("statistics of 1073741824 bytes", LIMIT),
            ("statistics of 1073741825 bytes", LIMIT + 1),
        ] {
            let file = &over[..len];
            limits.push(limit(
                what,
                stats(file, 16),
                read_statistics_within(file, 16),
            ));
        }
        let small = over[..45].to_vec();
        over[..28].fill(0);
        for (what, file, len) in [
            ("output of 1073741824 bytes", &small[..], LIMIT),
            ("output of 1073741825 bytes", &small, LIMIT + 1),
            ("output over the limit, and a bad file", &[][..], LIMIT + 1),
        ] {
            let found = stats_into(file, &mut over[..len]);
            limits.push(limit(what, found, read_statistics_within(file, len)));
        }
        limits
    }
}

fn limit(
    what: &'static str,
    found: Answer<Stats>,
    told: Result<Stats, reference::Refusal>,
) -> Limit {
    let said = |stats: Stats| stats_line(&stats, true);
    Limit {
        what,
        library: line(found.map(said)),
        reference: told.map_or_else(|refusal| refusal.to_string(), said),
    }
}

/// The library's read into a buffer of zeros too large to be looked through: its
/// start and its end are, and cleared again.
fn stats_into(file: &[u8], output: &mut [u8]) -> Answer<Stats> {
    let mut stored = 0;
    let answer = library::statistics_read(file, output).and_then(|words| {
        stored = stored_len(&words)?;
        said(&words, output[..stored.min(64)].to_vec())
    });
    let clean = |part: &[u8]| part.iter().all(|&byte| byte == 0);
    let ends = clean(&output[stored..4096]) && clean(&output[output.len() - 4096..]);
    output[..4096].fill(0);
    match ends {
        true => answer,
        false => Err(Fault::Broken("bytes of output changed".into())),
    }
}

/// The library's read, every byte of the lent buffer looked at.
fn stats(file: &[u8], output: usize) -> Answer<Stats> {
    let mut told = [0; 9];
    let schema = lend(output, |lent| {
        told = library::statistics_read(file, lent)?;
        stored_len(&told)
    })?;
    said(&told, schema)
}

/// How many bytes the counts of columns stand for.
fn stored_len(words: &[u64; 9]) -> Answer<usize> {
    let counts = &words[6..];
    match counts.iter().all(|&count| count <= 63) {
        true => Ok(RECORD * (1 + counts.iter().sum::<u64>() as usize)),
        false => Err(Fault::Broken(format!("words {words:?}"))),
    }
}

/// The answer's words and the schema records as the reference has them.
fn said(words: &[u64; 9], schema: Vec<u8>) -> Answer<Stats> {
    let of_role = |role: u8| schema.chunks(RECORD).filter(move |r| r[0] == role).count() as u64;
    let counts = [1, 2, 3].map(of_role);
    let broken = || Fault::Broken(format!("words {words:?}, {counts:?} columns stored"));
    if words[6..] != counts {
        return Err(broken());
    }
    let small = |word: u64| i32::try_from(word).map_err(|_| broken());
    Ok(Stats {
        bases: Bases {
            timestamp: words[0] as i64,
            local: small(words[1])?,
            ttl: small(words[2])?,
        },
        validation: Validation {
            name_at: words[3] as usize,
            name_len: words[4] as usize,
            chance_bits: words[5],
        },
        schema,
    })
}

/// A lent buffer mostly as long as what is to be stored, or longer.
fn output(rng: &mut Rng, file: &[u8]) -> u64 {
    let needed = read_statistics(file).map_or(32, |stats| stats.schema.len()) as u64;
    match rng.below(12) {
        0 => needed - 1,
        1 => rng.below(needed),
        2 => needed - 16,
        3 => needed + 1 + rng.below(40),
        4 => ROOM as u64 + rng.below(40),
        _ => needed,
    }
}

/// Writes entries; one varint may be another than it should.
struct Maker<'r> {
    rng: &'r mut Rng,
    out: Vec<u8>,
    /// Varints in longer forms too.
    longer: bool,
    /// How many varints are written before the one that is changed.
    twist: Option<u64>,
    /// Names given so far.
    names: Vec<Vec<u8>>,
}

impl Maker<'_> {
    fn varint(&mut self, value: u64) {
        let mut value = value;
        self.twist = match self.twist {
            Some(0) => {
                value = beside(self.rng, value);
                None
            }
            twist => twist.map(|left| left - 1),
        };
        let mut len = varint::len(value);
        if self.longer && self.rng.one_in(2) {
            len += self.rng.index(MAX_LEN - len + 1);
        }
        varint::write_form(&mut self.out, value, len);
    }

    fn bytes(&mut self, bytes: &[u8]) {
        self.varint(bytes.len() as u64);
        self.out.extend_from_slice(bytes);
    }

    fn type_string(&mut self, place: Use) {
        let text = match self.rng.below(50) {
            0 => type_strings::any(self.rng),
            _ => type_strings::sound(self.rng, place).into_bytes(),
        };
        self.bytes(&text);
    }

    /// A name that was not given before, but for one in a hundred.
    fn name(&mut self) -> Vec<u8> {
        if self.rng.one_in(100) && !self.names.is_empty() {
            return self.rng.pick(&self.names).clone();
        }
        loop {
            let name = random_name(self.rng);
            if !self.names.contains(&name) {
                self.names.push(name.clone());
                return name;
            }
        }
    }

    fn entry3(&mut self) -> Vec<u8> {
        for base in bases(self.rng) {
            self.varint(base);
        }
        self.type_string(Use::Key);
        let full = self.rng.one_in(40);
        for most in &MOST[1..] {
            let count = count(self.rng, *most as u64, full);
            self.varint(count);
            for _ in 0..count {
                if *most > 32 {
                    let name = self.name();
                    self.bytes(&name);
                    self.type_string(Use::Column);
                } else {
                    self.type_string(Use::Key);
                }
            }
        }
        std::mem::take(&mut self.out)
    }
}

/// Few columns; else at and beside the bound, which is `most`.
fn count(rng: &mut Rng, most: u64, full: bool) -> u64 {
    match (full, rng.below(4)) {
        (true, 0) => most - rng.below(2),
        (true, 1) => most,
        (true, 2) if rng.one_in(3) => most + 1,
        _ => rng.below(4) * rng.below(2),
    }
}

/// Short ones, empty ones, long ones that are alike but for their end.
fn random_name(rng: &mut Rng) -> Vec<u8> {
    match rng.below(12) {
        0 => Vec::new(),
        1 => {
            let mut name = vec![b'n'; 100 + rng.index(100)];
            name.push(rng.byte());
            name
        }
        2 => vec![b'a'; 1 + rng.index(80)],
        _ => {
            let len = 1 + rng.index(4);
            rng.bytes(len)
        }
    }
}

/// The three varints: near the bottom, and at and past the edges.
fn bases(rng: &mut Rng) -> [u64; 3] {
    const STAMP: u64 = 1_442_880_000_000_000;
    const LOCAL: u64 = 1_442_880_000;
    let near = rng.below(4);
    let timestamp = match rng.below(6) {
        0 => (1 << 63) - STAMP - 2 + near,
        1 => 0u64.wrapping_sub(STAMP).wrapping_sub(2).wrapping_add(near),
        2 => rng.next(),
        _ => rng.below(50),
    };
    let local = match rng.below(8) {
        0 => (1 << 32) - LOCAL + near,
        1 => (1 << 31) - LOCAL - 4 + near,
        2 if rng.one_in(4) => *rng.pick(&[(1 << 31) - LOCAL, (1 << 32) - LOCAL - 1]),
        3 => (rng.next() << 32) | rng.below(1000),
        _ => rng.below(50),
    };
    let ttl = match rng.below(8) {
        0 => (1 << 31) - 1 - near,
        1 if rng.one_in(4) => *rng.pick(&[1 << 31, 1 << 32, u64::MAX, (1 << 31) + 1]),
        _ => rng.below(10),
    };
    [timestamp, local, ttl]
}

/// The double's bits: mostly from 0 to 1, else about them, none at all or
/// infinite.
fn chance(rng: &mut Rng) -> u64 {
    let one = 1f64.to_bits();
    match rng.below(30) {
        0 => *rng.pick(&[one + 1, one + 2, (1 << 63) + 1, (-1f64).to_bits()]),
        1 => *rng.pick(&[
            f64::NAN.to_bits(),
            f64::NAN.to_bits() | (1 << 63),
            f64::INFINITY.to_bits() + 1,
            f64::INFINITY.to_bits(),
            f64::NEG_INFINITY.to_bits(),
        ]),
        2 => rng.next(),
        3..=6 => *rng.pick(&[0, 1, 1 << 63, one, one - 1]),
        _ => rng.below(one + 1),
    }
}

fn entry0(rng: &mut Rng) -> Vec<u8> {
    let len = rng.index(50) * rng.index(2);
    let announced = match rng.below(60) {
        0 => beside(rng, len as u64) as u16,
        _ => len as u16,
    };
    let mut out = announced.to_be_bytes().to_vec();
    out.extend(rng.bytes(len));
    out.extend(chance(rng).to_be_bytes());
    out
}

/// Entries in any order of place and of contents, with the odd fault.
fn file(rng: &mut Rng) -> Vec<u8> {
    let twist = rng.one_in(12).then(|| rng.below(20));
    let longer = rng.one_in(3);
    let mut maker = Maker {
        rng,
        out: Vec::new(),
        longer,
        twist,
        names: Vec::new(),
    };
    let three = maker.entry3();
    let mut entries = vec![(0, entry0(rng)), (3, three)];
    for kind in [1, 2] {
        if rng.one_in(3) {
            let len = rng.index(30);
            entries.push((kind, rng.bytes(len)));
        }
    }
    if rng.one_in(2) {
        shuffle(rng, &mut entries);
    }
    if rng.one_in(20) {
        change_entries(rng, &mut entries);
    }
    assemble(rng, entries)
}

fn shuffle<T>(rng: &mut Rng, items: &mut [T]) {
    for i in 1..items.len() {
        items.swap(i, rng.index(i + 1));
    }
}

/// An entry dropped, doubled, emptied, with a byte more or less, or of another
/// type.
fn change_entries(rng: &mut Rng, entries: &mut Vec<(u32, Vec<u8>)>) {
    let i = rng.index(entries.len());
    match rng.below(7) {
        0 => drop(entries.remove(i)),
        1 => entries.push(entries[i].clone()),
        2 => entries[i].1.clear(),
        3 => entries[i].1.push(rng.byte()),
        4 => drop(entries[i].1.pop()),
        5 => {
            let j = rng.index(entries.len());
            (entries[i].0, entries[j].0) = (entries[j].0, entries[i].0);
        }
        _ => entries[i].0 = *rng.pick(&[0, 1, 2, 3, 4, 5, 0x100, 1 << 31, u32::MAX]),
    }
}

/// The file ends among its pairs, an offset about that end and the contents'.
fn cut_in_contents(rng: &mut Rng, bytes: &mut Vec<u8>) {
    let len = 8 + rng.index(29.min(bytes.len() - 7));
    bytes.truncate(len);
    let at = 8 * (1 + rng.index(len / 8));
    if let Some(offset) = bytes.get_mut(at..at + 4) {
        let value = (len + rng.index(20)) as u32 - 3;
        offset.copy_from_slice(&value.to_be_bytes());
    }
}

/// Contents, perhaps a gap, and the entries one after the other.
fn assemble(rng: &mut Rng, entries: Vec<(u32, Vec<u8>)>) -> Vec<u8> {
    let gap = rng.index(6) * usize::from(rng.one_in(5));
    let mut body = rng.bytes(gap);
    let start = 4 + 8 * entries.len();
    let mut pairs = Vec::new();
    for (kind, bytes) in entries {
        pairs.push((kind, (start + body.len()) as u32));
        body.extend(bytes);
    }
    if rng.one_in(2) {
        shuffle(rng, &mut pairs);
    }
    let len = start + body.len();
    if rng.one_in(20) && !pairs.is_empty() {
        let (i, j) = (rng.index(pairs.len()), rng.index(pairs.len()));
        let other = pairs[j].1;
        let offset = &mut pairs[i].1;
        *offset = match rng.below(5) {
            0 => other,
            1 => (len + rng.index(3)) as u32 - 1,
            2 => (start + rng.index(3)) as u32 - 1,
            _ => beside(rng, u64::from(*offset)) as u32,
        };
    }
    let count = match rng.below(50) {
        0 => beside(rng, pairs.len() as u64) as u32,
        1 => *rng.pick(&[0, 1, 2, 3, 4, 5, 6]),
        _ => pairs.len() as u32,
    };
    let mut out = count.to_be_bytes().to_vec();
    for (kind, offset) in pairs {
        out.extend(kind.to_be_bytes());
        out.extend(offset.to_be_bytes());
    }
    out.extend(body);
    out
}
