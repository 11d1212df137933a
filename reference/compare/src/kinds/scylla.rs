//! Scylla.db.

use reference::batch::answer::scylla_line;
use reference::batch::{kind, Call, Case};
use reference::rng::Rng;
use reference::scylla::Place;
use reference::{read_scylla, ScyllaInfo, LIMIT};

use super::damage::{beside, damage};
use super::{line, Kind, Limit};
use crate::library;

pub struct Scylla;

impl Kind for Scylla {
    fn name(&self) -> &'static str {
        "scylla"
    }

    fn count(&self) -> u64 {
        1_000_000
    }

    fn generate(&self, rng: &mut Rng) -> Case {
        let mut bytes = file(rng);
        if rng.one_in(4) {
            damage(rng, &mut bytes);
        }
        Case {
            kind: kind::SCYLLA,
            blobs: vec![bytes],
        }
    }

    fn library(&self, call: &Call, _full: bool) -> Option<String> {
        match *call {
            Call::Scylla { scylla } => Some(read_line(scylla)),
            _ => None,
        }
    }

    fn limits(&self) -> Vec<Limit> {
        let mut over = vec![0; LIMIT + 1];
        over[3] = 1;
        over[7] = 9;
        over[8..12].copy_from_slice(&(LIMIT as u32 - 12).to_be_bytes());
        let limit = |what, bytes: &[u8]| Limit {
            what,
            library: read_line(bytes),
            reference: told(bytes),
        };
        vec![
            limit("scylla of 1073741824 bytes", &over[..LIMIT]),
            limit("scylla of 1073741823 bytes", &over[..LIMIT - 1]),
            limit("scylla of 1073741825 bytes", &over),
        ]
    }
}

fn read_line(bytes: &[u8]) -> String {
    let answer = library::scylla_read(bytes);
    line(answer.map(|words| scylla_line(&info(&words))))
}

fn info(words: &[u64; 11]) -> ScyllaInfo {
    let [features, high, low, places @ ..] = *words;
    let run = (u128::from(high) << 64) | u128::from(low);
    let place = |i: usize| Place {
        offset: places[2 * i],
        length: places[2 * i + 1],
    };
    ScyllaInfo {
        features,
        run_identifier: run.to_be_bytes(),
        places: [0, 1, 2, 3].map(place),
    }
}

fn told(bytes: &[u8]) -> String {
    match read_scylla(bytes) {
        Ok(info) => scylla_line(&info),
        Err(refusal) => refusal.to_string(),
    }
}

/// Writes components; one number of the file may be another than it should.
struct Maker<'r> {
    rng: &'r mut Rng,
    /// How many numbers are written before the one that is changed.
    twist: Option<u64>,
}

impl Maker<'_> {
    fn number(&mut self, out: &mut Vec<u8>, value: usize, width: usize) {
        let mut value = value as u64;
        self.twist = match self.twist {
            Some(0) => {
                value = beside(self.rng, value);
                None
            }
            twist => twist.map(|left| left - 1),
        };
        out.extend_from_slice(&value.to_be_bytes()[8 - width..]);
    }

    /// A run of random bytes; now and then one byte short or long.
    fn run(&mut self, len: usize) -> Vec<u8> {
        let len = match self.rng.below(40) {
            0 => len - 1,
            1 => len + 1,
            2 => self.rng.index(2 * len),
            _ => len,
        };
        self.rng.bytes(len)
    }

    fn body(&mut self, tag: u32) -> Vec<u8> {
        match tag {
            1 => self.sharding(),
            2 => self.run(8),
            3 => self.attributes(),
            4 => self.run(16),
            _ => {
                let len = self.rng.index(12) * self.rng.index(3);
                self.rng.bytes(len)
            }
        }
    }

    /// Token ranges in order; one in ten has one bound that may be out of it.
    fn sharding(&mut self) -> Vec<u8> {
        let mut bounds = bounds(self.rng);
        if self.rng.one_in(10) && !bounds.is_empty() {
            let (i, j) = (self.rng.index(bounds.len()), self.rng.index(bounds.len()));
            match self.rng.below(5) {
                0 => bounds.swap(i, j),
                1 => bounds[i].0 = 2 + self.rng.below(254) as u8,
                2 => bounds[i].1 = bounds[j].1,
                3 => bounds[i].0 ^= 1,
                _ => bounds[i].1 = self.rng.next() as i64,
            }
        }
        let mut out = Vec::new();
        self.number(&mut out, bounds.len() / 2, 4);
        for (flag, token) in bounds {
            out.push(flag);
            let short = if self.rng.one_in(120) {
                *self.rng.pick(&[6, 7, 9])
            } else {
                8
            };
            self.number(&mut out, short, 2);
            let token = [token.to_be_bytes(), [0; 8]].concat();
            let kept = if self.rng.one_in(2) { short } else { 8 };
            out.extend_from_slice(&token[..kept]);
        }
        out
    }

    /// Keys and values, which may repeat and be empty; now and then cut.
    fn attributes(&mut self) -> Vec<u8> {
        let count = self.rng.index(4);
        let mut out = Vec::new();
        self.number(&mut out, count, 4);
        for _ in 0..2 * count {
            let len = self.rng.index(4) * self.rng.index(4);
            self.number(&mut out, len, 4);
            out.extend(self.rng.bytes(len));
        }
        if self.rng.one_in(20) {
            out.truncate(self.rng.index(out.len()));
        }
        out
    }
}

/// Bounds of ranges in order, of flag and token.
fn bounds(rng: &mut Rng) -> Vec<(u8, i64)> {
    let count = rng.below(4);
    let mut token = match rng.below(5) {
        0 => i64::MIN,
        1 => i64::MAX - rng.below(8) as i64,
        _ => -3,
    };
    let mut bounds: Vec<(u8, i64)> = Vec::new();
    for i in 0..2 * count {
        let step = *rng.pick(&[0, 1, 1, 2, 1 << 33]);
        let mut next = (token.saturating_add(step), rng.below(2) as u8);
        if let Some(&(flag, before)) = bounds.last().filter(|&&(_, at)| at == next.0) {
            // Equal: both inclusive in a range, not both between ranges.
            let is_right = i % 2 == 1;
            match (is_right, flag) {
                (true, 0) => next.1 = 0,
                (true, _) if before < i64::MAX => next.0 += 1,
                (false, 0) => next.1 = 1,
                _ => {}
            }
        }
        token = next.0;
        bounds.push((next.1, token));
    }
    bounds
}

/// A file of some components: mostly each known tag at most once, in any order
/// and among unknown ones.
fn file(rng: &mut Rng) -> Vec<u8> {
    let mut tags: Vec<u32> = (1..=4).filter(|_| rng.one_in(2)).collect();
    for _ in 0..rng.below(3) {
        tags.push(*rng.pick(&[0, 5, 5, 6, 0x100, 0x0100_0001, u32::MAX]));
    }
    if rng.one_in(25) && !tags.is_empty() {
        tags.push(tags[rng.index(tags.len())]);
    }
    for i in 1..tags.len() {
        tags.swap(i, rng.index(i + 1));
    }
    let twist = rng.one_in(8).then(|| rng.below(14));
    let mut maker = Maker { rng, twist };
    let mut out = Vec::new();
    maker.number(&mut out, tags.len(), 4);
    for tag in tags {
        let body = maker.body(tag);
        out.extend(tag.to_be_bytes());
        maker.number(&mut out, body.len(), 4);
        out.extend(body);
    }
    if maker.rng.one_in(40) {
        let len = 1 + maker.rng.index(4);
        out.extend(maker.rng.bytes(len));
    }
    out
}
