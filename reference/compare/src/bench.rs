//! `compare bench`: the library's time against the reference's.

use std::hint::black_box;
use std::time::Instant;

use reference::rng::Rng;
use reference::{gen, read_statistics, varint};

use crate::library::{self, varint_read_words};
use crate::Failed;

mod data;

const SIZE: usize = 100_000_000;
const ROUNDS: u32 = 5;

/// A part of the bench: its name, and what it does.
type Part = (&'static str, fn() -> Result<(), Failed>);

/// All of it, or the part named.
pub fn bench(part: Option<&str>) -> Result<(), Failed> {
    let parts: [Part; 3] = [
        ("varints", all_varints),
        ("statistics", all_statistics),
        ("data", data::bench),
    ];
    let chosen = |name: &str| part.is_none_or(|part| part == name);
    if !parts.iter().any(|(name, _)| chosen(name)) {
        let names = parts.map(|(name, _)| name).join(", ");
        return Err(Failed::new(format!("no such part; there is {names}")));
    }
    for (_, bench) in parts.iter().filter(|(name, _)| chosen(name)) {
        bench()?;
    }
    Ok(())
}

fn all_varints() -> Result<(), Failed> {
    println!(
        "best of {ROUNDS} over {SIZE} bytes; each varint is one call: of the library through C, \
         of the reference through a function that is not inlined and fills the same words"
    );
    let one: fn(&mut Rng) -> usize = |_| 1;
    bench_varints("varints of 1 byte", one)?;
    bench_varints("varints of mostly 1 to 3 bytes", |rng| {
        match rng.below(100) {
            0..=59 => 1,
            60..=84 => 2,
            85..=96 => 3,
            _ => 4 + rng.index(6),
        }
    })?;
    bench_varints("varints of 1 to 9 bytes evenly", |rng| 1 + rng.index(9))
}

fn all_statistics() -> Result<(), Failed> {
    println!("best of {ROUNDS}; one read of a Statistics of 159 columns into a lent buffer");
    bench_statistics("names of 1000 bytes, alike but for the last", |i| {
        let last = char::from(i as u8);
        format!("{}{last}", "n".repeat(999))
    })?;
    bench_statistics("names of 1 to 3 bytes", |i| match i % 3 {
        0 => char::from(b'!' + i as u8 / 3).to_string(),
        1 => format!("{i:02x}"),
        _ => format!("c{i:02x}"),
    })
}

/// The reference's read as the library's is called.
#[inline(never)]
fn reference_words(bytes: &[u8], at: usize, end: usize, words: &mut [u64; 5]) {
    *words = match varint::read_at(bytes, at, end) {
        Ok((value, next)) => [0, 0, 0, value, next as u64],
        Err(refusal) => [u64::from(refusal.number), 3, refusal.place, 0, 0],
    };
}

/// Shortest forms of the lengths that `length` draws.
fn varints(length: impl Fn(&mut Rng) -> usize) -> Vec<u8> {
    let mut rng = Rng::new(1);
    let mut bytes = Vec::with_capacity(SIZE + varint::MAX_LEN);
    while bytes.len() < SIZE {
        let total = length(&mut rng);
        let (low, high) = match total {
            1 => (0, 1 << 7),
            9 => (1 << 56, u64::MAX),
            _ => (1 << (7 * (total - 1)), 1u64 << (7 * total)),
        };
        varint::write(&mut bytes, low + rng.below(high - low));
    }
    bytes
}

fn bench_varints(name: &str, length: impl Fn(&mut Rng) -> usize) -> Result<(), Failed> {
    let bytes = varints(length);
    let library = read_all(&bytes, varint_read_words)?;
    let reference = read_all(&bytes, reference_words)?;
    if (library.count, library.sum) != (reference.count, reference.sum) {
        return Err(Failed::new(format!(
            "{name}: the library reads other numbers"
        )));
    }
    println!(
        "{name}: library {:.3} s, reference {:.3} s, ratio {:.2} ({} varints)",
        library.best,
        reference.best,
        library.best / reference.best,
        library.count
    );
    Ok(())
}

/// A Statistics with as many columns as there may be: a key, 32 clustering, 63
/// static and 63 regular ones, the names as `name` gives them.
fn wide_statistics(name: impl Fn(usize) -> String) -> Vec<u8> {
    let columns = |from: usize| {
        let of = |i: usize| (name(i), "Int32Type".to_string());
        (from..from + 63).map(of).collect()
    };
    gen::statistics(&gen::Text {
        key: "UTF8Type".into(),
        clustering: vec!["Int32Type".into(); 32],
        statics: columns(0),
        regulars: columns(63),
        ..gen::Text::default()
    })
}

fn bench_statistics(what: &str, name: impl Fn(usize) -> String) -> Result<(), Failed> {
    let file = wide_statistics(name);
    let told = read_statistics(&file).map_err(|r| Failed::new(format!("{what}: {r}")))?;
    let mut stored = vec![0; 16 * 159];
    let library = best_of(|| library::statistics_read(black_box(&file), &mut stored).is_ok());
    let reference = best_of(|| read_statistics(black_box(&file)).is_ok());
    if stored != told.schema {
        return Err(Failed::new(format!(
            "{what}: the library stores other records"
        )));
    }
    println!(
        "{what}: library {:.1} us, reference {:.1} us, ratio {:.2} ({} bytes)",
        library * 1e6,
        reference * 1e6,
        library / reference,
        file.len()
    );
    Ok(())
}

/// Seconds of one call, of which each round makes many.
fn best_of(mut call: impl FnMut() -> bool) -> f64 {
    const CALLS: u32 = 400;
    let mut best = f64::INFINITY;
    for _ in 0..ROUNDS {
        let start = Instant::now();
        for _ in 0..CALLS {
            assert!(black_box(call()));
        }
        best = best.min(start.elapsed().as_secs_f64() / f64::from(CALLS));
    }
    best
}

struct Read {
    best: f64,
    count: u64,
    sum: u64,
}

#[inline(always)]
fn read_all(
    bytes: &[u8],
    call: impl Fn(&[u8], usize, usize, &mut [u64; 5]),
) -> Result<Read, Failed> {
    let mut best = f64::INFINITY;
    let (mut count, mut sum) = (0, 0u64);
    for _ in 0..ROUNDS {
        (count, sum) = (0, 0);
        let mut words = [0; 5];
        let mut at = 0;
        let start = Instant::now();
        while at < bytes.len() {
            call(bytes, at, bytes.len(), &mut words);
            if words[0] != 0 {
                return Err(Failed::new(format!("refused at {at}: {words:?}")));
            }
            sum = sum.wrapping_add(words[3]);
            at = words[4] as usize;
            count += 1;
        }
        best = best.min(start.elapsed().as_secs_f64());
    }
    Ok(Read { best, count, sum })
}
