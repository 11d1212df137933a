//! Walks and listings of Data, and the writer.

use std::hint::black_box;
use std::time::Instant;

use reference::data::{Bases, Source};
use reference::schema::Schema;
use reference::walk::{list_into, walk, State, Step};
use reference::{gen, read_statistics, write_data, LIMIT};

use super::ROUNDS;
use crate::library::{self, Listed, Table};
use crate::Failed;

const SIZE: usize = 60_000_000;

pub fn bench() -> Result<(), Failed> {
    println!(
        "best of {ROUNDS} over {SIZE} bytes of Data; ratios are of throughputs, library to reference; \
         each single step is one call, of the library with its test of the schema"
    );
    bench_kind("one large partition", 0)?;
    bench_kind("partitions of 300 bytes", 300)
}

/// Data, and how it is read.
struct Made {
    records: Vec<u8>,
    bases: Bases,
    data: Vec<u8>,
}

fn made(partition: usize) -> Result<Made, Failed> {
    let told = |r: reference::Refusal| Failed::new(r.to_string());
    let stats = read_statistics(&gen::statistics(&gen::bench_text())).map_err(told)?;
    let schema = Schema::check(&stats.schema).map_err(told)?;
    let data = gen::bench_data(&schema, stats.bases, SIZE, partition, 1);
    Ok(Made {
        records: stats.schema,
        bases: stats.bases,
        data,
    })
}

fn bench_kind(what: &str, partition: usize) -> Result<(), Failed> {
    let made = made(partition)?;
    let told = |r: reference::Refusal| Failed::new(r.to_string());
    let schema = Schema::check(&made.records).map_err(told)?;
    let source = Source {
        schema: &schema,
        bases: made.bases,
        data: &made.data,
    };
    let words = library::bases_words(made.bases);
    let table = Table {
        schema: &made.records,
        bases: &words,
        data: &made.data,
    };
    let walked = race(
        || library::count(table).map_or(0, |count| count as u64),
        || reference_count(&source),
    );
    walked.tell(what, "walk to a count")?;
    let mut out = vec![0; 64 * walked.items[0] as usize];
    let mut records = Vec::with_capacity(walked.items[0] as usize);
    let listed = race(
        || library::list(table, &mut out).map_or(0, |count| count as u64),
        || {
            let listed = list_into(&made.records, made.bases, &made.data, &mut records);
            listed.map_or(0, |()| records.len() as u64)
        },
    );
    listed.tell(what, "listing")?;
    if out != records.as_flattened() {
        return Err(Failed::new(format!(
            "{what}: the library lists other records"
        )));
    }
    race(|| library_steps(table), || reference_steps(&source)).tell(what, "single steps")?;
    bench_writer(what, &made, &out)
}

/// The records written again; the library's buffer is lent and was written to
/// before, the reference makes its own.
fn bench_writer(what: &str, made: &Made, records: &[u8]) -> Result<(), Failed> {
    let listed = Listed {
        schema: &made.records,
        bases: &library::bases_words(made.bases),
        records,
        bytes: &made.data,
    };
    let mut out = vec![1; made.data.len() + 4096];
    let mut data = Vec::new();
    let written = race(
        || library::write(listed, &mut out).map_or(0, |len| len as u64),
        || {
            let written = write_data(&made.records, made.bases, records, &made.data, LIMIT);
            data = written.unwrap_or_default();
            data.len() as u64
        },
    );
    written.tell(what, "writing (items are bytes)")?;
    if out[..data.len()] != data {
        return Err(Failed::new(format!(
            "{what}: the library writes other bytes"
        )));
    }
    Ok(())
}

/// The best time of each, library first, and how many items it had.
struct Race {
    seconds: [f64; 2],
    items: [u64; 2],
}

/// Rounds of both in turn, so that both meet the same machine.
fn race(mut library: impl FnMut() -> u64, mut reference: impl FnMut() -> u64) -> Race {
    let mut race = Race {
        seconds: [f64::INFINITY; 2],
        items: [0; 2],
    };
    for _ in 0..ROUNDS {
        for (i, call) in [&mut library as &mut dyn FnMut() -> u64, &mut reference]
            .into_iter()
            .enumerate()
        {
            let start = Instant::now();
            race.items[i] = black_box(call());
            race.seconds[i] = race.seconds[i].min(start.elapsed().as_secs_f64());
        }
    }
    race
}

impl Race {
    fn tell(&self, what: &str, how: &str) -> Result<(), Failed> {
        let [items, others] = self.items;
        if items != others || items == 0 {
            let text = format!("{what}, {how}: {items} items against {others}");
            return Err(Failed::new(text));
        }
        let [library, reference] = self.seconds;
        let rate = |seconds: f64| SIZE as f64 / seconds / 1e6;
        println!(
            "{what}, {how}: library {library:.3} s ({:.0} MB/s), reference {reference:.3} s \
             ({:.0} MB/s), ratio {:.2} ({items} items)",
            rate(library),
            rate(reference),
            reference / library,
        );
        Ok(())
    }
}

fn reference_count(source: &Source) -> u64 {
    let mut items = 0;
    walk(source, |_| items += 1).map_or(0, |()| items)
}

fn library_steps(table: Table) -> u64 {
    let mut state = [0; 16];
    let mut words = [0; 15];
    let mut items = 0;
    loop {
        library::step_words(table, &mut state, &mut words);
        if words[0] != 0 || words[3] == 0 {
            return items;
        }
        items += 1;
    }
}

/// The reference's step as the library's is called.
#[inline(never)]
fn reference_step(source: &Source, state: &mut State, words: &mut [u64; 15]) {
    *words = [0; 15];
    match state.step(source) {
        Ok(Step::Done) => {}
        Ok(Step::Next(item, next)) => {
            let r = item.record;
            words[3] = u64::from(r.kind);
            words[4] = u64::from(r.flags);
            words[5] = u64::from(r.column);
            words[6] = u64::from(r.ttl);
            words[7] = r.timestamp as u64;
            words[8] = r.mark as u64;
            words[9] = u64::from(r.local);
            words[10] = u64::from(r.expiry);
            words[11] = r.second_mark as u64;
            words[12] = u64::from(r.second_local);
            words[13] = r.offset;
            words[14] = r.length;
            *state = next;
        }
        Err(refusal) => words[0] = u64::from(refusal.number),
    }
}

fn reference_steps(source: &Source) -> u64 {
    let mut state = State::start();
    let mut words = [0; 15];
    let mut items = 0;
    loop {
        reference_step(source, &mut state, &mut words);
        if words[0] != 0 || words[3] == 0 {
            return items;
        }
        items += 1;
    }
}
