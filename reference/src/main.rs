//! Command line over the library, for differential runs.

use std::env;
use std::fs;
use std::io::{self, BufWriter, Write};
use std::path::Path;
use std::process::ExitCode;
use std::time::Instant;

use reference::batch::answer::{hex, scylla_line};
use reference::batch::{self, Case, Files};
use reference::data::Source;
use reference::gen;
use reference::schema::Schema;
use reference::walk::{list_into, walk, walk_by_steps};
use reference::{
    list_data, merge, read_scylla, read_statistics, write_data, Bases, Record, Refusal, Side,
    Stats, LIMIT,
};

const USAGE: &str = "usage:
  reference list STATS DATA
  reference stats FILE
  reference scylla FILE
  reference write STATS RECORDS BYTES OUT [LENGTH]
  reference records STATS DATA OUT
  reference merge STATS_A DATA_A STATS_B DATA_B OUT [LENGTH]
  reference bench STATS DATA N [STATS_B DATA_B]
  reference batch FILE [--full]
  reference gen STATS_OUT DATA_OUT SIZE PARTITION_SIZE SEED
  reference make OUT KIND [HEX...]
  reference store FILE DIR NAME
  reference gen-cases OUT COUNT SEED";

/// What ends a subcommand early.
enum Stop {
    Refused(Refusal),
    Failed(String),
}

impl From<Refusal> for Stop {
    fn from(refusal: Refusal) -> Stop {
        Stop::Refused(refusal)
    }
}

impl From<io::Error> for Stop {
    fn from(error: io::Error) -> Stop {
        Stop::Failed(error.to_string())
    }
}

type Done = Result<(), Stop>;

fn main() -> ExitCode {
    let args: Vec<String> = env::args().skip(1).collect();
    let words: Vec<&str> = args.iter().map(String::as_str).collect();
    match run(&words) {
        Ok(()) => ExitCode::SUCCESS,
        Err(Stop::Refused(refusal)) => {
            println!("{refusal}");
            ExitCode::from(1)
        }
        Err(Stop::Failed(text)) => {
            eprintln!("{text}");
            ExitCode::from(2)
        }
    }
}

fn run(words: &[&str]) -> Done {
    match words {
        ["list", stats, data] => list(stats, data),
        ["stats", file] => stats(file),
        ["scylla", file] => scylla(file),
        ["write", stats, records, bytes, out] => write(stats, records, bytes, out, LIMIT),
        ["write", stats, records, bytes, out, output] => {
            length_of(output).and_then(|r| write(stats, records, bytes, out, r))
        }
        ["records", stats, data, out] => records(stats, data, out),
        ["merge", sa, da, sb, db, out] => merge_files([sa, da, sb, db], out, LIMIT),
        ["merge", sa, da, sb, db, out, output] => {
            length_of(output).and_then(|r| merge_files([sa, da, sb, db], out, r))
        }
        ["bench", stats, data, n] => bench_list(stats, data, n),
        ["bench", sa, da, n, sb, db] => {
            bench_list(sa, da, n).and_then(|()| bench_merge([sa, da, sb, db], n))
        }
        ["batch", file] => run_batch(file, false),
        ["batch", file, "--full"] => run_batch(file, true),
        ["make", out, kind, blobs @ ..] => make(out, kind, blobs),
        ["store", file, dir, name] => store(file, dir, name),
        ["gen", stats, data, size, partition, seed] => {
            generate(stats, data, [size, partition, seed])
        }
        ["gen-cases", out, count, seed] => generate_cases(out, count, seed),
        _ => Err(Stop::Failed(USAGE.to_string())),
    }
}

fn read(path: &str) -> Result<Vec<u8>, Stop> {
    fs::read(path).map_err(|e| Stop::Failed(format!("{path}: {e}")))
}

fn parse<T: std::str::FromStr>(word: &str) -> Result<T, Stop> {
    word.parse()
        .map_err(|_| Stop::Failed(format!("not a number: {word}")))
}

fn length_of(word: &str) -> Result<usize, Stop> {
    parse(word)
}

/// "prints twelve decimal fields a record"
fn list(stats: &str, data: &str) -> Done {
    let stats = read_statistics(&read(stats)?)?;
    let records = list_data(&stats.schema, stats.bases, &read(data)?)?;
    let mut out = BufWriter::new(io::stdout().lock());
    for raw in &records {
        writeln!(out, "{}", Record::from_bytes_loosely(raw).print())?;
    }
    Ok(out.flush()?)
}

fn stats(file: &str) -> Done {
    let bytes = read(file)?;
    let Stats {
        bases,
        validation,
        schema,
    } = read_statistics(&bytes)?;
    println!("bases {} {} {}", bases.timestamp, bases.local, bases.ttl);
    println!(
        "validation {} {} {:016x}",
        validation.name_at, validation.name_len, validation.chance_bits
    );
    println!("# role line reversed width name-offset name-length name");
    for column in &Schema::check(&schema)?.columns {
        let name = column.name(&bytes).unwrap_or_default();
        println!(
            "{} {} {} {} {} {} {}",
            column.role,
            column.line,
            u8::from(column.reversed),
            column.width,
            column.name_at,
            column.name_len,
            if column.name_len > 0 {
                hex(name)
            } else {
                "-".into()
            }
        );
    }
    Ok(())
}

fn scylla(file: &str) -> Done {
    let info = read_scylla(&read(file)?)?;
    println!("{}", scylla_line(&info));
    Ok(())
}

fn write(stats: &str, records: &str, bytes: &str, out: &str, output: usize) -> Done {
    let stats = read_statistics(&read(stats)?)?;
    let written = write_data(
        &stats.schema,
        stats.bases,
        &read(records)?,
        &read(bytes)?,
        output,
    )?;
    println!("ok {}", written.len());
    Ok(fs::write(out, written)?)
}

/// The listing as 64-byte records, for `write`.
fn records(stats: &str, data: &str, out: &str) -> Done {
    let stats = read_statistics(&read(stats)?)?;
    let records = list_data(&stats.schema, stats.bases, &read(data)?)?;
    println!("ok {}", records.len());
    Ok(fs::write(out, records.concat())?)
}

/// Two sets of files read for a merge.
struct Pair {
    files: [Vec<u8>; 4],
    a: Stats,
    b: Stats,
}

impl Pair {
    fn read(paths: [&str; 4]) -> Result<Pair, Stop> {
        let [sa, da, sb, db] = paths;
        let files = [read(sa)?, read(da)?, read(sb)?, read(db)?];
        let a = read_statistics(&files[0]).map_err(|r| r.on(Side::A))?;
        let b = read_statistics(&files[2]).map_err(|r| r.on(Side::B))?;
        Ok(Pair { files, a, b })
    }

    fn merge(&self, output: usize) -> Result<(Vec<u8>, Bases), Refusal> {
        let [sa, da, sb, db] = &self.files;
        let a = Files {
            statistics: sa,
            data: da,
        };
        let b = Files {
            statistics: sb,
            data: db,
        };
        merge(a.table(&self.a), b.table(&self.b), output)
    }
}

fn merge_files(paths: [&str; 4], out: &str, output: usize) -> Done {
    let (merged, bases) = Pair::read(paths)?.merge(output)?;
    println!(
        "ok {} {} {} {}",
        merged.len(),
        bases.timestamp,
        bases.local,
        bases.ttl
    );
    Ok(fs::write(out, merged)?)
}

/// Runs `work` in rounds and prints MB/s of `bytes`: the mean and the best.
fn timed(
    name: &str,
    bytes: usize,
    rounds: u32,
    mut work: impl FnMut() -> Result<String, Refusal>,
) -> Done {
    let mut seconds = Vec::new();
    let mut note = String::new();
    for _ in 0..rounds.max(1) {
        let start = Instant::now();
        note = work()?;
        seconds.push(start.elapsed().as_secs_f64());
    }
    let mean = seconds.iter().sum::<f64>() / seconds.len() as f64;
    let best = seconds.iter().copied().fold(f64::INFINITY, f64::min);
    let speed = |s: f64| bytes as f64 / 1e6 / s;
    println!(
        "{name:10} mean {:7.1} best {:7.1} MB/s of Data ({note})",
        speed(mean),
        speed(best)
    );
    Ok(())
}

fn bench_list(stats: &str, data: &str, rounds: &str) -> Done {
    let rounds: u32 = parse(rounds)?;
    let stats = read_statistics(&read(stats)?)?;
    let data = read(data)?;
    let schema = Schema::check(&stats.schema)?;
    let source = Source {
        schema: &schema,
        bases: stats.bases,
        data: &data,
    };
    bench_walk(&source, rounds)?;
    let mut kept = Vec::new();
    list_into(&stats.schema, stats.bases, &data, &mut kept)?;
    timed("list", data.len(), rounds, || {
        list_into(&stats.schema, stats.bases, &data, &mut kept)?;
        let count = kept.len();
        Ok(format!("{count} records into a kept, touched buffer"))
    })?;
    drop(kept);
    timed("list-fresh", data.len(), rounds, || {
        let records = list_data(&stats.schema, stats.bases, &data)?;
        Ok(format!("{} records into a fresh Vec", records.len()))
    })?;
    let records = list_data(&stats.schema, stats.bases, &data)?.concat();
    timed("write", data.len(), rounds, || {
        let written = write_data(&stats.schema, stats.bases, &records, &data, LIMIT)?;
        Ok(format!("{} bytes written into a fresh Vec", written.len()))
    })
}

/// Items read and nothing stored, in loops and by single steps.
fn bench_walk(source: &Source, rounds: u32) -> Done {
    let len = source.data.len();
    let check = |record: &Record| record.offset ^ record.timestamp as u64;
    timed("walk", len, rounds, || {
        let (mut items, mut sum) = (0u64, 0u64);
        walk(source, |item| {
            items += 1;
            sum ^= check(&item.record);
        })?;
        Ok(format!("{len} bytes, {items} items, check {sum:x}"))
    })?;
    timed("steps", len, rounds, || {
        let mut sum = 0u64;
        walk_by_steps(source, |item| sum ^= check(&item.record))?;
        Ok(format!("State::step alone, check {sum:x}"))
    })
}

fn bench_merge(paths: [&str; 4], rounds: &str) -> Done {
    let rounds: u32 = parse(rounds)?;
    let pair = Pair::read(paths)?;
    let read_bytes = pair.files[1].len() + pair.files[3].len();
    timed("merge", read_bytes, rounds, || {
        let (out, _) = pair.merge(LIMIT)?;
        Ok(format!(
            "{read_bytes} bytes of both in, {} out into a fresh Vec",
            out.len()
        ))
    })
}

fn run_batch(file: &str, full: bool) -> Done {
    let bytes = read(file)?;
    let cases = batch::decode_cases(&bytes).ok_or(Stop::Failed("malformed container".into()))?;
    let mut out = BufWriter::new(io::stdout().lock());
    for (i, (kind, blobs)) in cases.iter().enumerate() {
        writeln!(out, "{i} {}", batch::run_case(*kind, blobs, full))?;
    }
    Ok(out.flush()?)
}

/// A container of one case, whose blobs are given in hex.
fn make(out: &str, kind: &str, blobs: &[&str]) -> Done {
    let blobs: Result<Vec<Vec<u8>>, Stop> = blobs.iter().map(|text| unhex(text)).collect();
    let case = Case {
        kind: parse(kind)?,
        blobs: blobs?,
    };
    Ok(fs::write(out, batch::encode_cases(&[case]))?)
}

fn unhex(text: &str) -> Result<Vec<u8>, Stop> {
    let bad = || Stop::Failed(format!("not hex: {text}"));
    let digit = |c: char| c.to_digit(16).map(|d| d as u8).ok_or_else(bad);
    let digits: Result<Vec<u8>, Stop> = text.chars().map(digit).collect();
    let pairs = digits?;
    if pairs.len() % 2 == 1 {
        return Err(bad());
    }
    Ok(pairs.chunks(2).map(|pair| pair[0] << 4 | pair[1]).collect())
}

/// Stores each case of a container as a container of its own, beside the line
/// that answers it.
fn store(file: &str, dir: &str, name: &str) -> Done {
    let bytes = read(file)?;
    let cases = batch::decode_cases(&bytes).ok_or(Stop::Failed("malformed container".into()))?;
    for (i, (kind, blobs)) in cases.iter().enumerate() {
        let own = if cases.len() == 1 {
            name.to_string()
        } else {
            format!("{name}-{i}")
        };
        let path = Path::new(dir).join(own);
        let line = batch::run_case(*kind, blobs, true);
        let blobs = blobs.iter().map(|b| b.to_vec()).collect();
        let container = batch::encode_cases(&[Case { kind: *kind, blobs }]);
        fs::write(path.with_extension("batch"), container)?;
        fs::write(path.with_extension("expected"), format!("{line}\n"))?;
        println!("{} {line}", path.display());
    }
    Ok(())
}

fn generate(stats_out: &str, data_out: &str, numbers: [&str; 3]) -> Done {
    let [size, partition, seed] = numbers;
    let bytes = gen::statistics(&gen::bench_text());
    let stats = read_statistics(&bytes)?;
    let schema = Schema::check(&stats.schema)?;
    let data = gen::bench_data(
        &schema,
        stats.bases,
        parse(size)?,
        parse(partition)?,
        parse(seed)?,
    );
    println!("ok {} {}", bytes.len(), data.len());
    fs::write(stats_out, bytes)?;
    Ok(fs::write(data_out, data)?)
}

fn generate_cases(out: &str, count: &str, seed: &str) -> Done {
    let cases = gen::random_cases(parse(count)?, parse(seed)?);
    Ok(fs::write(out, batch::encode_cases(&cases))?)
}
