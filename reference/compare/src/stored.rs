//! `compare batch` and `compare cases`: cases from files.

use std::fs;
use std::io::{self, BufWriter, Write};
use std::path::{Path, PathBuf};

use reference::batch::answer::answer;
use reference::batch::{decode_cases, parse, LentCase};

use crate::kinds;
use crate::Failed;

pub fn read(path: &Path) -> Result<Vec<u8>, Failed> {
    fs::read(path).map_err(|e| Failed::new(format!("{}: {e}", path.display())))
}

fn decode<'a>(path: &Path, bytes: &'a [u8]) -> Result<Vec<LentCase<'a>>, Failed> {
    let malformed = || Failed::new(format!("{}: malformed container", path.display()));
    decode_cases(bytes).ok_or_else(malformed)
}

/// The reference's `batch`, answered by the library.
pub fn batch(path: &Path, full: bool) -> Result<(), Failed> {
    let bytes = read(path)?;
    let mut out = BufWriter::new(io::stdout().lock());
    for (i, (kind, blobs)) in decode(path, &bytes)?.iter().enumerate() {
        let line = match parse(*kind, blobs) {
            Ok(call) => kinds::library(&call, full).unwrap_or("unsupported".into()),
            Err(malformed) => malformed,
        };
        writeln!(out, "{i} {line}")?;
    }
    Ok(out.flush()?)
}

/// What one stored case came to.
enum Outcome {
    Both,
    ReferenceAlone,
    Different,
}

/// Every stored case of a folder.
pub fn cases(dir: &Path) -> Result<(), Failed> {
    let (mut both, mut alone, mut different) = (0, 0, 0);
    for path in stored(dir)? {
        match check(&path)? {
            Outcome::Both => both += 1,
            Outcome::ReferenceAlone => alone += 1,
            Outcome::Different => different += 1,
        }
    }
    let all = both + alone + different;
    println!(
        "{all} stored cases, {both} by library and reference, {alone} by the reference alone \
         (the library has no such call yet), {different} differences"
    );
    match (all, different) {
        (0, _) => Err(Failed::new(format!("{}: no stored cases", dir.display()))),
        (_, 0) => Ok(()),
        _ => Err(Failed::told()),
    }
}

fn stored(dir: &Path) -> Result<Vec<PathBuf>, Failed> {
    let failed = |e: io::Error| Failed::new(format!("{}: {e}", dir.display()));
    let mut paths = Vec::new();
    for entry in fs::read_dir(dir).map_err(failed)? {
        let path = entry.map_err(failed)?.path();
        if path.extension().is_some_and(|e| e == "batch") {
            paths.push(path);
        }
    }
    paths.sort();
    Ok(paths)
}

fn check(path: &Path) -> Result<Outcome, Failed> {
    let bytes = read(path)?;
    let cases = decode(path, &bytes)?;
    let [(kind, blobs)] = cases.as_slice() else {
        return Err(Failed::new(format!("{}: not one case", path.display())));
    };
    let expected = String::from_utf8_lossy(&read(&path.with_extension("expected"))?).into_owned();
    let call = match parse(*kind, blobs) {
        Ok(call) => call,
        Err(malformed) => return Err(Failed::new(format!("{}: {malformed}", path.display()))),
    };
    let mut good = same(path, "reference", &answer(&call, true), &expected);
    let library = kinds::library(&call, true);
    if let Some(line) = &library {
        good &= same(path, "library", line, &expected);
    }
    Ok(match library {
        _ if !good => Outcome::Different,
        Some(_) => Outcome::Both,
        None => Outcome::ReferenceAlone,
    })
}

fn same(path: &Path, who: &str, line: &str, expected: &str) -> bool {
    let good = line == expected.trim_end_matches('\n');
    if !good {
        println!("{}", path.display());
        println!("  expected: {}", expected.trim_end_matches('\n'));
        println!("  {who}: {line}");
    }
    good
}
