//! `compare folder`: a server's own files, set by set.

use std::collections::BTreeMap;
use std::fs;
use std::path::{Path, PathBuf};

use reference::batch::answer::answer;
use reference::batch::Call;

use crate::kinds;
use crate::stored::read;
use crate::Failed;

/// The files of a set that are looked at.
const COMPONENTS: [&str; 4] = [
    "Statistics.db",
    "Data.db",
    "Scylla.db",
    "CompressionInfo.db",
];

/// The sets of a folder: file names in front of the component's, and for each
/// component its file.
type Sets = BTreeMap<String, BTreeMap<&'static str, PathBuf>>;

fn sets(dir: &Path) -> Result<Sets, Failed> {
    let failed = |e: std::io::Error| Failed::new(format!("{}: {e}", dir.display()));
    let mut sets = Sets::new();
    for entry in fs::read_dir(dir).map_err(failed)? {
        let path = entry.map_err(failed)?.path();
        let name = path
            .file_name()
            .unwrap_or_default()
            .to_string_lossy()
            .into_owned();
        if let Some((set, component)) = split(&name) {
            sets.entry(set.to_string())
                .or_default()
                .insert(component, path);
        }
    }
    Ok(sets)
}

/// `mc-1-big-Data.db` is component `Data.db` of set `mc-1-big-`.
fn split(name: &str) -> Option<(&str, &'static str)> {
    COMPONENTS.iter().find_map(|component| {
        let set = name.strip_suffix(component)?;
        (set.is_empty() || set.ends_with('-')).then_some((set, *component))
    })
}

/// Counts of what was done.
#[derive(Default)]
struct Done {
    compared: u64,
    unsupported: u64,
    different: u64,
}

impl Done {
    fn call(&mut self, name: &str, what: &str, call: &Call) {
        let reference = answer(call, false);
        println!("{name}: {what}: {reference}");
        match kinds::library(call, false) {
            None => self.unsupported += 1,
            Some(line) if line == reference => self.compared += 1,
            Some(line) => {
                self.different += 1;
                println!("{name}: {what}: DIFFERENT, the library says {line}");
            }
        }
    }
}

pub fn folder(dir: &Path) -> Result<(), Failed> {
    let sets = sets(dir)?;
    let mut done = Done::default();
    for (set, files) in &sets {
        let name = if set.is_empty() {
            "set"
        } else {
            set.trim_end_matches('-')
        };
        run_set(name, files, &mut done)?;
    }
    let Done {
        compared,
        unsupported,
        different,
    } = done;
    if compared + different == 0 {
        println!("the library has no call for such files yet: these are the reference's answers");
    }
    println!(
        "{} sets, compared {compared} calls, {unsupported} that the library has not yet, \
         {different} differences",
        sets.len()
    );
    match different {
        0 => Ok(()),
        _ => Err(Failed::told()),
    }
}

fn run_set(name: &str, files: &BTreeMap<&str, PathBuf>, done: &mut Done) -> Result<(), Failed> {
    let load = |component: &str| files.get(component).map(|path| read(path)).transpose();
    let statistics = load("Statistics.db")?;
    if let Some(statistics) = &statistics {
        let output = None;
        done.call(name, "statistics", &Call::Statistics { statistics, output });
    }
    if let Some(scylla) = &load("Scylla.db")? {
        done.call(name, "scylla", &Call::Scylla { scylla });
    }
    match (&statistics, files.contains_key("Data.db")) {
        (_, false) => println!("{name}: no Data.db"),
        (None, true) => println!("{name}: Data.db without Statistics.db"),
        _ if files.contains_key("CompressionInfo.db") => {
            println!("{name}: Data.db is compressed, which document 01 does not cover");
        }
        (Some(statistics), true) => {
            let data = &load("Data.db")?.unwrap_or_default();
            done.call(name, "list", &Call::List { statistics, data });
        }
    }
    Ok(())
}

#[cfg(test)]
mod tests {
    use super::split;

    #[test]
    fn names_of_files() {
        assert_eq!(split("mc-1-big-Data.db"), Some(("mc-1-big-", "Data.db")));
        assert_eq!(split("Statistics.db"), Some(("", "Statistics.db")));
        assert_eq!(
            split("mc-1-big-Scylla.db"),
            Some(("mc-1-big-", "Scylla.db"))
        );
        assert_eq!(split("MyData.db"), None);
        assert_eq!(split("mc-1-big-Index.db"), None);
    }
}
