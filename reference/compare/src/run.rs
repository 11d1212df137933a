//! `compare run`: cases at random through the library and the reference.

use std::fs;
use std::num::NonZeroUsize;
use std::ops::Range;
use std::sync::atomic::{AtomicU64, Ordering};
use std::thread;

use reference::batch::answer::hex;
use reference::batch::{encode_cases, parse, Case};
use reference::rng::Rng;

use crate::kinds::{self, Compared, Kind};
use crate::Failed;

/// What to run.
pub struct Plan {
    pub seed: u64,
    /// The first case's index.
    pub from: u64,
    /// How many of each kind, if not its own count.
    pub count: Option<u64>,
    pub kind: Option<String>,
}

pub fn run(plan: &Plan) -> Result<(), Failed> {
    let mut compared = 0;
    let chosen = |kind: &dyn Kind| plan.kind.as_deref().is_none_or(|name| name == kind.name());
    for kind in kinds::all().iter().filter(|kind| chosen(kind.as_ref())) {
        compared += run_limits(kind.as_ref())?;
        let count = plan.count.unwrap_or(kind.count());
        let indices = plan.from..plan.from.saturating_add(count);
        let accepted = match run_cases(kind.as_ref(), plan.seed, indices) {
            Ok(accepted) => accepted,
            Err(stop) => return tell(kind.as_ref(), plan.seed, &stop),
        };
        let share = 100.0 * accepted as f64 / count.max(1) as f64;
        println!("{}: {count} cases, {share:.1}% accepted", kind.name());
        compared += count;
    }
    if compared == 0 {
        let names: Vec<&str> = kinds::all().iter().map(|kind| kind.name()).collect();
        return Err(Failed::new(format!(
            "no such kind; there is {}",
            names.join(", ")
        )));
    }
    println!("compared {compared} cases, 0 differences");
    Ok(())
}

/// Case `index` of seed `seed`: nothing else has a part in it.
fn case_of(kind: &dyn Kind, seed: u64, index: u64) -> Case {
    // splitmix64 of both, so that neighbours have nothing in common.
    let mut mixed = index.wrapping_add(seed.wrapping_mul(0x9E37_79B9_7F4A_7C15));
    mixed = (mixed ^ (mixed >> 30)).wrapping_mul(0xBF58_476D_1CE4_E5B9);
    mixed = (mixed ^ (mixed >> 27)).wrapping_mul(0x94D0_49BB_1331_11EB);
    kind.generate(&mut Rng::new(mixed ^ (mixed >> 31)))
}

/// A case at which a run ends.
struct Stop {
    index: u64,
    case: Case,
    why: Why,
}

enum Why {
    Unreadable(String),
    Different { library: String, reference: String },
}

/// Compares the cases of the indices, on every processor: how many are
/// accepted, or the first that differs.  Neither depends on how many processors
/// there are.
fn run_cases(kind: &dyn Kind, seed: u64, indices: Range<u64>) -> Result<u64, Stop> {
    let lanes = thread::available_parallelism().map_or(1, NonZeroUsize::get);
    let least = &AtomicU64::new(u64::MAX);
    let ended: Vec<Result<u64, Stop>> = thread::scope(|scope| {
        let start = |lane| {
            let own = indices.clone().skip(lane).step_by(lanes);
            scope.spawn(move || run_lane(kind, seed, own, least))
        };
        let started: Vec<_> = (0..lanes).map(start).collect();
        let ended = started.into_iter().map(|lane| lane.join());
        ended.map(|lane| lane.expect("no panic")).collect()
    });
    let mut accepted = 0;
    let mut stops = Vec::new();
    for lane in ended {
        match lane {
            Ok(count) => accepted += count,
            Err(stop) => stops.push(stop),
        }
    }
    let first = stops.into_iter().min_by_key(|stop| stop.index);
    first.map_or(Ok(accepted), Err)
}

/// Compares the cases of the indices, which ascend, up to the first that
/// differs, and none past `least`, the first that differs in any lane so far.
fn run_lane(
    kind: &dyn Kind,
    seed: u64,
    indices: impl Iterator<Item = u64>,
    least: &AtomicU64,
) -> Result<u64, Stop> {
    let mut accepted = 0;
    for index in indices {
        if least.load(Ordering::Relaxed) < index {
            break;
        }
        let is_accepted = run_one(kind, seed, index).inspect_err(|_| {
            least.fetch_min(index, Ordering::Relaxed);
        })?;
        accepted += u64::from(is_accepted);
    }
    Ok(accepted)
}

/// Compares one case; whether it is accepted.
fn run_one(kind: &dyn Kind, seed: u64, index: u64) -> Result<bool, Stop> {
    let case = case_of(kind, seed, index);
    let why = match parse(case.kind, &case.lent()).map(|call| kind.compare(&call)) {
        Ok(Compared::Same(accepted)) => return Ok(accepted),
        Ok(Compared::Different { library, reference }) => Why::Different { library, reference },
        Err(text) => Why::Unreadable(text),
    };
    Err(Stop { index, case, why })
}

/// Says where both differ, and stores the case.
fn tell(kind: &dyn Kind, seed: u64, stop: &Stop) -> Result<(), Failed> {
    let Stop { index, case, why } = stop;
    let (library, reference) = match why {
        Why::Unreadable(text) => return Err(Failed::new(text)),
        Why::Different { library, reference } => (library, reference),
    };
    println!(
        "difference: kind {}, seed {seed}, case {index}",
        kind.name()
    );
    println!("  container kind {}", case.kind);
    for (i, blob) in case.blobs.iter().enumerate() {
        println!("  blob {i}, {} bytes: {}", blob.len(), hex(blob));
    }
    println!("  library:   {library}");
    println!("  reference: {reference}");
    let path = format!("difference-{seed}-{index}.batch");
    fs::write(&path, encode_cases(std::slice::from_ref(case)))?;
    println!("written to {path}; to see both answers again:");
    println!("  compare batch {path} --full");
    println!("  reference batch {path} --full");
    let again = format!(
        "--kind {} --seed {seed} --from {index} --count 1",
        kind.name()
    );
    println!("or: compare run {again}");
    Err(Failed::told())
}

/// Slices at and over the limit, which are too large for a container.
fn run_limits(kind: &dyn Kind) -> Result<u64, Failed> {
    let limits = kind.limits();
    for limit in &limits {
        if limit.library != limit.reference {
            println!("difference: kind {}, {}", kind.name(), limit.what);
            println!("  library:   {}", limit.library);
            println!("  reference: {}", limit.reference);
            println!(
                "to see it again: compare run --kind {} --count 0",
                kind.name()
            );
            return Err(Failed::told());
        }
    }
    Ok(limits.len() as u64)
}

#[cfg(test)]
mod tests {
    use std::collections::BTreeSet;

    use reference::batch::{run_case, Call};

    use super::*;
    use crate::kinds::Limit;

    /// Differs at some of the cases, by their answers alone.
    struct Fickle;

    impl Kind for Fickle {
        fn name(&self) -> &'static str {
            "fickle"
        }

        fn count(&self) -> u64 {
            0
        }

        fn generate(&self, rng: &mut Rng) -> Case {
            kinds::all()[0].generate(rng)
        }

        fn library(&self, _: &Call, _: bool) -> Option<String> {
            None
        }

        fn compare(&self, call: &Call) -> Compared {
            let reference = self.reference(call, true);
            let library = String::new();
            if reference.bytes().map(u64::from).sum::<u64>() % 97 == 0 {
                return Compared::Different { library, reference };
            }
            Compared::Same(true)
        }

        fn limits(&self) -> Vec<Limit> {
            Vec::new()
        }
    }

    #[test]
    fn the_first_difference_is_told() {
        let first = |mut indices: Range<u64>| indices.find(|i| run_one(&Fickle, 1, *i).is_err());
        for from in (0..2_000).step_by(100) {
            let found = run_cases(&Fickle, 1, from..from + 3_000);
            let index = found.err().map(|stop| stop.index);
            assert!(index.is_some());
            assert_eq!(index, first(from..from + 3_000));
        }
    }

    /// Number and slice of each refusal, or the first words of what is taken,
    /// among the first cases.
    fn outcomes(name: &str) -> BTreeSet<String> {
        let all = kinds::all();
        let kind = all.iter().find(|kind| kind.name() == name).unwrap();
        let outcome = |index| {
            let case = case_of(kind.as_ref(), 1, index);
            let line = run_case(case.kind, &case.lent(), false);
            let words: Vec<&str> = line.split(' ').collect();
            match words[..] {
                ["refused", number, slice, _] => format!("{number} {slice}"),
                ["ok", "same", same] => format!("same {same}"),
                _ => words[..2].join(" "),
            }
        };
        (0..20_000).map(outcome).collect()
    }

    #[test]
    fn every_outcome_is_met() {
        let met = |name: &str, outcomes_wanted: &[&str]| {
            let found = outcomes(name);
            let wanted = outcomes_wanted.iter().map(|word| word.to_string());
            assert_eq!(found, wanted.collect(), "{name}");
        };
        met(
            "varint",
            &["ok varint", "ok length", "ok put", "2 data", "13 output"],
        );
        met(
            "statistics",
            &[
                "ok stats",
                "2 statistics",
                "3 statistics",
                "5 statistics",
                "7 statistics",
                "8 statistics",
                "9 statistics",
                "13 output",
            ],
        );
        let schemas = ["10 schema", "10 schemaA", "10 schemaB"];
        let taken = ["ok schema", "same 0", "same 1"];
        met("schema", &[schemas, taken].concat());
        let scylla = ["2 scylla", "3 scylla", "4 scylla", "7 scylla", "9 scylla"];
        met("scylla", &[&["ok scylla"][..], &scylla].concat());
    }

    #[test]
    fn every_outcome_of_data_is_met() {
        let data = ["2", "3", "4", "5", "6", "7"].map(|number| format!("{number} data"));
        let tables = ["5 bases", "10 schema"].map(String::from);
        let of = |words: &[&str]| -> BTreeSet<String> {
            let words = words.iter().map(|word| word.to_string());
            words.chain(data.clone()).chain(tables.clone()).collect()
        };
        assert_eq!(outcomes("list"), of(&["ok list", "13 output"]));
        assert_eq!(outcomes("step"), of(&["ok step", "10 state"]));
        assert_eq!(outcomes("walk"), ["ok walk".to_string()].into());
    }

    #[test]
    fn every_outcome_of_the_writer_is_met() {
        let outcomes = outcomes("write");
        let wanted = [
            "ok write",
            "5 bases",
            "5 records",
            "10 records",
            "10 schema",
            "13 output",
        ];
        assert_eq!(outcomes, wanted.map(String::from).into());
    }

    #[test]
    fn a_case_depends_on_seed_and_index_alone() {
        for kind in kinds::all() {
            let made: Vec<Case> = (0..50).map(|i| case_of(kind.as_ref(), 3, i)).collect();
            let again: Vec<Case> = (0..50).map(|i| case_of(kind.as_ref(), 3, i)).collect();
            assert_eq!(made, again);
            let other: Vec<Case> = (0..50).map(|i| case_of(kind.as_ref(), 4, i)).collect();
            assert_ne!(made, other);
            assert!(made
                .iter()
                .all(|case| parse(case.kind, &case.lent()).is_ok()));
        }
    }
}
