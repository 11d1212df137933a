//! Randomised properties of reader, walk and writer.

mod common;

use common::placeless;
use reference::data::Source;
use reference::gen::{self, damage};
use reference::rng::Rng;
use reference::walk::Hand;
use reference::*;

/// What any accepted Data lists as is taken by the writer, and lists alike.
fn writes_back(schema: &[u8], bases: Bases, data: &[u8], records: &[[u8; 64]]) -> Vec<u8> {
    let out = write_data(schema, bases, &records.concat(), data, LIMIT).unwrap();
    let again = list_data(schema, bases, &out).unwrap();
    assert_eq!(placeless(&again, &out), placeless(records, data));
    // The writer's form is fixed: writing the new listing changes nothing.
    assert_eq!(
        write_data(schema, bases, &again.concat(), &out, LIMIT).unwrap(),
        out
    );
    out
}

#[test]
fn listing_and_writing_round_trip() {
    let mut rng = Rng::new(21);
    let mut items = 0;
    for _ in 0..8000 {
        let made = gen::random_table(&mut rng);
        let (schema, bases) = (&made.stats.schema, made.stats.bases);
        let records = list_data(schema, bases, &made.data).unwrap();
        items += records.len();
        writes_back(schema, bases, &made.data, &records);
    }
    assert!(items > 50_000, "{items}");
}

#[test]
fn damaged_data_is_refused_or_still_writes_back() {
    let mut rng = Rng::new(22);
    let mut accepted = 0;
    let mut numbers = [0u32; 14];
    for _ in 0..60_000 {
        let made = gen::random_table(&mut rng);
        let mut data = made.data.clone();
        damage(&mut rng, &mut data);
        let (schema, bases) = (&made.stats.schema, made.stats.bases);
        match list_data(schema, bases, &data) {
            Ok(records) => {
                accepted += 1;
                writes_back(schema, bases, &data, &records);
            }
            Err(refusal) => {
                numbers[usize::from(refusal.number)] += 1;
                assert!(refusal.place as usize <= data.len());
            }
        }
    }
    assert!(accepted > 1000, "{accepted}");
    for number in [2, 3, 4, 5, 6, 7] {
        assert!(numbers[number] > 20, "{number}: {numbers:?}");
    }
    assert_eq!(numbers[1] + numbers[8..].iter().sum::<u32>(), 0);
}

/// Bytes right of a refusal's field don't change it: reading goes left to
/// right.  (Bytes are changed, not added or taken.)
#[test]
fn a_refusal_does_not_depend_on_what_follows() {
    let mut rng = Rng::new(23);
    for _ in 0..20_000 {
        let made = gen::random_table(&mut rng);
        let mut data = made.data.clone();
        damage(&mut rng, &mut data);
        let (schema, bases) = (&made.stats.schema, made.stats.bases);
        let Err(refusal) = list_data(schema, bases, &data) else {
            continue;
        };
        // A field is at most nine bytes; what a length announces is not read
        // when refused; a marker's deletion is two fields.
        let behind = refusal.place as usize + 18;
        if behind < data.len() {
            let at = behind + rng.index(data.len() - behind);
            data[at] ^= 1 << rng.below(8);
            assert_eq!(list_data(schema, bases, &data), Err(refusal));
        }
    }
}

#[test]
fn the_writer_takes_exactly_what_lists() {
    let (mut taken, mut refused) = (0, 0);
    for case in gen::random_cases(60_000, 99) {
        if case.kind != batch::kind::WRITE_RAW {
            continue;
        }
        let [schema, bases, records, lent, _]: [Vec<u8>; 5] = case.blobs.try_into().unwrap();
        let bases = batch::bases_of(&bases).unwrap();
        match write_data(&schema, bases, &records, &lent, LIMIT) {
            Ok(out) => {
                taken += 1;
                let given: Vec<[u8; 64]> =
                    records.chunks(64).map(|c| c.try_into().unwrap()).collect();
                let listed = list_data(&schema, bases, &out).unwrap();
                assert_eq!(placeless(&listed, &out), placeless(&given, &lent));
            }
            Err(refusal) => {
                refused += 1;
                assert!(refusal.number == 10 || refusal.number == 5);
                assert_eq!(refusal.slice.part, Part::Records);
            }
        }
    }
    assert!(taken > 2000 && refused > 2000, "{taken} {refused}");
}

/// The plain loops and the single steps give the same items and refusals.
#[test]
fn steps_and_loops_agree() {
    let mut rng = Rng::new(26);
    for round in 0..30_000 {
        let made = gen::random_table(&mut rng);
        let mut data = made.data.clone();
        if round % 3 != 0 {
            damage(&mut rng, &mut data);
        }
        let schema = Schema::check(&made.stats.schema).unwrap();
        let source = Source {
            schema: &schema,
            bases: made.stats.bases,
            data: &data,
        };
        let (mut looped, mut stepped) = (Vec::new(), Vec::new());
        let a = walk::walk(&source, |item| looped.push((item.record, item.value)));
        let b = walk::walk_by_steps(&source, |item| stepped.push((item.record, item.value)));
        assert_eq!(a, b);
        assert_eq!(looped, stepped);
    }
}

/// Any state over Data of `len` bytes, sound or not.
fn random_state(rng: &mut Rng, len: usize) -> State {
    let phases = [
        Phase::Partition,
        Phase::First,
        Phase::Items,
        Phase::Clustering,
        Phase::Cells,
    ];
    let live = Liveness {
        timestamp: 5,
        expiry: None,
    };
    let hand = Hand {
        is_static: rng.one_in(4),
        is_marker: rng.one_in(4),
        column: rng.below(5) as u8,
        count: rng.below(5) as u8,
        clustering_header: rng.below(20),
        resume: rng.index(len + 2),
        body_end: rng.index(len + 2),
        liveness: rng.one_in(2).then_some(live),
        present: rng.below(20),
    };
    let open = rng.one_in(3).then_some(Deletion { mark: 1, local: 1 });
    State {
        position: rng.index(len + 2),
        phase: *rng.pick(&phases),
        open,
        hand,
    }
}

#[test]
fn steps_never_trap() {
    let mut rng = Rng::new(25);
    let mut found = [0u32; 3];
    for _ in 0..40_000 {
        let made = gen::random_table(&mut rng);
        let schema = Schema::check(&made.stats.schema).unwrap();
        let source = Source {
            schema: &schema,
            bases: made.stats.bases,
            data: &made.data,
        };
        match random_state(&mut rng, made.data.len()).step(&source) {
            Ok(Step::Done) => found[0] += 1,
            Ok(Step::Next(item, next)) => {
                found[1] += 1;
                assert!(next.position <= made.data.len());
                if item.record.shows_value() {
                    assert_eq!(item.record.part_of(&made.data), Some(item.value));
                }
            }
            Err(_) => found[2] += 1,
        }
    }
    assert!(found.iter().all(|&n| n > 100), "{found:?}");
}

#[test]
fn damaged_statistics_scylla_and_merges_never_trap() {
    let cases = gen::random_cases(60_000, 7);
    let mut ok = 0;
    for case in &cases {
        let line = batch::run_case(case.kind, &case.lent(), false);
        ok += usize::from(line.starts_with("ok"));
        assert!(
            line.starts_with("ok") || line.starts_with("refused"),
            "{line}"
        );
    }
    assert!(ok > 10_000, "{ok}");
    let bytes = batch::encode_cases(&cases);
    assert_eq!(batch::decode_cases(&bytes).unwrap().len(), cases.len());
}
