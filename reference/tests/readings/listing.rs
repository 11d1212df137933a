//! L: listing and walk.

use super::*;
use reference::data::Source;
use reference::gen::{one_file_statistics, ONE_FILE_DATA};
use reference::walk::walk_by_steps;

/// What single steps over `data` hand out, and how they end.
fn steps(schema: &Schema, bases: Bases, data: &[u8]) -> (Vec<u8>, String) {
    let source = Source {
        schema,
        bases,
        data,
    };
    let mut kinds = Vec::new();
    let end = walk_by_steps(&source, |item| kinds.push(item.record.kind));
    (kinds, end.map_or_else(|r| r.to_string(), |()| "end".into()))
}

/// What one step from `state` over `data` gives: a record and the next state,
/// or nothing.
fn step(known: &Known, data: &[u8], state: State) -> Result<Option<(Record, State)>, Refusal> {
    let schema = known.schema();
    let source = Source {
        schema: &schema,
        bases: known.stats.bases,
        data,
    };
    Ok(match state.step(&source)? {
        Step::Next(item, next) => Some((item.record, next)),
        Step::Done => None,
    })
}

fn at(position: usize, phase: Phase) -> State {
    State {
        position,
        phase,
        ..State::start()
    }
}

const STATE: &str = "10 state 0";

#[test]
fn l01_columns_count_within_their_role() {
    let two = ["Int32Type", "Int32Type"];
    let known = Known::zero(&two, &two, &["BytesType"; 3]);
    // Static column 1; clustering values 0 and 1; regular column 2.
    let items = "80 01 04 00 01 04 01 00 05 04 00 03 04 01 01";
    let columns: Vec<String> = listed(&known, items)
        .iter()
        .map(|line| line.split(' ').take(3).collect::<Vec<_>>().join(" "))
        .collect();
    let wanted = [
        "1 0 0", "2 0 0", "6 9 1", "3 0 0", "5 8 0", "5 8 1", "6 9 2", "7 0 0",
    ];
    assert_eq!(columns, wanted);
}

#[test]
fn l02_live_and_deleted_partitions() {
    assert_eq!(listed(&n(), "01")[0], "1 0 0 0 0 0 0 0 0 0 2 1");
    let deleted = hex("0000 00000007 FFFFFFFFFFFFFFFB 01");
    let shown = common::printed(&n().list(&deleted).unwrap());
    assert_eq!(shown[0], "1 12 0 0 0 -5 7 0 0 0 0 0");
}

#[test]
fn l03_tombstone_cells() {
    let blob = Known::zero(&[], &[], &["BytesType"]);
    let shown = listed(&blob, "20 04 00 05 01 02 01");
    assert_eq!(shown[2], "6 5 0 0 1 0 2 0 0 0 0 0");
}

#[test]
fn l04_boundaries() {
    let items = "02 01 0000 03 00 05 06 02 02 0000 05 00 05 06 07 08 02 00 0000 03 00 07 08 01";
    let shown = listed(&n(), items);
    assert_eq!(shown[1], "4 4 1 0 0 5 6 0 0 0 15 8");
    assert_eq!(shown[2], "4 4 2 0 0 5 6 0 7 8 23 10");
    assert_eq!(shown[3], "4 4 0 0 0 7 8 0 0 0 33 8");
}

#[test]
fn l05_whole_items() {
    let start = "02 01 0001 00 00000007 03 00 05 06";
    let end = "02 06 0000 03 00 05 06";
    let row = "20 00 00000009 01 00";
    let one = Known::zero(&["Int32Type"], &["Int32Type"], &[]);
    let items = format!("80 01 02 00 01 {start} {row} {end} 01");
    let shown = listed(&one, &items);
    let wanted = [
        "2 0 0 0 0 0 0 0 0 0 15 5",
        "4 4 1 0 0 5 6 0 0 0 20 13",
        "5 0 0 0 0 0 0 0 0 0 25 4",
        "3 0 0 0 0 0 0 0 0 0 33 8",
        "5 0 0 0 0 0 0 0 0 0 35 4",
        "4 4 6 0 0 5 6 0 0 0 41 8",
        "7 0 0 0 0 0 0 0 0 0 49 1",
    ];
    assert_eq!(shown[1..], wanted);
}

#[test]
fn l06_signed_and_unsigned_fields() {
    let record = Record {
        timestamp: -5,
        mark: -6,
        second_mark: -7,
        ttl: u32::MAX,
        offset: u64::MAX,
        ..Record::default()
    };
    let wanted = "0 0 0 4294967295 -5 -6 0 0 -7 0 18446744073709551615 0";
    assert_eq!(record.print(), wanted);
    let refusal = Refusal::new(2, Part::Data, 29);
    assert_eq!(refusal.to_string(), "refused 2 data 29");
}

#[test]
fn l08_one_step_hands_out_one_record() {
    // A row's step reads its mask and not its first cell.
    let blob = Known::zero(&["Int32Type"], &[], &["BytesType"; 2]);
    let schema = blob.schema();
    let walked = |items: &str| steps(&schema, blob.stats.bases, &h(items));
    let bad_mask = "00 00 00000001 02 00 04 01";
    assert_eq!(walked(bad_mask), (vec![1], "refused 4 data 23".into()));
    let bad_cell = "00 00 00000001 03 00 02 FF 01";
    assert_eq!(
        walked(bad_cell),
        (vec![1, 3, 5], "refused 4 data 24".into())
    );
    // A marker's reads it whole, before its clustering values are handed out.
    let bad_marker = "02 01 0001 00 00000001 02 00 05 01";
    assert_eq!(walked(bad_marker), (vec![1], "refused 2 data 27".into()));
}

#[test]
fn l09_bytes_left_over_are_told_by_the_next_step() {
    let stats = read_statistics(&one_file_statistics()).unwrap();
    let schema = Schema::check(&stats.schema).unwrap();
    let mut data = ONE_FILE_DATA;
    data[21] = 8;
    let told = (vec![1, 3, 5, 6], "refused 3 data 29".to_string());
    assert_eq!(steps(&schema, stats.bases, &data), told);
    // Behind the clustering values where there is no cell.
    let known = Known::zero(&["Int32Type"], &[], &[]);
    let items = h("20 00 00000001 02 00 EE 01");
    let told = (vec![1, 3, 5], "refused 3 data 23".to_string());
    assert_eq!(steps(&known.schema(), known.stats.bases, &items), told);
}

#[test]
fn l10_a_value_is_a_part_of_data() {
    let blob = Known::zero(&[], &[], &["BytesType"; 3]);
    let (schema, data) = (blob.schema(), h("20 0A 00 00 01 01 AA 04 01 05 01 01 01"));
    let source = Source {
        schema: &schema,
        bases: blob.stats.bases,
        data: &data,
    };
    let mut values = Vec::new();
    walk_by_steps(&source, |item| values.push((item.record.kind, item.value))).unwrap();
    let wanted: [(u8, &[u8]); 6] = [
        (1, b"k"),
        (3, b""),
        (6, &[0xAA]),
        (6, b""),
        (6, b""),
        (7, b""),
    ];
    assert_eq!(values, wanted);
    assert_eq!(values[0].1.as_ptr(), data[2..].as_ptr());
    assert_eq!(values[2].1.as_ptr(), data[21..].as_ptr());
}

#[test]
fn l11_position_at_the_end_of_data() {
    let data = h("01");
    let end = step(&n(), &data, at(16, Phase::Partition));
    assert_eq!(end, Ok(None));
    for phase in [Phase::First, Phase::Items] {
        assert_eq!(no(step(&n(), &data, at(16, phase))), "2 data 16");
    }
}

#[test]
fn l12_states_past_the_end_or_with_what_the_schema_lacks() {
    let data = h("01");
    for phase in [Phase::Partition, Phase::First, Phase::Items] {
        assert_eq!(no(step(&c(), &data, at(17, phase))), STATE);
    }
    let mut cells = at(15, Phase::Cells);
    cells.hand.body_end = 15;
    // No cell left: the end byte is read.
    for column in [0, 1] {
        cells.hand.column = column;
        assert!(step(&c(), &data, cells).is_ok());
    }
    cells.hand.column = 2;
    assert_eq!(no(step(&c(), &data, cells)), STATE);
    cells.hand.column = 0;
    cells.hand.is_static = true;
    assert!(step(&c(), &data, cells).is_ok());
    assert_eq!(no(step(&n(), &data, cells)), STATE);
    let mut values = at(15, Phase::Clustering);
    values.hand.body_end = 16;
    values.hand.clustering_header = 1;
    assert_eq!(no(step(&n(), &data, values)), STATE);
    values.hand.count = 1;
    assert!(step(&c(), &data, values).is_ok());
    values.hand.column = 1;
    assert_eq!(no(step(&c(), &data, values)), STATE);
}

#[test]
fn l13_what_a_phase_holds_is_tested() {
    let data = h("01");
    let told = |change: &dyn Fn(&mut State), phase: Phase| {
        let mut state = at(15, phase);
        state.hand.body_end = 15;
        state.hand.clustering_header = 1;
        state.hand.count = 1;
        change(&mut state);
        step(&c(), &data, state).map(|_| ())
    };
    let held: [&dyn Fn(&mut State); 3] =
        [&|s| s.hand.body_end = 17, &|s| s.hand.body_end = 14, &|s| {
            s.hand.present = 2
        }];
    for phase in [Phase::Clustering, Phase::Cells] {
        assert!(told(&|_| {}, phase).is_ok());
        for change in held {
            assert_eq!(no(told(change, phase)), STATE);
        }
    }
    let values: [&dyn Fn(&mut State); 5] = [
        &|s| s.hand.resume = 17,
        &|s| s.hand.count = 2,
        &|s| (s.hand.is_marker, s.hand.count) = (true, 2),
        &|s| s.hand.clustering_header = 2,
        &|s| s.hand.clustering_header = 4,
    ];
    for change in values {
        assert_eq!(no(told(change, Phase::Clustering)), STATE);
    }
    // A phase that holds none of these does not look at them.
    let odd = |s: &mut State| (s.hand.body_end, s.hand.count) = (99, 99);
    assert!(told(&odd, Phase::Items).is_ok());
}

#[test]
fn l14_times_in_a_state_are_taken_as_they_are() {
    let blob = Known::zero(&[], &[], &["BytesType"]);
    let data = h("1E 01");
    let mut cells = at(15, Phase::Cells);
    cells.hand.body_end = 16;
    cells.hand.present = 1;
    cells.open = Some(Deletion {
        mark: i64::MIN,
        local: u32::MAX,
    });
    let expiry = Some(Expiry {
        local: u32::MAX,
        ttl: 0,
    });
    cells.hand.liveness = Some(Liveness {
        timestamp: i64::MIN,
        expiry,
    });
    let (record, next) = step(&blob, &data, cells).unwrap().unwrap();
    let shown = "6 11 0 0 -9223372036854775808 0 0 4294967295 0 0 0 0";
    assert_eq!(record.print(), shown);
    // The open range is still open at the end byte.
    assert_eq!(next.open, cells.open);
    assert_eq!(no(step(&blob, &data, next)), "6 data 16");
}
