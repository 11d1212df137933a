//! E: every call.  N: numbers and times.

use super::*;
use reference::gen::{one_file_statistics, ONE_FILE_DATA};
use reference::statistics::read_statistics_within;
use reference::walk::list_within;

const GOOD: Bases = Bases {
    timestamp: 0,
    local: 0,
    ttl: 0,
};
const BAD: Bases = Bases {
    timestamp: 0,
    local: -1,
    ttl: 0,
};

/// Zeros: the first byte over the limit is the last.
fn over() -> Vec<u8> {
    vec![0; LIMIT + 1]
}

#[test]
fn e01_names_of_slices() {
    let parts = [
        (Part::Statistics, "statistics"),
        (Part::Scylla, "scylla"),
        (Part::Data, "data"),
        (Part::Schema, "schema"),
        (Part::Records, "records"),
        (Part::Bytes, "bytes"),
        (Part::Output, "output"),
        (Part::Bases, "bases"),
        (Part::State, "state"),
    ];
    for (part, name) in parts {
        let refusal = Refusal::new(1, part, 7);
        assert_eq!(refusal.to_string(), format!("refused 1 {name} 7"));
        let on_a = refusal.on(Side::A).to_string();
        assert_eq!(on_a, format!("refused 1 {name}A 7"));
        let on_b = refusal.on(Side::B).to_string();
        assert_eq!(on_b, format!("refused 1 {name}B 7"));
    }
}

#[test]
fn e02_the_limit_and_the_order_of_slices() {
    let over = over();
    let full = &over[..LIMIT];
    assert_eq!(no(read_statistics(full)), "7 statistics 0");
    assert_eq!(no(read_statistics(&over)), "1 statistics 0");
    assert_eq!(no(read_scylla(full)), "3 scylla 4");
    assert_eq!(no(read_scylla(&over)), "1 scylla 0");
    assert_eq!(no(list_data(&over, BAD, &over)), "1 schema 0");
    assert_eq!(no(list_data(full, BAD, &over)), "1 data 0");
    let list = list_within(full, BAD, full, LIMIT + 1);
    assert_eq!(no(list), "1 output 0");
    let write =
        |records: &[u8], bytes: &[u8], output| no(write_data(full, BAD, records, bytes, output));
    assert_eq!(write(&over, &over, LIMIT + 1), "1 records 0");
    assert_eq!(write(full, &over, LIMIT + 1), "1 bytes 0");
    assert_eq!(write(full, full, LIMIT + 1), "1 output 0");
    assert_eq!(write(full, full, LIMIT), "5 bases 0");
    let stats = read_statistics_within(full, LIMIT + 1);
    assert_eq!(no(stats), "1 output 0");
}

#[test]
fn e02_the_order_of_slices_in_a_merge() {
    let over = over();
    let full = &over[..LIMIT];
    let table = |statistics, schema, data| Table {
        statistics,
        schema,
        bases: BAD,
        data,
    };
    let (long, fine) = (table(&over, &over, &over), table(full, full, full));
    let told = |a, b| no(reference::merge(a, b, LIMIT + 1));
    assert_eq!(told(long, long), "1 statisticsA 0");
    assert_eq!(told(table(full, &over, &over), long), "1 schemaA 0");
    assert_eq!(told(table(full, full, &over), long), "1 dataA 0");
    assert_eq!(told(fine, long), "1 statisticsB 0");
    assert_eq!(told(fine, table(full, &over, &over)), "1 schemaB 0");
    assert_eq!(told(fine, table(full, full, &over)), "1 dataB 0");
    assert_eq!(told(fine, fine), "1 output 0");
    assert_eq!(no(reference::merge(fine, fine, LIMIT)), "5 basesA 0");
}

#[test]
fn e03_bases_handed_over() {
    let known = n();
    let list = |timestamp, local, ttl| {
        let bases = Bases {
            timestamp,
            local,
            ttl,
        };
        list_data(&known.stats.schema, bases, &[])
    };
    assert!(list(i64::MIN, 0, 0).is_ok());
    assert!(list(i64::MAX, i32::MAX, i32::MAX).is_ok());
    assert_eq!(no(list(0, -1, 0)), "5 bases 0");
    assert_eq!(no(list(0, 0, -1)), "5 bases 0");
    let good = known.table(&[]);
    let bad = Table { bases: BAD, ..good };
    assert_eq!(no(reference::merge(bad, bad, 0)), "5 basesA 0");
    assert_eq!(no(reference::merge(good, bad, 0)), "5 basesB 0");
}

#[test]
fn e04_the_order_of_checks() {
    assert_eq!(no(list_data(&[], GOOD, &[])), "10 schema 0");
    assert_eq!(no(list_data(&[], BAD, &[])), "5 bases 0");
    assert_eq!(no(list_data(&[], GOOD, &[9])), "10 schema 0");
    assert_eq!(no(write_data(&[], GOOD, &[], &[], 0)), "10 schema 0");
    assert_eq!(no(write_data(&[], BAD, &[9], &[], 0)), "5 bases 0");
    assert_eq!(no(write_data(&[], GOOD, &[9], &[], 0)), "10 schema 0");
    // A step: the schema before the state, the state before Data.
    let step = |schema: &[u8], position: u8| {
        let mut state = [0; 73];
        state[8] = position;
        let blobs: [&[u8]; 4] = [schema, &[0; 16], &[9], &state];
        batch::run_case(batch::kind::STEP_RAW, &blobs, true)
    };
    let schema = n().stats.schema;
    assert_eq!(step(&[], 2), "refused 10 schema 0");
    assert_eq!(step(&schema, 2), "refused 10 state 0");
    assert_eq!(step(&schema, 0), "refused 2 data 0");
}

#[test]
fn e05_where_2_stands() {
    // A count is no length: the type of the first pair is cut.
    assert_eq!(no(read_statistics(&hex("00000001"))), "2 statistics 4");
    assert_eq!(no(read_statistics(&hex("000000"))), "2 statistics 0");
    // None of a field is left: the region's end.
    assert_eq!(refused(&n(), ""), "2 data 15");
    // What a length announces: at the length.
    assert_eq!(no(n().list(&hex("0002 6B"))), "2 data 0");
    assert_eq!(stats("000000 05 41"), "2 statistics 33");
    assert_eq!(stats("000000 00 00 00 01 05 41"), "2 statistics 37");
    assert_eq!(refused(&n(), "20 09 00"), "2 data 16");
    let blob = Known::zero(&[], &[], &["BytesType"]);
    assert_eq!(refused(&blob, "20 05 00 00 09 02 07 01"), "2 data 20");
}

#[test]
fn e06_a_check_is_made_once_its_bytes_are_read() {
    // Half of live: the mark is cut, and then read.
    assert_eq!(no(n().list(&hex("00016B 7FFFFFFF 80"))), "2 data 7");
    let half = hex("00016B 7FFFFFFF 0000000000000000");
    assert_eq!(no(n().list(&half)), "5 data 3");
    // An unlike deletion whose local time is cut, and then read.
    let start = "02 01 0000 03 00 05 06";
    let cut = format!("{start} 02 06 0000 02 00 07");
    assert_eq!(refused(&n(), &cut), "2 data 30");
    let unlike = format!("{start} 02 06 0000 03 00 07 06");
    assert_eq!(refused(&n(), &unlike), "6 data 29");
    // A token bound below the one before, with a bad token length.
    let bound = "0008 0000000000000001";
    let bad = format!("00000001 00000001 00000019 00000001 00 {bound} 00 0007 00000000000000");
    assert_eq!(no(read_scylla(&hex(&bad))), "7 scylla 28");
}

#[test]
fn e07_unlike_schemas_and_keys() {
    let (known, other) = (n(), c());
    let one = h("01");
    let told = reference::merge(known.table(&one), other.table(&one), LIMIT);
    assert_eq!(no(told), "11 schemaA 0");
    let mut key = one.clone();
    key[2] = b'x';
    let told = reference::merge(known.table(&one), known.table(&key), LIMIT);
    assert_eq!(no(told), "11 dataA 0");
}

#[test]
fn e08_output_too_short() {
    let statistics = one_file_statistics();
    let stats = read_statistics(&statistics).unwrap();
    let list = |data: &[u8], output| list_within(&stats.schema, stats.bases, data, output);
    assert_eq!(no(list(&ONE_FILE_DATA, 319)), "13 output 320");
    assert!(list(&ONE_FILE_DATA, 320).is_ok());
    assert_eq!(no(list(&ONE_FILE_DATA[..29], 0)), "2 data 29");
    let short = read_statistics_within(&statistics, 47);
    assert_eq!(no(short), "13 output 48");
    assert!(read_statistics_within(&statistics, 48).is_ok());
    let records = list(&ONE_FILE_DATA, 320).unwrap().concat();
    let write = write_data(&stats.schema, stats.bases, &records, &ONE_FILE_DATA, 29);
    assert_eq!(no(write), "13 output 30");
    let table = Table {
        statistics: &statistics,
        schema: &stats.schema,
        bases: stats.bases,
        data: &ONE_FILE_DATA,
    };
    let merge = reference::merge(table, table, 29);
    assert_eq!(no(merge), "13 output 30");
}

#[test]
fn n01_records_are_big_endian() {
    let stats = read_statistics(&one_file_statistics()).unwrap();
    let records = list_data(&stats.schema, stats.bases, &ONE_FILE_DATA).unwrap();
    assert_eq!(records[1][8..16], hex("0005204AADDA8005"));
    assert_eq!(stats.schema[40..44], hex("00000001"));
}

#[test]
fn n02_a_number_is_cut_by_its_own_region() {
    assert_eq!(refused(&n(), "00 02 00 80 80"), "2 data 18");
    // The entry, with another behind it; the component, likewise.
    let entry = "00000003 00000000 0000001C 00000003 00000026 00000001 00000027 \
                 0000 0000000000000000 80 80";
    assert_eq!(no(read_statistics(&hex(entry))), "2 statistics 38");
    let component = "00000002 00000001 00000002 0000 00000009 00000000";
    assert_eq!(no(read_scylla(&hex(component))), "2 scylla 12");
}

#[test]
fn n03_the_bases_of_the_header() {
    let bases = |x: &str| {
        read_statistics(&t(&format!("{x} 00 00 00 00")))
            .unwrap()
            .bases
    };
    let least = bases("FF 7FFADFB552257FFF 00 00");
    assert_eq!(least.timestamp, i64::MAX);
    let wrapped = bases("FF 7FFADFB552258000 00 00");
    assert_eq!(wrapped.timestamp, i64::MIN);
    assert_eq!(bases("00 F1 00000000 00").local, 1_442_880_000);
    assert_eq!(stats("00 F0 29FF6600 00"), "5 statistics 31");
    assert_eq!(stats("00 00 F1 00000000"), "5 statistics 32");
    assert_eq!(bases("00 00 F0 7FFFFFFF").ttl, i32::MAX);
    assert_eq!(stats("00 00 F0 80000000"), "5 statistics 32");
}

#[test]
fn n04_lengths_and_counts_are_64_bit_numbers() {
    assert_eq!(stats("000000 F1 00000000"), "2 statistics 33");
    assert_eq!(stats("000000 00 F1 00000000"), "8 statistics 34");
    assert_eq!(stats("000000 00 21"), "8 statistics 34");
    assert_eq!(stats("000000 00 00 40"), "8 statistics 35");
    assert_eq!(stats("000000 00 00 00 40"), "8 statistics 36");
}

#[test]
fn n05_sums_are_exact() {
    // 2^63 over base 0; TTL 0 and -1; the greatest local time.
    let most = "24 0A 00 FF 8000000000000000";
    assert_eq!(refused(&n(), most), "5 data 18");
    assert_eq!(refused(&n(), "2C 04 00 01 00 01"), "5 data 19");
    assert_eq!(refused(&n(), "2C 08 00 01 F0 FFFFFFFF 00"), "5 data 19");
    let nearly = "2C 08 00 01 01 F0 7FFFFFFF";
    assert_eq!(refused(&n(), nearly), "5 data 20");
    // No local time is left above a base of 2147483647.
    let high = [0, 2_147_483_647 - 1_442_880_000, 0];
    let known = Known::with_bases(high, &[], &[], &[]);
    assert_eq!(refused(&known, "2C 04 00 01 01 00"), "5 data 20");
    assert_eq!(refused(&known, "30 03 00 01 00"), "5 data 19");
}

#[test]
fn n06_the_varint_calls() {
    let bytes = hex("AA 80 80 FF");
    assert_eq!(varint::read_at(&bytes, 1, 3), Ok((128, 3)));
    assert_eq!(varint::read_at(&bytes, 1, 4), Ok((128, 3)));
    assert_eq!(no(varint::read_at(&bytes, 1, 2)), "2 data 1");
    assert_eq!(no(varint::read_at(&bytes, 3, 4)), "2 data 3");
    assert_eq!(no(varint::read_at(&bytes, 1, 5)), "2 data 1");
    assert_eq!(no(varint::read_at(&bytes, 2, 2)), "2 data 2");
    assert_eq!(no(varint::read_at(&bytes, 3, 1)), "2 data 3");
    assert_eq!(no(varint::read_at(&bytes, 9, 9)), "2 data 9");
    assert_eq!(no(varint::read_at(&over(), 9, 9)), "1 data 0");
    assert_eq!(varint::put(2, 128), Ok(hex("80 80")));
    assert_eq!(no(varint::put(1, 128)), "13 output 2");
    assert_eq!(no(varint::put(LIMIT + 1, 128)), "1 output 0");
}
