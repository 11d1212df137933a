//! Made-up files for tests, comparisons and the bench.

mod bench;
mod cases;
mod data;
mod text;

pub use bench::{bench_data, bench_text};
pub use cases::{damage, damage_records, random_cases, random_partition, random_table, Made};
pub use data::{naive_compare, DataMaker, Spelling};
pub use text::{
    entry0, entry3, one_file_statistics, random_bases, random_text, statistics, Text, Width,
    MURMUR3, ONE_FILE_DATA,
};
