//! An independent reference reader of document 01 ("The build").
//!
//! Every public function returns either its answer or a [`Refusal`]: the
//! number of document 01's table "Numbers given back", the slice concerned
//! and the place in that slice.  Comments quote the phrase of document 01
//! that the code below them implements; `DECISIONS E8` is entry E8 of
//! `docs/DECISIONS.md`.

pub mod batch;
pub mod data;
pub mod encode;
pub mod gen;
pub mod merge;
pub mod reader;
pub mod record;
pub mod refusal;
pub mod rng;
pub mod schema;
pub mod scylla;
pub mod statistics;
pub mod types;
pub mod varint;
pub mod walk;
pub mod writer;

pub use data::{Bases, Cell, Content, Deletion, Expiry, Liveness};
pub use merge::{merge, reconcile_cells, reconcile_items, Table};
pub use record::Record;
pub use refusal::{Part, Refusal, Side, Slice, LIMIT};
pub use schema::Schema;
pub use scylla::{read_scylla, ScyllaInfo};
pub use statistics::{read_statistics, Stats};
pub use walk::{list_data, Item, Phase, State, Step};
pub use writer::write_data;
