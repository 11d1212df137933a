//! The calls of the library, a file for each kind.
//!
//! A case is one of the batch container's (`README.md` of the reference), an
//! answer its line there.  So whatever is compared can be stored and replayed.

use reference::batch::answer::answer;
use reference::batch::{Call, Case};
use reference::rng::Rng;

use crate::library::Answer;

mod damage;
mod list;
mod schema;
mod scylla;
mod states;
mod statistics;
mod step;
mod tables;
mod type_strings;
mod varint;
mod walk;
mod write;

/// One kind of calls, which a run makes on every processor at once.
pub trait Kind: Sync {
    fn name(&self) -> &'static str;

    /// How many cases a run makes if it is not told.
    fn count(&self) -> u64;

    /// A case, sound or damaged.
    fn generate(&self, rng: &mut Rng) -> Case;

    /// The library's answer line, or nothing for a call of another kind.
    fn library(&self, call: &Call, full: bool) -> Option<String>;

    /// The reference's answer line.
    fn reference(&self, call: &Call, full: bool) -> String {
        answer(call, full)
    }

    /// Whether both answer the same, and if so whether the call is accepted.
    fn compare(&self, call: &Call) -> Compared {
        let library = self.library(call, true).expect("a call of its own kind");
        let reference = self.reference(call, true);
        if library == reference {
            return Compared::Same(reference.starts_with("ok "));
        }
        Compared::Different { library, reference }
    }

    /// Calls with slices at and over the limit, which no container holds.
    fn limits(&self) -> Vec<Limit>;
}

/// What comparing one call shows.
pub enum Compared {
    /// The same answers, of a call that is accepted or not.
    Same(bool),
    Different {
        library: String,
        reference: String,
    },
}

/// A call at the limit: what it is, and both answers.
pub struct Limit {
    pub what: &'static str,
    pub library: String,
    pub reference: String,
}

/// The kinds that the library has so far.
pub fn all() -> Vec<Box<dyn Kind>> {
    vec![
        Box::new(varint::Varint),
        Box::new(statistics::Statistics),
        Box::new(schema::Schema),
        Box::new(scylla::Scylla),
        Box::new(list::List),
        Box::new(walk::Walk),
        Box::new(step::Step),
        Box::new(write::Write),
    ]
}

/// An answer's line, or its fault's.
fn line(answer: Answer<String>) -> String {
    answer.unwrap_or_else(|fault| fault.to_string())
}

/// The library's answer line to any call, or nothing if it has none such yet.
pub fn library(call: &Call, full: bool) -> Option<String> {
    all().iter().find_map(|kind| kind.library(call, full))
}
