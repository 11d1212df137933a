//! Walks of whole Data, step by step.

use reference::batch::answer::walk_line;
use reference::batch::{kind, Call, Case, Raw};
use reference::data::Source;
use reference::rng::Rng;
use reference::walk::{check_call, State, Step};
use reference::{Record, Refusal};

use super::states::{self, held, state_of, Lent};
use super::{tables, Compared, Kind, Limit};
use crate::library::Fault;

pub struct Walk;

impl Kind for Walk {
    fn name(&self) -> &'static str {
        "walk"
    }

    fn count(&self) -> u64 {
        700_000
    }

    fn generate(&self, rng: &mut Rng) -> Case {
        Case {
            kind: kind::WALK_RAW,
            blobs: tables::any(rng).blobs(),
        }
    }

    fn library(&self, call: &Call, full: bool) -> Option<String> {
        match *call {
            Call::WalkRaw { source } => Some(line_of(source, full)),
            _ => None,
        }
    }

    /// Step beside step: items, values, states and the end.
    fn compare(&self, call: &Call) -> Compared {
        let &Call::WalkRaw { source } = call else {
            unreachable!("a call of its own kind");
        };
        match beside(source) {
            Ok(accepted) => Compared::Same(accepted),
            Err(what) => Compared::Different {
                library: format!("{}; {what}", line_of(source, true)),
                reference: self.reference(call, true),
            },
        }
    }

    fn limits(&self) -> Vec<Limit> {
        Vec::new()
    }
}

/// No walk of Data has as many steps: each item but clustering values and cells
/// takes a byte, and has at most 95 of those.
fn most_steps(data: &[u8]) -> usize {
    96 * (data.len() + 1)
}

fn line_of(raw: Raw, full: bool) -> String {
    let lent = Lent::new(raw);
    let mut state = [0; 16];
    let mut items: Vec<(Record, Vec<u8>)> = Vec::new();
    for _ in 0..most_steps(raw.data) {
        match states::step(lent.table(), &mut state) {
            Ok(Some(item)) => items.push((item.record, item.value.to_vec())),
            Ok(None) => return walk_line(&items, None, full),
            Err(Fault::Refused(refusal)) => return walk_line(&items, Some(refusal), full),
            Err(broken) => return broken.to_string(),
        }
    }
    "broken answer: the walk does not end".into()
}

/// Both walks; what differs, or whether all of Data is accepted.
fn beside(raw: Raw) -> Result<bool, String> {
    let lent = Lent::new(raw);
    let mut words = [0; 16];
    let schema = match check_call(raw.schema, raw.bases, raw.data) {
        Ok(schema) => schema,
        Err(refusal) => return refused(states::step(lent.table(), &mut words).err(), refusal),
    };
    let source = Source {
        schema: &schema,
        bases: raw.bases,
        data: raw.data,
    };
    let mut state = State::start();
    loop {
        let library = states::step(lent.table(), &mut words);
        match (library, state.step(&source)) {
            (Ok(Some(item)), Ok(Step::Next(other, next))) => {
                if item.record != other.record || item.value != other.value {
                    return Err("another item".into());
                }
                state = next;
            }
            (Ok(None), Ok(Step::Done)) => return Ok(true),
            (library, Err(refusal)) => return refused(library.err(), refusal),
            _ => return Err("another end".into()),
        }
        if state_of(&words).map(|s| held(&s)) != Some(held(&state)) {
            return Err(format!("state {words:?} against {state:?}"));
        }
    }
}

fn refused(fault: Option<Fault>, refusal: Refusal) -> Result<bool, String> {
    match fault {
        Some(Fault::Refused(told)) if told == refusal => Ok(false),
        other => Err(format!("{other:?} against {refusal}")),
    }
}
