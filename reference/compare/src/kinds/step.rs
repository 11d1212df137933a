//! Single steps, from states that a walk comes to and from any other.

use reference::batch::answer::{answer, step_line, DONE};
use reference::batch::{kind, state, Call, Case, Raw};
use reference::data::Source;
use reference::rng::Rng;
use reference::walk::{self, check_call, State};
use reference::{Deletion, Expiry, Liveness, LIMIT};

use super::damage::beside;
use super::states::{self, held, state_of, words_of, Lent};
use super::tables::{self, Made};
use super::{Compared, Kind, Limit};
use crate::library::{self, Fault};

pub struct Step;

impl Kind for Step {
    fn name(&self) -> &'static str {
        "step"
    }

    fn count(&self) -> u64 {
        1_000_000
    }

    fn generate(&self, rng: &mut Rng) -> Case {
        let made = tables::any(rng);
        let mut state = reached(rng, &made);
        match rng.below(4) {
            0 => {}
            1 => state = random_state(rng, made.data.len()),
            _ => change(rng, &mut state, made.data.len()),
        }
        let mut blobs = made.blobs();
        blobs.push(state::encode(&state));
        Case {
            kind: kind::STEP_RAW,
            blobs,
        }
    }

    fn library(&self, call: &Call, _full: bool) -> Option<String> {
        match *call {
            Call::StepRaw { source, state } => Some(told(source, words_of(&state)).line),
            _ => None,
        }
    }

    /// The whole state behind the step, not only what the line has of it; and
    /// the same step from a state with other numbers where it holds none.
    fn compare(&self, call: &Call) -> Compared {
        let &Call::StepRaw { source, state } = call else {
            unreachable!("a call of its own kind");
        };
        let told = told(source, words_of(&state));
        let loose = told_of_loose(source, &state);
        let reference = answer(call, true);
        let next = next_of(source, state);
        if told.line == reference
            && told.next == next
            && loose.line == reference
            && loose.next == next
        {
            return Compared::Same(reference.starts_with("ok "));
        }
        Compared::Different {
            library: format!("{told:?}, {loose:?}"),
            reference: format!("{reference}, {next:?}"),
        }
    }

    fn limits(&self) -> Vec<Limit> {
        [wide_words(), wide_bases(), over_limit()]
            .into_iter()
            .flatten()
            .collect()
    }
}

/// A step's line, and what the state behind it holds.
#[derive(Debug)]
struct Told {
    line: String,
    next: Option<State>,
}

fn told(raw: Raw, mut words: library::State) -> Told {
    let lent = Lent::new(raw);
    let before = words;
    let step = states::step(lent.table(), &mut words);
    let next = state_of(&words);
    let line = match (&step, &next) {
        (Ok(Some(item)), Some(next)) => step_line(&item.record, item.value, next),
        (Ok(Some(_)), None) => format!("broken answer: no state is {words:?}"),
        (Ok(None), _) => DONE.into(),
        (Err(fault), _) => fault.to_string(),
    };
    let next = next.filter(|_| words != before).map(|next| held(&next));
    Told { line, next }
}

/// The step from the same state, with another number than 1 for each yes, and
/// other numbers where it holds none.
fn told_of_loose(raw: Raw, state: &State) -> Told {
    let mut words = words_of(state);
    for (flag, numbers) in [(3, 4..=5), (11, 12..=12), (13, 14..=15)] {
        match words[flag] {
            0 => numbers.for_each(|i| words[i] = 7),
            _ => words[flag] = 1 << 40,
        }
    }
    told(raw, words)
}

/// What the reference's state behind a step holds, if there is one.
fn next_of(raw: Raw, state: State) -> Option<State> {
    let schema = check_call(raw.schema, raw.bases, raw.data).ok()?;
    let source = Source {
        schema: &schema,
        bases: raw.bases,
        data: raw.data,
    };
    match state.step(&source) {
        Ok(walk::Step::Next(_, next)) => Some(held(&next)),
        _ => None,
    }
}

/// A state that the walk of the table comes to.
fn reached(rng: &mut Rng, made: &Made) -> State {
    let mut state = State::start();
    let Ok(schema) = check_call(&made.schema, made.bases, &made.data) else {
        return state;
    };
    let source = Source {
        schema: &schema,
        bases: made.bases,
        data: &made.data,
    };
    for _ in 0..rng.index(2 + made.data.len() / 3) {
        match state.step(&source) {
            Ok(walk::Step::Next(_, next)) => state = next,
            _ => break,
        }
    }
    state
}

/// Small numbers, and now and then a large one, in all that a state holds.
fn random_state(rng: &mut Rng, len: usize) -> State {
    let mut state = State::start();
    state.phase = state::phase_of(rng.below(7)).expect("a phase");
    state.position = rng.index(len + 1);
    state.hand.count = rng.below(4) as u8;
    state.hand.column = rng.below(4) as u8;
    state.hand.body_end = state.position + rng.index(len + 1 - state.position);
    state.hand.resume = rng.index(len + 1);
    state.hand.present = rng.below(16);
    for _ in 0..rng.below(3) {
        change(rng, &mut state, len);
    }
    state
}

/// One part of the state changed.
fn change(rng: &mut Rng, state: &mut State, len: usize) {
    let hand = &mut state.hand;
    let place = |rng: &mut Rng, at: usize| match rng.below(4) {
        0 => len,
        1 => len + 1,
        2 => rng.index(len + 1),
        _ => beside(rng, at as u64) as usize,
    };
    match rng.below(11) {
        0 => state.position = place(rng, state.position),
        1 => {
            let number = rng.below(7);
            state.phase = state::phase_of(number).expect("a phase");
            hand.is_marker = number == 4;
            hand.is_static = number == 5;
        }
        2 => hand.column = beside(rng, u64::from(hand.column)) as u8,
        3 => hand.count = beside(rng, u64::from(hand.count)) as u8,
        4 => hand.clustering_header = beside(rng, hand.clustering_header),
        5 => hand.clustering_header ^= 1 << rng.below(64),
        6 => hand.present = beside(rng, hand.present),
        7 => hand.resume = place(rng, hand.resume),
        8 => hand.body_end = place(rng, hand.body_end),
        9 => hand.liveness = random_liveness(rng),
        _ => {
            let mark = beside(rng, 1 << 63) as i64;
            let local = beside(rng, 5) as u32;
            state.open = rng.one_in(2).then_some(Deletion { mark, local });
        }
    }
    if state.hand.is_marker {
        state.hand.resume = state.hand.body_end;
    }
}

fn random_liveness(rng: &mut Rng) -> Option<Liveness> {
    let expiry = Expiry {
        local: beside(rng, 9) as u32,
        ttl: beside(rng, 9) as u32,
    };
    let liveness = Liveness {
        timestamp: beside(rng, 1 << 63) as i64,
        expiry: rng.one_in(2).then_some(expiry),
    };
    (!rng.one_in(4)).then_some(liveness)
}

/// A table with one column of each role, and a partition at its first item.
const SCHEMA: [[u8; 16]; 4] = {
    let mut records = [[0; 16]; 4];
    let mut role = 0;
    while role < 4 {
        records[role][0] = role as u8;
        records[role][1] = 17;
        records[role][3] = 4;
        role += 1;
    }
    records
};

fn line_of(schema: &[u8], bases: [u64; 3], data: &[u8], words: library::State) -> String {
    let table = library::Table {
        schema,
        bases: &bases,
        data,
    };
    let mut state = words;
    match library::step(table, &mut state) {
        Ok(Some(_)) => "an item".into(),
        Ok(None) => "no item".into(),
        Err(Fault::Refused(refusal)) => refusal.to_string(),
        Err(broken) => broken.to_string(),
    }
}

/// States that no case's blob holds: no phase, and words above their ranges.
fn wide_words() -> Vec<Limit> {
    let limit = |what, words: library::State| Limit {
        what,
        library: line_of(SCHEMA.as_flattened(), [0; 3], &[1; 40], words),
        reference: "refused 10 state 0".into(),
    };
    let mut limits = Vec::new();
    for phase in [7, 8, 1 << 32, u64::MAX] {
        let mut words = [0; 16];
        words[0] = phase;
        limits.push(limit("a number that is no phase", words));
    }
    for phase in 3..7 {
        let mut sound = [0; 16];
        sound[0] = phase;
        sound[7] = 1;
        sound[10] = 40;
        let (what, wrong) = ("a state with a column above", "a state with a place above");
        for (what, word) in [(what, 2), (wrong, 1), (wrong, 10)] {
            for more in [1 << 32, 1 << 40, 1 << 63] {
                let mut words = sound;
                words[word] += more;
                limits.push(limit(what, words));
            }
        }
    }
    limits
}

/// Bases that no case's blob holds.
fn wide_bases() -> Vec<Limit> {
    let limit = |bases: [u64; 3]| Limit {
        what: "bases above their range",
        library: line_of(SCHEMA.as_flattened(), bases, &[], [0; 16]),
        reference: "refused 5 bases 0".into(),
    };
    let wide = [1 << 31, 1 << 32, u64::MAX];
    let local = wide.map(|word| limit([0, word, 0]));
    let ttl = wide.map(|word| limit([0, 0, word]));
    local.into_iter().chain(ttl).collect()
}

/// Slices at and over the limit: schema, then Data, before bases.
fn over_limit() -> Vec<Limit> {
    let over = vec![0; LIMIT + 1];
    let schema = SCHEMA.as_flattened();
    let limit = |what, schema: &[u8], bases, data: &[u8], reference: &str| Limit {
        what,
        library: line_of(schema, bases, data, [0; 16]),
        reference: reference.into(),
    };
    let bad = [0, u64::MAX, 0];
    let (full, data) = (&over[..LIMIT], "refused 1 data 0");
    vec![
        limit(
            "schema of 1073741825 bytes",
            &over,
            bad,
            &over,
            "refused 1 schema 0",
        ),
        limit("Data of 1073741825 bytes", schema, bad, &over, data),
        limit("Data of 1073741824 bytes", schema, [0; 3], full, "an item"),
        limit(
            "schema of 1073741824 bytes",
            full,
            bad,
            full,
            "refused 5 bases 0",
        ),
        limit(
            "the same, bases in range",
            full,
            [0; 3],
            full,
            "refused 10 schema 0",
        ),
    ]
}
