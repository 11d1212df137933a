//! The walk's state as the library's words and as the reference's.

use reference::batch::state::{phase_number, phase_of};
use reference::batch::Raw;
use reference::walk::{Hand, Phase, State};
use reference::{Deletion, Expiry, Liveness, Record};

use crate::library::{self, Answer, Fault, Table};

/// The state's words.
pub fn words_of(state: &State) -> library::State {
    let open = state.open.unwrap_or(Deletion { mark: 0, local: 0 });
    let hand = &state.hand;
    let expiry = hand.liveness.and_then(|l| l.expiry);
    [
        u64::from(phase_number(state)),
        state.position as u64,
        u64::from(hand.column),
        u64::from(state.open.is_some()),
        open.mark as u64,
        u64::from(open.local),
        hand.clustering_header,
        u64::from(hand.count),
        hand.present,
        hand.resume as u64,
        hand.body_end as u64,
        u64::from(hand.liveness.is_some()),
        hand.liveness.map_or(0, |l| l.timestamp) as u64,
        u64::from(expiry.is_some()),
        u64::from(expiry.map_or(0, |e| e.ttl)),
        u64::from(expiry.map_or(0, |e| e.local)),
    ]
}

/// The state that words hold, if they are in their ranges.
pub fn state_of(words: &library::State) -> Option<State> {
    let word = |i: usize| u32::try_from(words[i]).ok();
    let byte = |i: usize| u8::try_from(words[i]).ok();
    let expiry = Expiry {
        ttl: word(14)?,
        local: word(15)?,
    };
    let liveness = Liveness {
        timestamp: words[12] as i64,
        expiry: (words[13] != 0).then_some(expiry),
    };
    let open = Deletion {
        mark: words[4] as i64,
        local: word(5)?,
    };
    Some(State {
        position: words[1] as usize,
        phase: phase_of(words[0])?,
        open: (words[3] != 0).then_some(open),
        hand: Hand {
            is_static: words[0] == 5,
            is_marker: words[0] == 4,
            column: byte(2)?,
            count: byte(7)?,
            clustering_header: words[6],
            resume: words[9] as usize,
            body_end: words[10] as usize,
            liveness: (words[11] != 0).then_some(liveness),
            present: words[8],
        },
    })
}

/// What a state holds in its phase; all else as at the start (DECISIONS L13).
pub fn held(state: &State) -> State {
    let hand = &state.hand;
    let mut kept = State::start();
    kept.position = state.position;
    kept.phase = state.phase;
    if state.phase != Phase::Partition {
        kept.open = state.open;
    }
    match state.phase {
        Phase::Clustering if hand.is_marker => {
            kept.hand.is_marker = true;
            kept.hand.column = hand.column;
            kept.hand.count = hand.count;
            kept.hand.clustering_header = hand.clustering_header;
            kept.hand.body_end = hand.body_end;
        }
        Phase::Clustering => kept.hand = *hand,
        Phase::Cells => {
            kept.hand.is_static = hand.is_static;
            kept.hand.column = hand.column;
            kept.hand.body_end = hand.body_end;
            kept.hand.liveness = hand.liveness;
            kept.hand.present = hand.present;
        }
        _ => {}
    }
    kept
}

/// An item as the library hands it out.
pub struct Item<'a> {
    pub record: Record,
    pub value: &'a [u8],
}

/// One step of the library, with the value that the item shows.
pub fn step<'a>(table: Table<'a>, state: &mut library::State) -> Answer<Option<Item<'a>>> {
    let Some(words) = library::step(table, state)? else {
        return Ok(None);
    };
    let record = record_of(&words)
        .ok_or_else(|| Fault::Broken(format!("an item of numbers out of range: {words:?}")))?;
    let [kind, .., offset, length] = words;
    let value = library::value(kind, offset, length, table.data)?;
    Ok(Some(Item { record, value }))
}

fn record_of(words: &[u64; 12]) -> Option<Record> {
    let byte = |i: usize| u8::try_from(words[i]).ok();
    let word = |i: usize| u32::try_from(words[i]).ok();
    Some(Record {
        kind: byte(0)?,
        flags: byte(1)?,
        column: byte(2)?,
        ttl: word(3)?,
        timestamp: words[4] as i64,
        mark: words[5] as i64,
        local: word(6)?,
        expiry: word(7)?,
        second_mark: words[8] as i64,
        second_local: word(9)?,
        offset: words[10],
        length: words[11],
    })
}

/// What the library is lent for a case.
pub struct Lent<'a> {
    raw: Raw<'a>,
    bases: [u64; 3],
}

impl<'a> Lent<'a> {
    pub fn new(raw: Raw<'a>) -> Lent<'a> {
        let bases = library::bases_words(raw.bases);
        Lent { raw, bases }
    }

    pub fn table(&self) -> Table<'_> {
        Table {
            schema: self.raw.schema,
            bases: &self.bases,
            data: self.raw.data,
        }
    }
}

#[cfg(test)]
mod tests {
    use super::*;

    #[test]
    fn states_round_trip() {
        assert_eq!(words_of(&State::start()), [0; 16]);
        for number in 0..7 {
            let words = [number, 1, 2, 1, 3, 4, 5, 6, 7, 8, 9, 1, 10, 1, 11, 12];
            let state = state_of(&words).expect("a state");
            assert_eq!(words_of(&state), words);
        }
        let wide = [0, 0, 256, 0, 0, 0, 0, 0, 0, 0, 0, 0, 0, 0, 0, 0];
        assert_eq!(state_of(&wide), None);
        assert_eq!(state_of(&[7; 16]), None);
    }
}
