//! A walk's state as a blob.

use super::take;
use crate::data::{Deletion, Expiry, Liveness};
use crate::record;
use crate::walk::{Hand, Phase, State};

/// The blob's length.
pub const LEN: usize = 73;

/// 0 partition, 1 first item, 2 item, 3 row's values, 4 marker's prefix, 5
/// static cells, 6 cells.
pub fn phase_number(state: &State) -> u8 {
    match state.phase {
        Phase::Partition => 0,
        Phase::First => 1,
        Phase::Items => 2,
        Phase::Clustering => 3 + u8::from(state.hand.is_marker),
        Phase::Cells => 6 - u8::from(state.hand.is_static),
    }
}

pub fn phase_of(number: u64) -> Option<Phase> {
    Some(match number {
        0 => Phase::Partition,
        1 => Phase::First,
        2 => Phase::Items,
        3 | 4 => Phase::Clustering,
        5 | 6 => Phase::Cells,
        _ => return None,
    })
}

/// The state in `blob`, or nothing where it holds none.
pub fn decode(blob: &[u8]) -> Option<State> {
    if blob.len() != LEN {
        return None;
    }
    let rest = &mut &blob[..];
    let number = take(rest, 1)?;
    let position = take(rest, 8)? as usize;
    let column = take(rest, 1)? as u8;
    let is_open = take(rest, 1)? == 1;
    let open = Deletion {
        mark: take(rest, 8)? as i64,
        local: take(rest, 4)? as u32,
    };
    let clustering_header = take(rest, 8)?;
    let count = take(rest, 1)? as u8;
    let present = take(rest, 8)?;
    let cells_at = take(rest, 8)? as usize;
    let body_end = take(rest, 8)? as usize;
    let is_marker = number == 4;
    let hand = Hand {
        is_static: number == 5,
        is_marker,
        column,
        count,
        clustering_header,
        resume: if is_marker { body_end } else { cells_at },
        body_end,
        liveness: liveness(rest)?,
        present,
    };
    Some(State {
        position,
        phase: phase_of(number)?,
        open: is_open.then_some(open),
        hand,
    })
}

fn liveness(rest: &mut &[u8]) -> Option<Option<Liveness>> {
    let flags = take(rest, 1)? as u8;
    let timestamp = take(rest, 8)? as i64;
    let expiry = Expiry {
        ttl: take(rest, 4)? as u32,
        local: take(rest, 4)? as u32,
    };
    let expiry = (flags & record::HAS_TTL != 0).then_some(expiry);
    Some((flags & record::HAS_TIMESTAMP != 0).then_some(Liveness { timestamp, expiry }))
}

/// The blob of a state.
pub fn encode(state: &State) -> Vec<u8> {
    let open = state.open.unwrap_or(Deletion { mark: 0, local: 0 });
    let hand = &state.hand;
    let mut out = vec![phase_number(state)];
    out.extend((state.position as u64).to_be_bytes());
    out.extend([hand.column, u8::from(state.open.is_some())]);
    out.extend(open.mark.to_be_bytes());
    out.extend(open.local.to_be_bytes());
    out.extend(hand.clustering_header.to_be_bytes());
    out.push(hand.count);
    out.extend(hand.present.to_be_bytes());
    out.extend((hand.resume as u64).to_be_bytes());
    out.extend((hand.body_end as u64).to_be_bytes());
    let expiry = hand.liveness.and_then(|l| l.expiry);
    out.push(u8::from(hand.liveness.is_some()) | u8::from(expiry.is_some()) << 1);
    out.extend(hand.liveness.map_or(0, |l| l.timestamp).to_be_bytes());
    out.extend(expiry.map_or(0, |e| e.ttl).to_be_bytes());
    out.extend(expiry.map_or(0, |e| e.local).to_be_bytes());
    out
}

/// Phase, position, column and the open range.
pub fn words(state: &State) -> String {
    let open = match state.open {
        Some(Deletion { mark, local }) => format!("{mark} {local}"),
        None => "closed".into(),
    };
    let (position, column) = (state.position, state.hand.column);
    format!("{} {position} {column} {open}", phase_number(state))
}

#[cfg(test)]
mod tests {
    use super::*;

    #[test]
    fn blobs_round_trip() {
        let expiry = Some(Expiry { local: 7, ttl: 8 });
        let mut state = State::start();
        assert_eq!(decode(&encode(&state)), Some(state));
        state.position = 5;
        state.phase = Phase::Cells;
        state.open = Some(Deletion { mark: -3, local: 4 });
        state.hand.column = 2;
        state.hand.present = 6;
        state.hand.resume = 9;
        state.hand.body_end = 11;
        state.hand.liveness = Some(Liveness {
            timestamp: -6,
            expiry,
        });
        let blob = encode(&state);
        assert_eq!(blob.len(), LEN);
        assert_eq!(decode(&blob), Some(state));
        assert_eq!(words(&state), "6 5 2 -3 4");
        assert_eq!(decode(&blob[1..]), None);
        assert_eq!(decode(&[&[7], &blob[1..]].concat()), None);
    }
}
