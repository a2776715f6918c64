//! Whether a batch carries on: its first starts are where the last record ends, as a reading gives it, or 16 in an empty index.
//! The original does not ask for this, so append's 17, 23 and 24 are worked out from its own reading of the last record.
use crate::areas::{Areas, Kind};
use crate::call::{Batch, Outcome, Starts, FIRST};
use crate::judge::{Judge, Refusal};
use crate::port;

/// Where a record ends, by the words of its answer.
fn end(kind: Kind, words: &[u64]) -> Starts {
    let sum = |at: usize| words[at].saturating_add(words[at + 1]);
    (sum(1), if kind == Kind::Paired { sum(3) } else { FIRST.1 })
}

/// The number with which the port alone refuses a batch, before it looks at any record; none where the original has its say.
pub fn refusal(kind: Kind, judge: &Judge, b: &Batch) -> Outcome<Option<u64>> {
    if b.uneven(kind) {
        // the paired original takes one list of records, so it has no such refusal
        return Ok((kind == Kind::Paired).then_some(7));
    }
    if b.starts.is_empty() {
        return Ok(None);
    }
    let (body, span) = match judge.count() {
        0 => FIRST,
        last => match judge.read(&[last]) {
            Ok((_, words)) => end(kind, &words),
            Err(Refusal::Number(17)) => return Ok(Some(17)),
            Err(other) => return Err(format!("reading the last record: the original says {other:?}")),
        },
    };
    Ok(if b.starts[0] != body {
        Some(23)
    } else if kind == Kind::Paired && b.span_starts[0] != span {
        Some(24)
    } else {
        None
    })
}

/// Where the last of so many records ends, by the port's reading; 16 where that gives none. A way to inputs, no judge.
pub fn ends(kind: Kind, areas: &Areas, count: u64) -> Starts {
    let mut words = [0; 6];
    match port::read(kind, areas, &[count], &mut words) {
        (0, 1) => end(kind, &words),
        _ => FIRST,
    }
}
