//! Random inputs: batches, where they start and what is wrong with some of them, and indexes that are made of batches.
//! Histories and listings take theirs from here.
use crate::areas::{counted, empty, put, Areas, Kind, CHECKPOINTS};
use crate::call::{Batch, Starts, FIRST};
use crate::carry::ends;
use crate::pick::Pick;
use crate::port;

/// What a history's records are like.
pub struct Style {
    /// A value that needs a row comes once in so many records.
    rows_one_in: u64,
    /// A record that is refused comes once in so many batches.
    wrong_one_in: u64,
    /// Windows that start near 2^64, where sums saturate.
    far: bool,
    /// Many records in a row are alike.
    alike: bool,
}

impl Style {
    pub fn any(pick: &mut Pick) -> Style {
        Style {
            rows_one_in: pick.of(&[1, 2, 5, 20, 100, 1_000_000]),
            wrong_one_in: pick.of(&[2, 6, 20]),
            far: pick.one_in(6),
            alike: pick.one_in(3),
        }
    }
}

/// So near to 2^64 that the sums of a window's records pass it, or just do not.
fn far(pick: &mut Pick) -> u64 {
    let bits = pick.of(&[6, 12, 18, 21]);
    u64::MAX - pick.below(1 << bits)
}

fn far_or_any(style: &Style, pick: &mut Pick) -> Starts {
    if style.far {
        (far(pick), far(pick))
    } else {
        (pick.word(), 8 * pick.below(1 << 40))
    }
}

/// Starts of a batch for these areas: mostly where the last record ends, a fixed part of them elsewhere.
pub fn starts(kind: Kind, areas: &Areas, count: u64, style: &Style, pick: &mut Pick) -> Starts {
    let (body, span) = ends(kind, areas, count);
    let mut off = |start: u64| start.wrapping_add(pick.of(&[1, 8, 16, u64::MAX, u64::MAX - 7]));
    let (other_body, other_span) = (off(body), off(span));
    match pick.below(24) {
        0 => (other_body, span),
        1 => (body, other_span),
        2 => (other_body, other_span),
        3 => FIRST,
        4 => far_or_any(style, pick),
        _ => (body, span),
    }
}

/// Records in a row from the given starts; at times one that is refused.
pub fn batch(kind: Kind, style: &Style, pick: &mut Pick, n: usize, starts: Starts) -> Batch {
    let mut b = Batch::default();
    let (mut start, mut span_start) = starts;
    let (mut strides, mut spans) = record(kind, style, pick);
    for _ in 0..n {
        if !style.alike || pick.one_in(100) {
            (strides, spans) = record(kind, style, pick);
        }
        let len = u64::from(strides) * 8;
        b.starts.push(start);
        b.lens.push(len);
        start = start.saturating_add(len);
        if kind == Kind::Paired {
            b.span_starts.push(span_start);
            b.spans.push(spans);
            span_start = span_start.saturating_add(u64::from(spans) * 8);
        }
    }
    while n > 0 && pick.one_in(style.wrong_one_in) {
        wrong(kind, &mut b, pick);
    }
    b
}

fn record(kind: Kind, style: &Style, pick: &mut Pick) -> (u32, u32) {
    let long = pick.one_in(style.rows_one_in);
    let (most, least_long) = if kind == Kind::Paired { (255, 256) } else { (65_535, 65_536) };
    let short =
        |pick: &mut Pick| if pick.one_in(8) { pick.of(&[1, most]) } else { 1 + pick.below(u64::from(most)) as u32 };
    let large = |pick: &mut Pick| match pick.below(4) {
        0 => pick.of(&[least_long, least_long + 1, u32::MAX, u32::MAX - 1]),
        1 => (pick.word() as u32).max(least_long),
        _ => least_long + pick.below(1000) as u32,
    };
    if !long {
        return (short(pick), short(pick));
    }
    match pick.below(3) {
        0 => (large(pick), short(pick)),
        1 if kind == Kind::Paired => (short(pick), large(pick)),
        _ => (large(pick), large(pick)),
    }
}

/// One thing in the batch that document 01 refuses, or that the next check has to tell apart.
fn wrong(kind: Kind, b: &mut Batch, pick: &mut Pick) {
    let n = b.starts.len();
    if n == 0 {
        return;
    }
    let i = pick.size(n).min(b.lens.len().saturating_sub(1));
    if b.lens.is_empty() {
        return;
    }
    match pick.below(8) {
        0 if kind == Kind::Paired && i < b.spans.len() => b.spans[i] = 0,
        1 => b.lens[i] = 0,
        2 => b.lens[i] = pick.of(&[0, b.lens[i]]) + pick.of(&[1, 2, 4, 7]),
        3 => b.lens[i] = pick.of(&[1 << 35, (1 << 35) + 8, u64::MAX, u64::MAX - 7, 1 << 63, (1 << 35) - 8]),
        4 => b.starts[i] = b.starts[i].wrapping_add(pick.of(&[1, 8, u64::MAX])),
        5 if kind == Kind::Paired && i < b.span_starts.len() => {
            b.span_starts[i] = b.span_starts[i].wrapping_add(pick.of(&[1, 8, u64::MAX]))
        }
        6 => match pick.below(4) {
            0 => {
                b.starts.pop();
            }
            1 => b.lens.push(8),
            2 if kind == Kind::Paired => {
                b.span_starts.pop();
            }
            3 if kind == Kind::Paired => b.spans.push(1),
            _ => {
                b.lens.pop();
            }
        },
        _ => b.lens[i] = 8,
    }
}

/// An index of some size, sound unless its windows start far off, with room behind what it publishes. The port's append makes it: a way to inputs, no judge.
pub fn composed(kind: Kind, style: &Style, pick: &mut Pick) -> Areas {
    let widths = kind.widths();
    let any = pick.size(60);
    let records = if style.far {
        pick.of(&[1024, 1025, 1026, 1030, 1100, 2047, 2048, 2049, 3072, 3080])
    } else {
        pick.of(&[any, any, any, 0, 1, 7, 8, 9, 300, 1022, 1023, 1024, 1025, 1030, 2047, 2048, 2049, 3072, 3080])
    };
    let steady = Style { wrong_one_in: u64::MAX, ..*style };
    let b = batch(kind, &steady, pick, records, FIRST);
    let rooms = [pick.size(40), pick.size(6), pick.size(3)];
    let mut areas = empty([
        16 + widths[0] * (records + rooms[0]),
        16 + widths[1] * (records + rooms[1]),
        16 + widths[2] * (4 + rooms[2]),
    ]);
    let answer = port::append(kind, &mut areas, &b);
    assert_eq!(answer, (0, records as u64), "a sound batch on empty areas");
    if style.far {
        for at in (16..counted(&areas[CHECKPOINTS]) as usize).step_by(8) {
            put(&mut areas[CHECKPOINTS], at, &far(pick).to_le_bytes());
        }
    }
    for place in 0..3 {
        let end = counted(&areas[place]) as usize;
        areas[place].truncate((end + widths[place] * rooms[place]).max(16));
    }
    if records > 0 && pick.one_in(4) {
        // a longer history: some records appended and withdrawn again stay as bytes past the ends
        port::truncate(kind, &mut areas, pick.below(records as u64 + 1));
    }
    areas
}
