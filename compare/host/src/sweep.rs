//! Small worlds in full: every combination of a few lengths, slots and rows around the rules' limits.
//! Random histories seldom meet these all; here none is left out.
use crate::areas::{count, empty, put, row, store_len, Areas, Kind, CHECKPOINTS, ROWS, SLOTS};
use crate::call::{Batch, Call, Outcome};
use crate::carry;
use crate::judge::Folder;
use crate::pick::Pick;
use crate::tally::Tally;
use crate::trial::Trial;

/// How many worlds there were, or a difference.
pub fn run(folder: &Folder, tally: &mut Tally) -> Result<u64, (String, Vec<String>)> {
    let mut worlds = 0;
    for kind in [Kind::Paired, Kind::Single] {
        for (name, areas, wanted) in
            cut_rule(kind).into_iter().chain(lengths(kind)).chain(windows(kind)).chain(blocks(kind))
        {
            worlds += 1;
            let mut trial = Trial::new(kind, folder, tally, areas);
            open_and_read(&mut trial, &wanted)
                .map_err(|m| (format!("sweep, {}, {name}: {m}", kind.name()), trial.steps.clone()))?;
        }
    }
    Ok(worlds)
}

pub type World = (String, Areas, Vec<u64>);

fn open_and_read(trial: &mut Trial, wanted: &[u64]) -> Outcome<()> {
    let areas = trial.areas.clone();
    trial.cold(&Call::Read(vec![1]))?;
    trial.restart(areas.clone());
    trial.torn(&Call::Open, &mut Pick::new(0))?;
    trial.restart(areas);
    if trial.call(&Call::Open)? {
        trial.audit()?;
        trial.withheld()?;
        for &id in wanted {
            trial.call(&Call::Read(vec![id]))?;
        }
        trial.call(&Call::Read(wanted.to_vec()))?;
        appends(trial)?;
    }
    Ok(())
}

/// No record; then one whose body, spans or both start elsewhere, and one that carries on, which the areas may have no room for.
fn appends(trial: &mut Trial) -> Outcome<()> {
    let (body, span) = carry::ends(trial.kind, &trial.areas, count(&trial.areas));
    trial.call(&Call::Append(Batch::default()))?;
    for (by, span_by) in [(8, 0), (8, 8), (0, 8), (0, 0)] {
        let starts = (body.wrapping_add(by), span.wrapping_add(span_by));
        if trial.kind == Kind::Paired || by == span_by {
            trial.call(&Call::Append(Batch::one(trial.kind, starts, 8, 1)))?;
        }
    }
    Ok(())
}

/// Two records with every mix of zero bytes, a published row or none, and every sort of row behind.
fn cut_rule(kind: Kind) -> Vec<World> {
    let limit = if kind == Kind::Paired { 256 } else { 65_536 };
    let width = kind.widths()[ROWS];
    let mut list = Vec::new();
    for count in 0..=2usize {
        for bits in 0..1u32 << (2 * count) {
            for published in 0..=4u64 {
                for behind in 0..=3u64 {
                    for (strides, spans) in [(5, 5), (limit, 5), (5, limit), (limit - 1, limit), (limit, limit), (0, 0)]
                    {
                        let mut areas = empty([16 + 2 * count, 16 + 2 * width, 16]);
                        for i in 0..2 * count {
                            areas[SLOTS][16 + i] = if bits >> i & 1 == 0 { 5 } else { 0 };
                        }
                        store_len(&mut areas[SLOTS], 16 + 2 * count as u64);
                        // 4 stands for no published row; the row behind then comes first
                        let mut at = 16;
                        if published < 4 {
                            put(&mut areas[ROWS], at, &row(kind, published, limit, limit));
                            at += width;
                        }
                        store_len(&mut areas[ROWS], at as u64);
                        put(&mut areas[ROWS], at, &row(kind, behind, strides, spans));
                        let name = format!("count {count}, zero bytes {bits:b}, row {published}, behind it ({behind}, {strides}, {spans})");
                        list.push((name, areas, vec![1, 2, 3]));
                    }
                }
            }
        }
    }
    list
}

/// Stored lengths below, at and past every edge, in all three areas at once.
fn lengths(kind: Kind) -> Vec<World> {
    let widths = kind.widths();
    let some = |place: usize| {
        let w = widths[place] as u64;
        [0, 5, 15, 16, 17, 16 + w, 15 + 2 * w, 16 + 2 * w, 17 + 2 * w, 16 + 3 * w, u64::MAX]
    };
    let mut list = Vec::new();
    for s in some(SLOTS) {
        for r in some(ROWS) {
            for c in some(CHECKPOINTS) {
                let mut areas = empty([0, 1, 2].map(|p| 16 + 2 * widths[p] + p % 2));
                areas[SLOTS][16..].fill(3);
                put(&mut areas[ROWS], 16, &row(kind, 1, 7, 7));
                put(&mut areas[ROWS], 16 + widths[ROWS], &row(kind, 2, 7, 7));
                for (place, len) in [(SLOTS, s), (ROWS, r), (CHECKPOINTS, c)] {
                    store_len(&mut areas[place], len);
                }
                list.push((format!("stored lengths {s}, {r}, {c}"), areas, vec![1, 2, 3]));
            }
        }
    }
    list
}

/// Records on either side of a window's end, with fewer or more checkpoints.
fn windows(kind: Kind) -> Vec<World> {
    let width = kind.widths()[CHECKPOINTS];
    let mut list = Vec::new();
    for records in [1022usize, 1023, 1024, 1025, 2046, 2047, 2048, 2049, 3071, 3072] {
        for checkpoints in 0..=4usize {
            for ragged in [0u64, 1] {
                let mut areas = empty([16 + 2 * records, 16, 17 + 4 * width]);
                areas[SLOTS][16..].fill(1);
                store_len(&mut areas[SLOTS], 16 + 2 * records as u64);
                for i in 0..4u64 {
                    put(&mut areas[CHECKPOINTS], 16 + i as usize * width, &(1000 * (i + 1)).to_le_bytes());
                }
                store_len(&mut areas[CHECKPOINTS], (16 + checkpoints * width) as u64 + ragged);
                let wanted = vec![1, 1023, 1024, 1025, 2047, 2048, 2049, records as u64];
                list.push((format!("{records} records, {checkpoints} checkpoints, ragged {ragged}"), areas, wanted));
            }
        }
    }
    list
}

/// Counts around blocks of eight, with one slot that lacks its row at every place: what is looked at, and what is not.
pub fn blocks(kind: Kind) -> Vec<World> {
    let mut list = Vec::new();
    for count in [1usize, 7, 8, 9, 15, 16, 17, 24] {
        for hole in 0..=count {
            for with_row in [false, true] {
                let mut areas = empty([16 + 2 * count, 16 + kind.widths()[ROWS], 16]);
                for i in 0..2 * count {
                    areas[SLOTS][16 + i] = 1 + i as u8;
                }
                store_len(&mut areas[SLOTS], 16 + 2 * count as u64);
                if hole < count {
                    put(&mut areas[SLOTS], 16 + 2 * hole, &[0, 0]);
                }
                if with_row {
                    put(&mut areas[ROWS], 16, &row(kind, hole as u64 + 1, 300, 3));
                    let len = areas[ROWS].len() as u64;
                    store_len(&mut areas[ROWS], len);
                }
                let wanted = (0..=count as u64 + 1).collect();
                list.push((format!("{count} records, zero slot after {hole}, row {with_row}"), areas, wanted));
            }
        }
    }
    list
}
