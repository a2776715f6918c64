//! Random histories: a start, sound or damaged, and then calls of every sort, torn ones among them.
//! A seed gives one history, the kind included.
use crate::areas::{self, empty, Kind};
use crate::call::{Call, Outcome};
use crate::damage::damage;
use crate::inputs::{batch, composed, starts, Style};
use crate::judge::Folder;
use crate::pick::Pick;
use crate::tally::Tally;
use crate::tape::Tape;
use crate::trial::Trial;

pub fn kind_of(seed: u64) -> Kind {
    if Pick::new(seed).word() >> 63 == 0 {
        Kind::Paired
    } else {
        Kind::Single
    }
}

pub fn run(seed: u64, folder: &Folder, tally: &mut Tally) -> Result<(), (String, Vec<String>)> {
    taped(seed, folder, tally, None).map(|_| ())
}

/// The history of a seed; with a tape, what the original answers is written down.
pub fn taped(
    seed: u64,
    folder: &Folder,
    tally: &mut Tally,
    tape: Option<Tape>,
) -> Result<Option<Tape>, (String, Vec<String>)> {
    let kind = kind_of(seed);
    let mut pick = Pick::new(seed);
    pick.word();
    tally.histories += 1;
    let mut trial = Trial::new(kind, folder, tally, empty([16, 16, 16]));
    trial.tape = tape;
    match go(&mut trial, &mut pick) {
        Ok(()) => Ok(trial.tape),
        Err(message) => Err((message, trial.steps)),
    }
}

fn go(trial: &mut Trial, pick: &mut Pick) -> Outcome<()> {
    let style = Style::any(pick);
    let start = pick.below(10);
    match start {
        0 | 1 => {
            trial.create()?;
        }
        2..=4 => {
            let sizes = sizes(trial.kind, pick);
            trial.restart(empty(sizes));
            if !opened(trial, pick)? {
                return Ok(());
            }
        }
        _ => {
            let mut areas = composed(trial.kind, &style, pick);
            let times = pick.of(&[0, 1, 1, 1, 2, 3, 6]);
            for _ in 0..times {
                let what = damage(trial.kind, &mut areas, pick);
                trial.steps.push(format!("damage: {what}"));
            }
            trial.restart(areas);
            if !opened(trial, pick)? {
                return Ok(());
            }
        }
    }
    for _ in 0..3 + pick.below(10) {
        let call = any_call(trial, &style, pick);
        trial.beyond = pick.size(4);
        if pick.one_in(6) {
            trial.audit()?;
            trial.withheld()?;
        }
        if pick.one_in(5) && tearable(trial, &call) {
            trial.torn(&call, pick)?;
            if !opened(trial, pick)? {
                return Err("an opening after a tear was refused".into());
            }
        } else if !trial.call(&call)? {
            // the port refused with 13 and the original's files grew: both go on from before
            let areas = trial.areas.clone();
            trial.restart(areas);
            if !opened(trial, pick)? {
                return Err("an opening of settled areas was refused".into());
            }
        }
    }
    Ok(())
}

/// A reading stores nothing, and lists that differ are no call of the original's.
fn tearable(trial: &Trial, call: &Call) -> bool {
    match call {
        Call::Append(b) => trial.kind == Kind::Single || !b.uneven(trial.kind),
        Call::Read(_) => false,
        _ => true,
    }
}

/// An opening, at times after a call without one or after torn openings.
fn opened(trial: &mut Trial, pick: &mut Pick) -> Outcome<bool> {
    if pick.one_in(4) {
        let areas = trial.areas.clone();
        let style = Style::any(pick);
        let call = match pick.below(3) {
            0 => any_append(trial, &style, pick, 3),
            1 => Call::Truncate(pick.below(3)),
            _ => Call::Read(vec![1, pick.below(4)]),
        };
        if tearable(trial, &call) || matches!(call, Call::Read(_)) {
            trial.cold(&call)?;
            trial.restart(areas);
        }
    }
    if pick.one_in(30) {
        trial.small(pick.size(3), pick.size(16))?;
    }
    while pick.one_in(4) {
        if !trial.torn(&Call::Open, pick)? {
            break;
        }
    }
    trial.call(&Call::Open)
}

fn any_call(trial: &Trial, style: &Style, pick: &mut Pick) -> Call {
    let count = areas::count(&trial.areas);
    match pick.below(20) {
        0..=7 => {
            let n = batch_size(trial, pick);
            any_append(trial, style, pick, n)
        }
        8..=11 => Call::Truncate(truncation(count, pick)),
        12..=18 => Call::Read(wanted(count, pick)),
        _ => Call::Open,
    }
}

fn any_append(trial: &Trial, style: &Style, pick: &mut Pick, n: usize) -> Call {
    let starts = starts(trial.kind, &trial.areas, areas::count(&trial.areas), style, pick);
    Call::Append(batch(trial.kind, style, pick, n, starts))
}

fn batch_size(trial: &Trial, pick: &mut Pick) -> usize {
    let count = areas::count(&trial.areas) as usize;
    let room = (trial.areas[areas::SLOTS].len() - 16) / 2 - count;
    let edge = 1024 - count % 1024;
    let any = 13 + pick.size(300);
    let small = 1 + pick.size(12);
    let n = match pick.below(20) {
        0 => 0,
        1..=9 => small,
        10..=12 => edge + pick.size(5) - 2.min(edge),
        13 => edge + 1024,
        14..=16 => any,
        17 | 18 => room + pick.size(2),
        _ => room.saturating_sub(1),
    };
    // mostly what there is room for, so that a history goes on
    let n = if n > room && !pick.one_in(4) { pick.size(room + 1) } else { n };
    n.min(3300)
}

fn truncation(count: u64, pick: &mut Pick) -> u64 {
    let any = pick.below(count + 1);
    let near = count.saturating_sub(pick.below(4));
    let window = 1024 * pick.below(count / 1024 + 1);
    pick.of(&[
        0,
        count,
        count,
        near,
        near,
        near,
        any,
        any,
        any,
        count + 1,
        u64::MAX,
        window,
        window + 1,
        window.max(1) - 1,
    ])
}

fn wanted(count: u64, pick: &mut Pick) -> Vec<u64> {
    let n = pick.of(&[0, 1, 1, 2, 3, 5, 8, 20, 31, 32, 33, 40, 100, 1023, 1024, 1025]);
    let n = if n > 100 && !pick.one_in(4) { 1 + n % 7 } else { n };
    let narrow = pick.one_in(3);
    let first = pick.below(count + 1);
    let mut list: Vec<u64> = (0..n)
        .map(|_| {
            if narrow {
                return first + pick.below(9);
            }
            match pick.below(16) {
                0 => 0,
                1 => count,
                2 => count + 1,
                3 => pick.of(&[u64::MAX, 1 << 63, 1 << 32, 1, 2]),
                4 => (1024 * pick.below(count / 1024 + 2) + pick.below(3)).saturating_sub(1),
                5 => 1 + pick.below(1024),
                _ => 1 + pick.below(count),
            }
        })
        .collect();
    if pick.one_in(4) {
        list.sort_unstable();
    }
    list
}

fn sizes(kind: Kind, pick: &mut Pick) -> [usize; 3] {
    let widths = kind.widths();
    let records = pick.of(&[0, 1, 7, 40, 300, 1023, 1024, 1025, 1100, 2047, 2049, 2300, 3100]);
    let rows = pick.of(&[0, 1, 2, 5, 40, 400, records]);
    let checkpoints = pick.of(&[0, 1, 2, 3, 4, 4, 4]);
    let ragged = |pick: &mut Pick| if pick.one_in(4) { pick.size(16) } else { 0 };
    [
        16 + widths[0] * records + ragged(pick) % 2,
        16 + widths[1] * rows + ragged(pick),
        16 + widths[2] * checkpoints + ragged(pick),
    ]
}
