//! Cases that document 01 names with their values, on both sides, the order of refusals in a record, where a batch has to begin, which rows a slot wants, and how many records are durable.
//! Document 01's starred ones are proved; those here are the ones that it leaves to this program, and their neighbours.
use crate::areas::{empty, put, row, store_len, Areas, Kind, CHECKPOINTS, ROWS, SLOTS};
use crate::call::{Batch, Call, Outcome};
use crate::judge::Folder;
use crate::port;
use crate::tally::Tally;
use crate::tape::Tape;
use crate::trial::Trial;

/// Records with slot 1, 1; rows and checkpoints by hand.
pub fn areas(kind: Kind, records: usize, checkpoints: usize, rows: &[Vec<u8>], published: usize) -> Areas {
    let w = kind.widths();
    let mut areas = empty([16 + 2 * records, 16 + w[ROWS] * (rows.len() + 1), 16 + w[CHECKPOINTS] * checkpoints]);
    areas[SLOTS][16..].fill(1);
    store_len(&mut areas[SLOTS], 16 + 2 * records as u64);
    for (i, bytes) in rows.iter().enumerate() {
        put(&mut areas[ROWS], 16 + i * w[ROWS], bytes);
    }
    store_len(&mut areas[ROWS], (16 + published * w[ROWS]) as u64);
    let len = areas[CHECKPOINTS].len() as u64;
    store_len(&mut areas[CHECKPOINTS], len);
    areas
}

pub fn slot(mut areas: Areas, number: usize, bytes: [u8; 2]) -> Areas {
    put(&mut areas[SLOTS], 16 + 2 * (number - 1), &bytes);
    areas
}

/// A name, areas, and the count that opening gives.
fn openings(kind: Kind) -> Vec<(String, Areas, u64)> {
    let mut list = Vec::new();
    for (records, checkpoints, kept) in [
        (2048, 1, 2047),
        (1023, 0, 1023),
        (1024, 0, 1023),
        (1024, 1, 1024),
        (1000, 1, 1000),
        (3072, 1, 2047),
        (0, 0, 0),
        (0, 3, 0),
    ] {
        list.push((
            format!("{records} records with {checkpoints} checkpoints keep {kept}"),
            areas(kind, records, checkpoints, &[], 0),
            kept,
        ));
    }
    let wide = if kind == Kind::Paired { 300 } else { 65_536 };
    let four = row(kind, 4, wide, wide);
    let nine = row(kind, 9, wide, 5);
    let with_nine = |count: usize| areas(kind, count, 0, &[four.clone(), nine.clone()], 1);
    list.push((
        "slot 0, 0 with row 9 past last row 4, count 20: cut to 8".into(),
        slot(slot(with_nine(20), 4, [0, 0]), 9, [0, 0]),
        8,
    ));
    list.push(("the same with count 8: no cut".into(), slot(with_nine(8), 4, [0, 0]), 8));
    list.push(("the same with count 9: cut to 8".into(), slot(slot(with_nine(9), 4, [0, 0]), 9, [0, 0]), 8));
    let first = row(kind, 1, wide, 5);
    list.push(("row 1, last 0, matching: cut to 0".into(), slot(areas(kind, 20, 0, &[first], 0), 1, [0, 0]), 0));
    if kind == Kind::Paired {
        list.push(("slot 0, 5 with row 9: cut to 8".into(), slot(slot(with_nine(20), 4, [0, 0]), 9, [0, 5]), 8));
        list.push(("slot 44, 0 with row 9: no cut".into(), slot(slot(with_nine(20), 4, [0, 0]), 9, [44, 0]), 20));
        // the row that stays published is 7, above the count: it goes first, and then hides no other
        let seven = areas(kind, 1, 0, &[row(kind, 7, 300, 5), row(kind, 1, 300, 5)], 1);
        list.push(("count 1, published row 7, behind it row 1: opening keeps 1".into(), slot(seven, 1, [0, 5]), 1));
    } else {
        list.push(("slot 0, 1 is 256: no cut".into(), slot(slot(with_nine(20), 4, [0, 0]), 9, [0, 1]), 20));
    }
    list
}

/// All named cases; each one's tape, if one is wanted, is handed to `done`.
pub fn run(
    folder: &Folder,
    tally: &mut Tally,
    taped: bool,
    done: &mut dyn FnMut(Kind, Tape),
) -> Result<u64, (String, Vec<String>)> {
    let mut cases = 0;
    let mut case = |kind: Kind, name: &str, areas: Areas, check: &dyn Fn(&mut Trial) -> Outcome<()>| {
        cases += 1;
        let mut trial = Trial::new(kind, folder, tally, empty([16, 16, 16]));
        trial.tape = taped.then(Tape::default);
        trial.restart(areas);
        check(&mut trial).map_err(|m| (format!("named case, {}, {name}: {m}", kind.name()), trial.steps.clone()))?;
        if let Some(tape) = trial.tape {
            done(kind, tape);
        }
        Ok(())
    };
    for kind in [Kind::Paired, Kind::Single] {
        for (name, areas, kept) in openings(kind) {
            case(kind, &name, areas, &|trial| opening(trial, kept))?;
        }
        for (name, strides, spans, slot, rows) in inline(kind) {
            case(kind, name, empty([18, 32, 16]), &|trial| one_record(trial, strides, spans, slot, rows))?;
        }
        for (name, lens, spans, number) in refused(kind) {
            let two = batch(kind, &[16, 0], &lens, &spans);
            case(kind, name, empty([20, 16, 16]), &|trial| appended(trial, &two, number))?;
        }
        for (name, areas, batch, number) in beginnings(kind) {
            case(kind, name, areas, &|trial| appended(trial, &batch, number))?;
        }
        for (slot, strides, spans, sound) in judged(kind) {
            let name = format!("slot {slot:?} with a row of {strides}, {spans}");
            case(kind, &name, with_row(kind, slot, strides, spans), &|trial| audited(trial, sound))?;
        }
        for (name, areas, limits) in durable(kind) {
            case(kind, name, areas, &|trial| limited(trial, &limits))?;
        }
    }
    Ok(cases)
}

fn opening(trial: &mut Trial, kept: u64) -> Outcome<()> {
    trial.call(&Call::Open)?;
    let count = trial.judge.as_ref().map(|judge| judge.count());
    if count != Some(kept) {
        return Err(format!("both sides keep {count:?}, document 01 has {kept}"));
    }
    trial.audit()
}

/// Records whose spans start where their bodies do.
fn batch(kind: Kind, starts: &[u64], lens: &[u64], spans: &[u32]) -> Batch {
    let (starts, lens) = (starts.to_vec(), lens.to_vec());
    match kind {
        Kind::Paired => Batch { span_starts: starts.clone(), spans: spans.to_vec(), starts, lens },
        Kind::Single => Batch { starts, lens, ..Batch::default() },
    }
}

type Inline = (&'static str, u32, u32, [u8; 2], usize);

/// A name, strides, span count, the slot and how many rows it needs.
fn inline(kind: Kind) -> Vec<Inline> {
    match kind {
        Kind::Paired => vec![
            ("255, 255 inline", 255, 255, [255, 255], 0),
            ("256, 1 in a row", 256, 1, [0, 1], 1),
            ("1, 256 in a row", 1, 256, [1, 0], 1),
            ("256, 256 in a row", 256, 256, [0, 0], 1),
        ],
        Kind::Single => vec![
            ("65,535 inline", 65_535, 0, [255, 255], 0),
            ("65,536 in a row", 65_536, 0, [0, 0], 1),
            ("256 inline", 256, 0, [0, 1], 0),
        ],
    }
}

fn one_record(trial: &mut Trial, strides: u32, spans: u32, slot: [u8; 2], rows: usize) -> Outcome<()> {
    trial.call(&Call::Open)?;
    trial.call(&Call::Append(batch(trial.kind, &[16], &[u64::from(strides) * 8], &[spans])))?;
    trial.call(&Call::Read(vec![1]))?;
    if trial.areas[SLOTS][16..18] != slot || crate::areas::pieces(trial.kind, &trial.areas, ROWS) != rows {
        return Err(format!("both sides store slot {:?}", &trial.areas[SLOTS][16..18]));
    }
    trial.audit()
}

type Judged = ([u8; 2], u32, u32, bool);

/// A slot, the values of a published row, and whether the slot wants it.
fn judged(kind: Kind) -> Vec<Judged> {
    match kind {
        Kind::Paired => vec![
            ([40, 1], 300, 1, false),
            ([40, 1], 40, 1, false),
            ([44, 0], 300, 5, false),
            ([44, 0], 44, 300, true),
            ([44, 0], 44, 256, true),
            ([44, 0], 44, 255, false),
            ([0, 5], 300, 5, true),
            ([0, 5], 200, 5, false),
            ([0, 5], 300, 6, false),
            ([0, 0], 0, 0, false),
            ([0, 0], 256, 255, false),
            ([0, 0], 255, 256, false),
            ([0, 0], 256, 256, true),
        ],
        Kind::Single => vec![
            ([0, 0], 65_535, 0, false),
            ([0, 0], 65_536, 0, true),
            ([0, 1], 256, 0, false),
            ([0, 1], 65_536, 0, false),
            ([1, 0], 65_536, 0, false),
        ],
    }
}

/// One record of this slot, with a published row of these values.
fn with_row(kind: Kind, bytes: [u8; 2], strides: u32, spans: u32) -> Areas {
    slot(areas(kind, 1, 0, &[row(kind, 1, strides, spans)], 1), 1, bytes)
}

fn audited(trial: &mut Trial, sound: bool) -> Outcome<()> {
    trial.call(&Call::Open)?;
    let shown = trial.shown()?.sound;
    if shown != sound {
        return Err(format!("the original's readings show {shown}, document 02 has {sound}"));
    }
    trial.audit()
}

type Durable = (&'static str, Areas, Vec<(u64, u64)>);

/// A name, areas, and how many records are durable at lengths of their rows.
fn durable(kind: Kind) -> Vec<Durable> {
    let width = kind.widths()[ROWS] as u64;
    let wide = if kind == Kind::Paired { 300 } else { 65_536 };
    let two = [row(kind, 2, wide, wide), row(kind, 4, wide, wide)];
    let five = |wanting: &[usize]| {
        wanting.iter().fold(areas(kind, 5, 0, &two, 2), |areas, &number| slot(areas, number, [0, 0]))
    };
    let (first, second, end) = (16, 16 + width, 16 + 2 * width);
    vec![
        (
            "five records with rows at 2 and 4: one is durable without rows, three with one row",
            five(&[2, 4]),
            vec![
                (0, 0),
                (1, 0),
                (15, 0),
                (first, 1),
                (first + 1, 0),
                (second - 1, 0),
                (second, 3),
                (second + 1, 0),
                (end - 1, 0),
                (end, 5),
                (end + 1, 5),
                (u64::MAX, 5),
            ],
        ),
        ("a row whose slot does not want it cuts nothing", five(&[2]), vec![(first, 1), (second, 5), (second + 4, 0)]),
        ("nor does the first one", five(&[4]), vec![(first, 5), (second, 3)]),
        ("no rows: all are durable from 16 on", areas(kind, 3, 0, &[], 0), vec![(0, 0), (15, 0), (16, 3), (17, 3)]),
    ]
}

fn limited(trial: &mut Trial, limits: &[(u64, u64)]) -> Outcome<()> {
    trial.call(&Call::Open)?;
    for &(durable, value) in limits {
        let both = trial.withheld_at(durable)?;
        if both != value {
            return Err(format!("rows durable up to {durable}: both sides have {both}, document 02 has {value}"));
        }
    }
    trial.withheld()
}

type Refused = (&'static str, [u64; 2], [u32; 2], u64);

/// A name, two lengths, two span counts and the number. Neither body nor spans of the second record start where those of the first end.
fn refused(kind: Kind) -> Vec<Refused> {
    let mut list = vec![
        ("an empty body", [0, 8], [1, 1], 22),
        ("a body of 1 byte", [1, 8], [1, 1], 9),
        ("a body of 7 bytes", [7, 8], [1, 1], 9),
        ("a body of 12 bytes before an empty one", [12, 0], [1, 1], 9),
        ("an empty body before one of 12 bytes", [0, 12], [1, 1], 22),
        ("a body of 2^35 + 4 bytes", [(1 << 35) + 4, 8], [1, 1], 9),
        ("a body of 2^35 bytes before an empty one", [1 << 35, 0], [1, 1], 10),
        ("a body before an empty one that starts elsewhere", [8, 0], [1, 1], 11),
    ];
    if kind == Kind::Paired {
        list.push(("an empty body without spans", [0, 8], [0, 1], 8));
    }
    list
}

type Beginning = (&'static str, Areas, Batch, u64);

/// A name, areas, a batch and the number. Where nothing else is said the batch is a record of 8 bytes with one span, and there is room.
fn beginnings(kind: Kind) -> Vec<Beginning> {
    const LAST: u64 = u64::MAX;
    let width = if kind == Kind::Paired { 8 } else { 8 * 257 };
    let both = |start| (start, start);
    let end = |records| both(16 + width * records);
    let at = |starts| Batch::one(kind, starts, 8, 1);
    let of = |starts, len, spans| Batch::one(kind, starts, len, spans);
    let two_lens = |starts| Batch { lens: vec![8, 8], ..at(starts) };
    let plain = |records| roomy(kind, areas(kind, records, 0, &[], 0));
    let none = plain(0);
    let two = plain(2);
    let second_lacks = slot(two.clone(), 2, [0, 0]);
    // one checkpoint, with this start of the second window
    let window = |records, checkpoint| second_window(kind, areas(kind, records, 1, &[], 0), checkpoint);
    let wrong = window(1024, 5000);
    let after_wrong = window(1025, 5000);
    let past = window(1025, LAST - 3);
    let third_lacks = |records| slot(window(records, end(1024).0), 3, [0, 0]);
    let earlier_lacks = third_lacks(1025);
    let mut list = vec![
        ("record 1 at 16", none.clone(), at(both(16)), 0),
        ("record 1 at 24", none.clone(), at((24, 16)), 23),
        ("record 1 at 24, spans too", none.clone(), at(both(24)), 23),
        ("record 3 where record 2 ends", two.clone(), at(end(2)), 0),
        ("record 3 at 16", two.clone(), at(both(16)), 23),
        ("1,024 records, the checkpoint behind them wrong", wrong.clone(), at(end(1024)), 0),
        ("the same at the checkpoint", wrong.clone(), at(both(5000)), 23),
        ("1,025 records, the checkpoint before the last wrong", after_wrong.clone(), at(both(5000 + width)), 0),
        ("the same where the lengths add up to", after_wrong.clone(), at(end(1025)), 23),
        ("a last record that ends past 2^64", past.clone(), at(both(LAST)), 0),
        ("the same at its end less 2^64", past.clone(), at(both(width - 4)), 23),
        ("the last record lacks its row", second_lacks.clone(), at(end(2)), 17),
        ("the same at 24", second_lacks.clone(), at(both(24)), 17),
        ("the same with an empty body", second_lacks.clone(), of(end(2), 0, 1), 17),
        ("the same with two lengths", second_lacks.clone(), two_lens(end(2)), 7),
        ("the same with no record", second_lacks, Batch::default(), 0),
        ("record 3 of 20 lacks its row", slot(plain(20), 3, [0, 0]), at(end(20)), 17),
        ("record 3 of 1,024 lacks its row", third_lacks(1024), at(end(1024)), 17),
        ("record 3 of 1,025 lacks its row", earlier_lacks.clone(), at(end(1025)), 0),
        ("the same at 16", earlier_lacks.clone(), at(both(16)), 23),
        ("two lengths at 24", none.clone(), two_lens(both(24)), 7),
        ("no start and one length", none.clone(), Batch { starts: Vec::new(), ..at(both(16)) }, 7),
        ("an empty body without spans at 24", none.clone(), of((24, 16), 0, 0), 23),
        ("a body of 12 bytes at 24", none.clone(), of((24, 16), 12, 1), 23),
        ("two bodies at 24, the second elsewhere", none.clone(), batch(kind, &[24, 0], &[8, 8], &[1, 1]), 23),
        ("no room", areas(kind, 2, 0, &[], 0), at(end(2)), 13),
        ("no room at 24", areas(kind, 2, 0, &[], 0), at(both(24)), 23),
    ];
    if kind == Kind::Paired {
        list.extend([
            ("record 1 at 16, spans at 24", none.clone(), at((16, 24)), 24),
            ("the same without spans", none.clone(), of((16, 24), 8, 0), 24),
            ("the same with an empty body", none, of((16, 24), 0, 1), 24),
            ("record 3 where record 2 ends, spans at 16", two, at((end(2).0, 16)), 24),
            ("1,024 records, spans at the wrong checkpoint", wrong, at((end(1024).0, 5000)), 24),
            ("1,025 records, spans where the counts add up to", after_wrong, at((5000 + width, end(1025).1)), 24),
            ("spans that end past 2^64, less 2^64", past, at((LAST, width - 4)), 24),
            ("record 3 of 1,025 lacks its row, spans at 16", earlier_lacks, at((end(1025).0, 16)), 24),
        ]);
    }
    list
}

/// The same with room for two records more.
fn roomy(kind: Kind, mut areas: Areas) -> Areas {
    for (area, width) in areas.iter_mut().zip(kind.widths()) {
        area.resize(area.len() + 2 * width, 0);
    }
    areas
}

/// The same with this start of the second window in all of its only checkpoint, and room.
fn second_window(kind: Kind, mut areas: Areas, start: u64) -> Areas {
    for word in areas[CHECKPOINTS][16..].chunks_mut(8) {
        word.copy_from_slice(&start.to_le_bytes());
    }
    roomy(kind, areas)
}

fn appended(trial: &mut Trial, batch: &Batch, number: u64) -> Outcome<()> {
    trial.call(&Call::Open)?;
    let (given, _) = port::append(trial.kind, &mut trial.areas.clone(), batch);
    if given != number {
        return Err(format!("port {given}, the table {number}"));
    }
    trial.call(&Call::Append(batch.clone())).map(|_| ())
}
