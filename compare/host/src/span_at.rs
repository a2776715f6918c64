//! Whose crossing is at an address, which the original does not say: plain Rust works it out from the original's readings of every record.
//! 1 is told from the areas' sizes, 6 from the original's opening, and 17 is the original's.
use crate::areas::{pieces, put, row, Areas, Kind, CHECKPOINTS, ROWS};
use crate::call::Outcome;
use crate::damage;
use crate::inputs::Style;
use crate::judge::{Folder, Refusal};
use crate::listing::index;
use crate::named;
use crate::pick::Pick;
use crate::port::{self, Crossing};
use crate::sweep;
use crate::tally::Tally;

/// Where a record's spans start, and how many there are.
type Spans = (u64, u64);

/// The spans of all records, or what refuses any address.
fn read(areas: &Areas, folder: &Folder) -> Outcome<Result<Vec<Spans>, u64>> {
    if areas.iter().any(|area| area.len() < 16) {
        return Ok(Err(1));
    }
    let Some(judge) = folder.settled(Kind::Paired, areas) else { return Ok(Err(6)) };
    let all: Vec<u64> = (1..=judge.count()).collect();
    match judge.read(&all) {
        Ok((_, words)) => Ok(Ok(words.chunks(Kind::Paired.words()).map(|w| (w[3], w[5])).collect())),
        Err(Refusal::Number(17)) => Ok(Err(17)),
        Err(other) => Err(format!("reading all records: the original says {other:?}")),
    }
}

/// The lowest record that holds the address. Where its spans end is a plain sum.
fn lowest(records: &[Spans], address: u64) -> Crossing {
    let holds =
        |&(start, spans): &Spans| start <= address && u128::from(address) < u128::from(start) + 8 * u128::from(spans);
    match records.iter().position(holds) {
        Some(i) => (0, [i as u64 + 1, (address - records[i].0) / 8, (address - records[i].0) % 8]),
        None => (21, [0; 3]),
    }
}

/// Calls on these areas: the number and all three are as the readings have them, and every byte stays as it was.
fn check(areas: &Areas, said: &Result<Vec<Spans>, u64>, addresses: &[u64], tally: &mut Tally) -> Outcome<()> {
    let mine = areas.clone();
    for &address in addresses {
        let answer = port::span_at(&mine, address);
        let wanted = match said {
            Ok(records) => lowest(records, address),
            Err(number) => (*number, [0; 3]),
        };
        if answer != wanted {
            return Err(format!("{address}: port (number, [record, index, remainder]) {answer:?}, wanted {wanted:?}"));
        }
        if mine != *areas {
            return Err(format!("{address}: the port changed an area"));
        }
        tally.note_address(answer);
    }
    Ok(())
}

type Case = (&'static str, Areas, Vec<(u64, Crossing)>);

/// A name, areas, and addresses with their answers. Where nothing else is said a record has one span, and the first starts at 16.
fn cases() -> Vec<Case> {
    const LAST: u64 = u64::MAX;
    let none = (21, [0; 3]);
    let missing = (17, [0; 3]);
    let at = |record, index, remainder| (0, [record, index, remainder]);
    let plain = |records: usize, rows: &[Vec<u8>]| named::areas(Kind::Paired, records, 0, rows, rows.len());
    let fourth = |spans: u32, slot: [u8; 2]| named::slot(plain(20, &[row(Kind::Paired, 4, 300, spans)]), 4, slot);
    // the second window's spans start here, and its first record has so many
    let second = |records: usize, checkpoint: u64, spans: u8| {
        let mut areas = named::slot(named::areas(Kind::Paired, records, 1, &[], 0), 1025, [1, spans]);
        put(&mut areas[CHECKPOINTS], 24, &checkpoint.to_le_bytes());
        areas
    };
    vec![
        ("no record", plain(0, &[]), vec![(0, none), (16, none), (LAST, none)]),
        (
            "20 records",
            plain(20, &[]),
            vec![(15, none), (16, at(1, 0, 0)), (23, at(1, 0, 7)), (24, at(2, 0, 0)), (175, at(20, 0, 7)), (176, none)],
        ),
        (
            "300 spans in a row",
            fourth(300, [0, 0]),
            vec![(39, at(3, 0, 7)), (40, at(4, 0, 0)), (2439, at(4, 299, 7)), (2440, at(5, 0, 0))],
        ),
        ("300 spans in a row, strides in the slot", fourth(300, [44, 0]), vec![(2439, at(4, 299, 7))]),
        ("5 spans in the slot, 300 in the row", fourth(300, [0, 5]), vec![(2439, at(4, 299, 7))]),
        (
            "5 spans in the slot, a row that is not wanted",
            fourth(300, [1, 5]),
            vec![(79, at(4, 4, 7)), (80, at(5, 0, 0))],
        ),
        ("no spans in a row", fourth(0, [0, 0]), vec![(39, at(3, 0, 7)), (40, at(5, 0, 0))]),
        (
            "as many spans as there may be",
            fourth(u32::MAX, [0, 0]),
            vec![(40 + 8 * 0xffff_fffe + 7, at(4, 0xffff_fffe, 7)), (40 + 8 * 0xffff_ffff, at(5, 0, 0))],
        ),
        (
            "the last of 20 records lacks its row",
            named::slot(plain(20, &[]), 20, [0, 1]),
            vec![(15, missing), (16, missing), (176, missing)],
        ),
        (
            "a second window near 2^64",
            second(1025, LAST - 8, 2),
            vec![
                (8207, at(1024, 0, 7)),
                (8208, none),
                (LAST - 9, none),
                (LAST - 8, at(1025, 0, 0)),
                (LAST - 1, at(1025, 0, 7)),
                (LAST, at(1025, 1, 0)),
            ],
        ),
        ("a record after it, saturated", second(1026, LAST - 8, 2), vec![(LAST, at(1025, 1, 0))]),
        ("a record after it, just not saturated", second(1026, LAST - 8, 1), vec![(LAST, at(1026, 0, 0))]),
        ("both saturated", second(1026, LAST, 255), vec![(LAST - 1, none), (LAST, at(1025, 0, 0))]),
        (
            "a second window that starts at 20",
            second(1025, 20, 255),
            vec![(20, at(1, 0, 4)), (8207, at(1024, 0, 7)), (8208, none)],
        ),
        (
            "a second window that starts before the first",
            second(1025, 9, 1),
            vec![(8, none), (9, at(1025, 0, 0)), (15, at(1025, 0, 6)), (16, at(1, 0, 0))],
        ),
    ]
}

/// Addresses with the answers that the rules give them; then, in small worlds around blocks of eight, the edges of every record.
pub fn named(folder: &Folder, tally: &mut Tally) -> Result<u64, (String, Vec<String>)> {
    let mut done = 0;
    for (name, areas, answers) in cases() {
        let wrong = |message: String| (format!("named address, {name}: {message}"), Vec::new());
        let said = read(&areas, folder).map_err(wrong)?;
        for (address, wanted) in answers {
            check(&areas, &said, &[address], tally).map_err(wrong)?;
            let answer = port::span_at(&areas, address);
            if answer != wanted {
                return Err(wrong(format!("{address}: port {answer:?}, the rules {wanted:?}")));
            }
            done += 1;
        }
    }
    for (name, areas, _) in sweep::blocks(Kind::Paired) {
        let wrong = |message: String| (format!("address, {name}: {message}"), Vec::new());
        let said = read(&areas, folder).map_err(wrong)?;
        let around = said.iter().flatten().flat_map(|&record| edges(record));
        let list: Vec<u64> = [0, 16, u64::MAX].into_iter().chain(around).collect();
        check(&areas, &said, &list, tally).map_err(wrong)?;
    }
    Ok(done)
}

/// The addresses of a seed: an index, sound or not, before an opening and after it.
pub fn run(seed: u64, folder: &Folder, tally: &mut Tally) -> Result<(), (String, Vec<String>)> {
    let mut steps = Vec::new();
    go(&mut Pick::new(seed), folder, tally, &mut steps).map_err(|message| (format!("address {message}"), steps))
}

fn go(pick: &mut Pick, folder: &Folder, tally: &mut Tally, steps: &mut Vec<String>) -> Outcome<()> {
    let mut areas = index(&Style::any(pick), pick, steps);
    if areas.iter().all(|area| area.len() >= 16) {
        for _ in 0..pick.of(&[0, 1, 1, 2, 3, 6]) {
            steps.push(format!("damage: {}", spoil(&mut areas, pick)));
        }
    }
    let mut said = read(&areas, folder)?;
    if said == Err(6) {
        check(&areas, &said, &addresses(&[], pick), tally)?;
        steps.push("open".into());
        port::open(Kind::Paired, &mut areas);
        said = read(&areas, folder)?;
    }
    let list = addresses(said.as_deref().unwrap_or(&[]), pick);
    check(&areas, &said, &list, tally)
}

/// A change that leaves the stored lengths alone, so that an opening has nothing to do.
fn spoil(areas: &mut Areas, pick: &mut Pick) -> &'static str {
    match pick.below(8) {
        0 => damage::slot(areas, pick),
        1 | 2 => damage::row_value(Kind::Paired, areas, pick),
        3 => damage::checkpoint(Kind::Paired, areas, pick),
        4 | 5 => {
            for i in 0..pieces(Kind::Paired, areas, ROWS) {
                if pick.one_in(3) {
                    put(&mut areas[ROWS], 16 + 16 * i + 12, &[0; 4]);
                }
            }
            "rows without spans"
        }
        _ => {
            // among the first window's spans, or where the window's sums saturate
            let n = pieces(Kind::Paired, areas, CHECKPOINTS);
            if n > 0 {
                let near = pick.below(1 << 20);
                let start = pick.of(&[near, near, u64::MAX - near, u64::MAX - near % 32]);
                put(&mut areas[CHECKPOINTS], 16 + 16 * pick.size(n) + 8, &start.to_le_bytes());
            }
            "where a window's spans start"
        }
    }
}

/// Records whose starts and ends are among the addresses.
const RECORDS: usize = 4;

/// Addresses anywhere, and those at the edges of some records.
fn addresses(records: &[Spans], pick: &mut Pick) -> Vec<u64> {
    let mut list: Vec<u64> = (0..8)
        .map(|_| {
            let near = 16 + pick.below(1 << 12);
            let any = pick.word() >> pick.below(64);
            pick.of(&[0, 15, 16, 17, near, near, any, u64::MAX - near, u64::MAX - 1, u64::MAX])
        })
        .collect();
    let saturates = records.iter().position(|&(start, spans)| start.checked_add(8 * spans).is_none());
    for _ in 0..RECORDS.min(records.len()) {
        let any = pick.size(records.len());
        let edge = (256 * pick.size(9) + pick.size(3)).saturating_sub(1).min(records.len() - 1);
        let record = records[pick.of(&[0, records.len() - 1, edge, any, any, any, saturates.unwrap_or(any)])];
        list.extend(edges(record));
        list.push(record.0.saturating_add(pick.below(8 * record.1)));
    }
    list
}

/// Where a record's spans start and end, and a byte before and after.
fn edges((start, spans): Spans) -> [u64; 6] {
    let end = start.saturating_add(8 * spans);
    [start.saturating_sub(1), start, start.saturating_add(1), end.saturating_sub(1), end, end.saturating_add(1)]
}
