//! What is measured: a reading, an append with the truncation that takes it back, an opening, a listing read back, a load's program, a span address looked for, the parts of a record, an audit.
//! Before a reading is timed the answers of port and original are compared.
use crate::index::{batch, Index};
use crate::pairs::Shape;
use crate::turns::{group, over_calls, over_lists, spent, Setting, Side};
use crate::wanted::Spread;
use host::areas::{count, counted, Areas, Kind, CHECKPOINTS, ROWS, SLOTS};
use host::judge::{Folder, Judge};
use host::listing::{print, read};
use host::load::{self, printed, PROGRAM};
use host::parts::plain;
use host::pick::Pick;
use host::port;
use original::io_handle::cut_after;
use original::Fk;
use std::cell::RefCell;
use std::hint::black_box;

/// Seconds of one reading. `checks` is a call that is refused with 15 just after numbers 1 and 6; `files` the original's whole call;
/// `memory` its planning and extraction, with the windows' bytes copied from memory.
#[derive(Clone, Copy)]
pub struct Reading {
    pub call: f64,
    pub files: f64,
    pub checks: f64,
    pub memory: f64,
}

macro_rules! from_memory {
    ($loc:expr, $slots:expr, $numbers:expr) => {{
        let mut plan = $loc.plan_range_batch($numbers).ok().unwrap();
        for (at, buf) in plan.reads() {
            let n = buf.len();
            buf.copy_from_slice(&$slots[at as usize..at as usize + n]);
        }
        black_box($loc.finish_range_batch(&plan).ok().unwrap()).len()
    }};
}

fn in_memory(judge: &Judge, slots: &[u8], numbers: &[Fk]) -> usize {
    match judge {
        Judge::Paired(loc) => from_memory!(loc, slots, numbers),
        Judge::Single(loc) => from_memory!(loc, slots, numbers),
    }
}

fn on_files(judge: &Judge, numbers: &[Fk]) -> usize {
    match judge {
        Judge::Paired(loc) => black_box(loc.range_batch(numbers).ok().unwrap()).len(),
        Judge::Single(loc) => black_box(loc.range_batch(numbers).ok().unwrap()).len(),
    }
}

fn compare(index: &Index, lists: &[Vec<u64>], buffer: &mut [u64]) {
    for list in lists {
        assert_eq!(port::read(index.kind, &index.areas, list, buffer), (0, list.len() as u64));
        let (_, words) = index.judge.read(list).ok().expect("every row is there");
        assert_eq!(words, buffer, "port and original answer differently");
    }
}

/// The sides of the original are half of the lists apart and have turns of the same lists: neither follows the other on a list.
/// Each side of the port comes after one of the original, and the other way round.
pub fn reading(index: &Index, n: usize, spread: Spread, setting: &Setting) -> Reading {
    let lists = spread.lists(n, index.records);
    let numbers: Vec<Vec<Fk>> = lists.iter().map(|list| list.iter().map(|&id| Fk::new(id)).collect()).collect();
    let mut buffer = vec![0u64; index.kind.words() * n];
    compare(index, &lists, &mut buffer);
    let too_many = vec![1; 1025];
    assert_eq!(port::read(index.kind, &index.areas, &too_many, &mut []).0, 15);
    let mut call = |i: usize| {
        black_box(port::read(index.kind, &index.areas, black_box(&lists[i]), &mut buffer));
    };
    let mut files = |i: usize| {
        black_box(on_files(&index.judge, black_box(&numbers[i])));
    };
    let mut checks = |_: usize| {
        black_box(port::read(index.kind, &index.areas, black_box(&too_many), &mut []));
    };
    let mut memory = |i: usize| {
        black_box(in_memory(&index.judge, &index.areas[SLOTS], black_box(&numbers[i])));
    };
    let (ours, theirs) = (group(lists.len(), &mut call), group(lists.len(), &mut files));
    let times = over_lists(
        setting,
        lists.len(),
        &mut [
            Side { run: &mut call, group: ours, from: 0 },
            Side { run: &mut files, group: theirs, from: 0 },
            Side { run: &mut checks, group: ours, from: 0 },
            Side { run: &mut memory, group: theirs, from: lists.len() / 2 },
        ],
    );
    Reading { call: times[0], files: times[1], checks: times[2], memory: times[3] }
}

/// Port and original.
pub type Both = (f64, f64);

/// Times of append and of the truncation that takes it back, call by call.
/// `cut_after` empties the list of the original's writes, which only the comparison needs, and cuts none.
pub fn storing(index: &mut Index, n: usize, rows_one_in: u64, setting: &Setting) -> [Both; 2] {
    let mut ends = index.ends;
    let b = batch(index.kind, &mut Pick::new(n as u64), n, rows_one_in, &mut ends);
    let Index { kind, records, areas, judge, .. } = index;
    let (longer, records) = (*records + n as u64, *records);
    let mut best = [(f64::MAX, f64::MAX); 2];
    setting.calls(|_| {
        cut_after(u64::MAX);
        let port_append = spent(|| assert_eq!(port::append(*kind, areas, black_box(&b)).1, longer));
        let port_truncate = spent(|| assert_eq!(port::truncate(*kind, areas, black_box(records)).1, records));
        let append = spent(|| assert_eq!(judge.append(black_box(&b)), Ok(longer)));
        let truncate = spent(|| assert_eq!(judge.truncate(black_box(records)), Ok(records)));
        best[0] = (best[0].0.min(port_append), best[0].1.min(append));
        best[1] = (best[1].0.min(port_truncate), best[1].1.min(truncate));
    });
    best
}

/// Seconds of a listing appended, and bytes of its text. `rust` is the comparison's reader in Rust with the port's append after it;
/// `lists` and `files` are port and original on the lists that the text stands for.
#[derive(Clone, Copy)]
pub struct Listing {
    pub bytes: usize,
    pub call: f64,
    pub rust: f64,
    pub lists: f64,
    pub files: f64,
}

/// Call by call, each taken back by a truncation that is not measured. Before that the bytes are compared.
pub fn listing(index: &mut Index, n: usize, rows_one_in: u64, setting: &Setting) -> Listing {
    let mut ends = index.ends;
    let b = batch(index.kind, &mut Pick::new(n as u64), n, rows_one_in, &mut ends);
    let Index { kind, records, areas, judge, .. } = index;
    let (longer, records) = (*records + n as u64, *records);
    let text = print(&b, records + 1).into_bytes();
    let mut copy = areas.clone();
    port::append(*kind, &mut copy, &b);
    port::append_listing(areas, &text);
    assert!(*areas == copy, "a listing and its lists are stored differently");
    let mut ours = |append: &dyn Fn(&mut Areas) -> port::Answer| {
        port::truncate(*kind, areas, records);
        spent(|| assert_eq!(append(areas).1, longer))
    };
    let mut best = [f64::MAX; 4];
    setting.calls(|_| {
        cut_after(u64::MAX);
        let times = [
            ours(&|areas| port::append_listing(areas, black_box(&text))),
            ours(&|areas| port::append(*kind, areas, &read(black_box(&text), records).unwrap())),
            ours(&|areas| port::append(*kind, areas, black_box(&b))),
            spent(|| assert_eq!(judge.append(black_box(&b)), Ok(longer))),
        ];
        assert_eq!(judge.truncate(records), Ok(records));
        best = [0, 1, 2, 3].map(|side| times[side].min(best[side]));
    });
    let [call, rust, lists, files] = best;
    Listing { bytes: text.len(), call, rust, lists, files }
}

/// Seconds of a whole run of a program that prints a load, from its start to its end, and bytes of the text: `face_load`, and the comparison's plain Rust.
#[derive(Clone, Copy)]
pub struct Load {
    pub bytes: usize,
    pub program: f64,
    pub rust: f64,
}

/// Run by run; each has to print the text.
pub fn load(records: u64, setting: &Setting) -> Load {
    let input = format!("88172645463325252\n{records}\n").into_bytes();
    let text = load::answer(&load::read(&input)).into_bytes();
    let rust = std::env::current_exe().expect("the benchmark's own place").with_file_name("load");
    let programs = [PROGRAM, rust.to_str().expect("a path in UTF-8")];
    let mut best = [f64::MAX; 2];
    setting.calls(|_| {
        for (program, best) in programs.iter().zip(&mut best) {
            let time = spent(|| {
                assert!(printed(program, &input).is_ok_and(|output| output == text), "{program} prints another text")
            });
            *best = best.min(time);
        }
    });
    Load { bytes: text.len(), program: best[0], rust: best[1] }
}

/// Seconds for a span address in the first record, a middle one and the last: the port's call, and halves over the original's readings.
/// `readings` are the port's of every window's last record, in a call for each; `together` the same in calls of up to 1,024 numbers.
#[derive(Clone, Copy)]
pub struct Search {
    pub call: [f64; 3],
    pub halves: [f64; 3],
    pub readings: f64,
    pub together: f64,
}

/// What a user of the original would write: halves over the record numbers, with a reading of one record at each step.
fn by_halves(judge: &Judge, address: u64) -> Option<[u64; 3]> {
    let Judge::Paired(loc) = judge else { return None };
    let (mut low, mut high) = (1, loc.count());
    while low <= high {
        let id = low + (high - low) / 2;
        let (start, len) = loc.range_batch(&[Fk::new(id)]).ok()?[0]?.spent;
        if address < start {
            high = id - 1;
        } else if address - start >= len {
            low = id + 1;
        } else {
            return Some([id, (address - start) / 8, (address - start) % 8]);
        }
    }
    None
}

/// The middle record is one that halves do not soon come upon. Before the times are taken the answers are compared.
pub fn span_at(index: &Index, setting: &Setting) -> Search {
    let Index { kind, records, areas, judge, .. } = index;
    let addresses = [1, records * 2 / 5, *records].map(|id| {
        let (_, words) = judge.read(&[id]).expect("every row is there");
        let address = words[3] + 8 * (words[5] / 2) + 3;
        assert_eq!(port::span_at(areas, address), (0, [id, words[5] / 2, 3]));
        assert_eq!(by_halves(judge, address), Some([id, words[5] / 2, 3]));
        address
    });
    let lasts: Vec<u64> = (1..=*records).filter(|id| id % 1024 == 0 || id == records).collect();
    let buffer = RefCell::new(vec![0; kind.words() * lasts.len().min(1024)]);
    let readings = |numbers: usize| {
        for list in lasts.chunks(numbers) {
            let answer = port::read(*kind, areas, black_box(list), &mut buffer.borrow_mut());
            assert_eq!(answer, (0, list.len() as u64));
        }
    };
    let call = |i: usize| {
        black_box(port::span_at(areas, black_box(addresses[i])));
    };
    let halves = |i: usize| {
        black_box(by_halves(judge, black_box(addresses[i])));
    };
    let best = over_calls(
        setting,
        &mut [
            &mut || call(0),
            &mut || call(1),
            &mut || call(2),
            &mut || halves(0),
            &mut || halves(1),
            &mut || halves(2),
            &mut || readings(1),
            &mut || readings(1024),
        ],
    );
    let [call, halves] = [0, 3].map(|from| [best[from], best[from + 1], best[from + 2]]);
    Search { call, halves, readings: best[6], together: best[7] }
}

/// Seconds for what a record needs, and how many records that are, over all lists: the port's call, and a plain search in Rust that is told the count.
#[derive(Clone, Copy)]
pub struct Needed {
    pub records: f64,
    pub call: f64,
    pub rust: f64,
}

/// Before the times are taken the answers are compared.
pub fn parts(index: &Index, shape: Shape, setting: &Setting) -> Needed {
    let lists = shape.lists();
    let (mut ours, mut theirs) = ([0; 1024], [0; 1024]);
    let mut records = 0;
    for ((composites, components), record) in &lists {
        let answer = port::parts(&index.areas, (composites, components), *record, &mut ours);
        assert_eq!(answer, plain(index.records, (composites, components), *record, &mut theirs));
        assert_eq!((answer.0, ours[..answer.1 as usize] == theirs[..answer.1 as usize]), (0, true));
        records += answer.1;
    }
    let mut call = |i: usize| {
        let ((composites, components), record) = black_box(&lists[i]);
        black_box(port::parts(&index.areas, (composites, components), *record, &mut ours));
    };
    let mut rust = |i: usize| {
        let ((composites, components), record) = black_box(&lists[i]);
        black_box(plain(black_box(index.records), (composites, components), *record, &mut theirs));
    };
    let (a, b) = (group(lists.len(), &mut call), group(lists.len(), &mut rust));
    let times = over_lists(
        setting,
        lists.len(),
        &mut [Side { run: &mut call, group: a, from: 0 }, Side { run: &mut rust, group: b, from: 0 }],
    );
    Needed { records: records as f64 / lists.len() as f64, call: times[0], rust: times[1] }
}

/// Seconds of an audit of a sound index: the port's call, a plain pass in Rust, and the original's readings of all records in calls of 1,024 numbers.
#[derive(Clone, Copy)]
pub struct Audit {
    pub call: f64,
    pub rust: f64,
    pub files: f64,
}

/// Whether settled areas are sound, in one pass over records and rows: what a user would write from the rules.
fn plain_audit(kind: Kind, areas: &Areas) -> bool {
    let [_, row_width, checkpoint_width] = kind.widths();
    let word = |bytes: &[u8]| u64::from_le_bytes(bytes.try_into().unwrap());
    let value = |row: &[u8], at: usize| u64::from(u32::from_le_bytes(row[at..at + 4].try_into().unwrap()));
    let fits = |byte: u8, value: u64| if byte == 0 { value >= 256 } else { value == u64::from(byte) };
    let mut rows = areas[ROWS][16..counted(&areas[ROWS]) as usize].chunks_exact(row_width).peekable();
    let mut checkpoints = areas[CHECKPOINTS][16..].chunks_exact(checkpoint_width);
    let (mut body, mut span) = (16u64, 16u64);
    for (slot, id) in areas[SLOTS][16..].chunks_exact(2).zip(1..=count(areas)) {
        let row = rows.next_if(|row| word(&row[..8]) == id);
        let inline = match kind {
            Kind::Paired => slot[0] != 0 && slot[1] != 0,
            Kind::Single => slot[0] != 0 || slot[1] != 0,
        };
        let (strides, spans) = match (kind, row) {
            (_, Some(_)) if inline => return false,
            (_, None) if !inline => return false,
            (Kind::Paired, None) => (u64::from(slot[0]), u64::from(slot[1])),
            (Kind::Single, None) => (u64::from(slot[0]) + 256 * u64::from(slot[1]), 0),
            (Kind::Paired, Some(row)) => (value(row, 8), value(row, 12)),
            (Kind::Single, Some(row)) => (value(row, 8), 0),
        };
        let wanted = match kind {
            Kind::Paired => fits(slot[0], strides) && fits(slot[1], spans),
            Kind::Single => strides >= 65_536,
        };
        if row.is_some() && !wanted {
            return false;
        }
        let (Some(next_body), Some(next_span)) = (body.checked_add(8 * strides), span.checked_add(8 * spans)) else {
            return false;
        };
        (body, span) = (next_body, next_span);
        if id % 1024 == 0 {
            let checkpoint = checkpoints.next().expect("one after each window");
            if word(&checkpoint[..8]) != body || kind == Kind::Paired && word(&checkpoint[8..]) != span {
                return false;
            }
        }
    }
    rows.next().is_none()
}

pub fn audit(index: &Index, setting: &Setting) -> Audit {
    let Index { kind, records, areas, judge, .. } = index;
    let numbers: Vec<Fk> = (1..=*records).map(Fk::new).collect();
    let best = over_calls(
        setting,
        &mut [
            &mut || assert_eq!(port::audit(*kind, black_box(areas)), (0, 1)),
            &mut || assert!(plain_audit(*kind, black_box(areas))),
            &mut || {
                for list in numbers.chunks(1024) {
                    assert_eq!(on_files(judge, black_box(list)), list.len());
                }
            },
        ],
    );
    Audit { call: best[0], rust: best[1], files: best[2] }
}

/// How many records are durable, at the middle row: the call, its check of 1 and 6 alone, and the original on its files.
pub struct Limit {
    pub call: f64,
    pub check: f64,
    pub files: f64,
}

pub fn durable(index: &Index, setting: &Setting) -> Limit {
    let Index { kind, areas, judge, .. } = index;
    let middle = 16 + (index.row_count() / 2 * kind.widths()[ROWS]) as u64;
    judge.withhold(middle);
    let limit = judge.withheld_ovf_limit().expect("the row at that length can be read");
    let wanted = [1u64; 1025];
    let best = over_calls(
        setting,
        &mut [
            &mut || assert_eq!(port::withheld(*kind, black_box(areas), middle), (0, limit)),
            &mut || assert_eq!(port::read(*kind, black_box(areas), &wanted, &mut []), (15, 0)),
            &mut || assert_eq!(black_box(judge).withheld_ovf_limit(), Ok(limit)),
        ],
    );
    judge.catch_up();
    Limit { call: best[0], check: best[1], files: best[2] }
}

pub fn opening(index: &mut Index, folder: &Folder, setting: &Setting) -> Both {
    let kind = index.kind;
    let areas = &mut index.areas;
    let best = over_calls(
        setting,
        &mut [
            &mut || {
                black_box(port::open(kind, black_box(areas)));
            },
            &mut || {
                black_box(Judge::open(kind, folder.dir()).ok().map(|judge| judge.count()));
            },
        ],
    );
    (best[0], best[1])
}
