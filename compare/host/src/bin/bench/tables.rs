//! The tables' measurements: which indexes and which calls.
//! Every table has its own; what is in two tables was measured for each.
use crate::index::{build, Index, DENSITIES, KINDS};
use crate::measure::{
    audit, durable, listing, load, opening, parts, reading, span_at, storing, Audit, Both, Limit, Listing, Load,
    Needed, Reading, Search,
};
use crate::pairs::{Shape, SHAPES};
use crate::turns::{spent, Setting};
use crate::wanted::{Spread, WORKLOADS};
use host::areas::Kind;
use host::judge::Folder;

/// One reading of one index.
#[derive(Clone)]
pub struct Line {
    pub kind: Kind,
    pub records: u64,
    pub density: &'static str,
    pub rows: usize,
    pub n: usize,
    pub spread: Spread,
    pub times: Reading,
}

/// One call that stores, or an opening.
pub struct Stored {
    pub kind: Kind,
    pub density: &'static str,
    pub rows: usize,
    pub call: &'static str,
    pub n: usize,
    pub times: Both,
}

/// One listing, and the rows that it makes.
pub struct Listed {
    pub density: &'static str,
    pub rows: usize,
    pub times: Listing,
}

/// A load of so many records.
pub struct Loaded {
    pub records: u64,
    pub times: Load,
}

/// Span addresses looked for in one index.
pub struct Searched {
    pub records: u64,
    pub density: &'static str,
    pub rows: usize,
    pub times: Search,
}

/// What a record needs, by pairs of one shape.
pub struct Composed {
    pub shape: Shape,
    pub times: Needed,
}

/// One index, and what was measured on it.
pub struct On<T> {
    pub kind: Kind,
    pub records: u64,
    pub density: &'static str,
    pub rows: usize,
    pub times: T,
}

/// An audit, and how many records are durable.
pub type Audited = On<Audit>;
pub type Limited = On<Limit>;

/// All calls on an index of one size.
pub struct Sized {
    pub line: Line,
    pub open: Both,
    pub append: Both,
    pub truncation: Both,
}

#[derive(Default)]
pub struct Run {
    pub reading: Vec<Line>,
    pub growth: Vec<Line>,
    pub storing: Vec<Stored>,
    pub listing: Vec<Listed>,
    pub load: Vec<Loaded>,
    pub span_at: Vec<Searched>,
    pub parts: Vec<Composed>,
    pub audit: Vec<Audited>,
    pub durable: Vec<Limited>,
    pub size: Vec<Sized>,
    pub numbers: Vec<Line>,
    pub clock: f64,
}

impl Run {
    /// Every reading of every table.
    pub fn all(&self) -> impl Iterator<Item = &Line> {
        let sized = self.size.iter().map(|s| &s.line);
        self.reading.iter().chain(&self.growth).chain(sized).chain(&self.numbers)
    }
}

fn line(index: &Index, density: &'static str, n: usize, spread: Spread, setting: &Setting) -> Line {
    let times = reading(index, n, spread, setting);
    Line { kind: index.kind, records: index.records, density, rows: index.row_count(), n, spread, times }
}

/// Every workload that the index has windows for.
fn workloads(index: &Index, density: &'static str, setting: &Setting) -> Vec<Line> {
    let fits = |spread| spread != Spread::AllWindows || index.records >= 1024;
    let fitting = WORKLOADS.into_iter().filter(|&(_, spread)| fits(spread));
    fitting.map(|(n, spread)| line(index, density, n, spread, setting)).collect()
}

const SIZES: [u64; 3] = [1_000, 100_000, 1_000_000];

/// An index of each kind at three sizes: without rows, with 1 % and with 10 %.
fn indexes(folder: &Folder, mut each: impl FnMut(&Index, &'static str)) {
    for kind in KINDS {
        for records in SIZES {
            for (density, one_in) in DENSITIES {
                each(&build(kind, folder, records, one_in), density);
            }
        }
    }
}

fn on<T>(folder: &Folder, setting: &Setting, measured: fn(&Index, &Setting) -> T) -> Vec<On<T>> {
    let mut list = Vec::new();
    indexes(folder, |index, density| {
        let times = measured(index, setting);
        list.push(On { kind: index.kind, records: index.records, density, rows: index.row_count(), times });
    });
    list
}

/// Reading: every workload on each of these.
pub fn reading_table(run: &mut Run, folder: &Folder, setting: &Setting) {
    indexes(folder, |index, density| run.reading.extend(workloads(index, density, setting)));
}

pub const GROWTH: [u64; 7] = [100_000, 200_000, 500_000, 1_000_000, 2_000_000, 5_000_000, 10_000_000];

/// Reading with 1 % rows, from about 1,000 rows to 100,000.
pub fn growth_table(run: &mut Run, folder: &Folder, setting: &Setting) {
    for kind in KINDS {
        for records in GROWTH {
            run.growth.extend(workloads(&build(kind, folder, records, 100), "1 %", setting));
        }
    }
}

pub const STORING_RECORDS: u64 = 102_400;

pub fn storing_table(run: &mut Run, folder: &Folder, setting: &Setting) {
    run.clock = (0..10_000).map(|_| spent(|| ())).fold(f64::MAX, f64::min);
    for kind in KINDS {
        for (density, one_in) in DENSITIES {
            let mut index = build(kind, folder, STORING_RECORDS, one_in);
            let rows = index.row_count();
            let stored = |call, n, times| Stored { kind, density, rows, call, n, times };
            run.storing.push(stored("open", 0, opening(&mut index, folder, setting)));
            for n in [1, 100, 1024] {
                let [append, truncation] = storing(&mut index, n, one_in, setting);
                run.storing.push(stored("append", n, append));
                run.storing.push(stored("truncation", n, truncation));
            }
        }
    }
}

pub const LISTING_LINES: usize = 1024;

/// A listing of as many lines as there may be, into an empty index.
pub fn listing_table(run: &mut Run, folder: &Folder, setting: &Setting) {
    for (density, one_in) in DENSITIES {
        let mut index = build(Kind::Paired, folder, 0, one_in);
        let times = listing(&mut index, LISTING_LINES, one_in, setting);
        run.listing.push(Listed { density, rows: index.row_count(), times });
    }
}

/// Loads of no records, of some, and of as many as there may be.
pub fn load_table(run: &mut Run, _: &Folder, setting: &Setting) {
    run.load.extend([0, 40, 1024].map(|records| Loaded { records, times: load(records, setting) }));
}

/// Span addresses at the same sizes.
pub fn span_at_table(run: &mut Run, folder: &Folder, setting: &Setting) {
    for records in SIZES {
        for (density, one_in) in DENSITIES {
            let index = build(Kind::Paired, folder, records, one_in);
            let times = span_at(&index, setting);
            run.span_at.push(Searched { records, density, rows: index.row_count(), times });
        }
    }
}

pub const PARTS_RECORDS: u64 = 100_000;

/// Pairs of every shape, in an index without rows.
pub fn parts_table(run: &mut Run, folder: &Folder, setting: &Setting) {
    let index = build(Kind::Paired, folder, PARTS_RECORDS, 0);
    run.parts.extend(SHAPES.map(|shape| Composed { shape, times: parts(&index, shape, setting) }));
}

/// Audits.
pub fn audit_table(run: &mut Run, folder: &Folder, setting: &Setting) {
    run.audit = on(folder, setting, audit);
}

/// How many records are durable, by the number of rows, which the check of 6 goes over.
pub fn durable_table(run: &mut Run, folder: &Folder, setting: &Setting) {
    run.durable = on(folder, setting, durable);
}

/// How cost grows with the index and its rows.
pub fn size_table(run: &mut Run, folder: &Folder, setting: &Setting) {
    for kind in KINDS {
        for (density, one_in) in DENSITIES {
            for records in [1_000, 10_000, 100_000, 1_000_000, 4_000_000] {
                let mut index = build(kind, folder, records, one_in);
                let line = line(&index, density, 32, Spread::OneWindow, setting);
                let open = opening(&mut index, folder, setting);
                let [append, truncation] = storing(&mut index, 100, one_in, setting);
                run.size.push(Sized { line, open, append, truncation });
            }
        }
    }
}

/// How cost grows with the wanted numbers.
pub fn numbers_table(run: &mut Run, folder: &Folder, setting: &Setting) {
    for kind in KINDS {
        let index = build(kind, folder, 1 << 20, 0);
        for n in [1, 2, 4, 8, 16, 32, 33, 64, 128, 256, 512, 1024] {
            for spread in [Spread::OneWindow, Spread::Rising, Spread::AllWindows] {
                run.numbers.push(line(&index, "none", n, spread, setting));
            }
        }
    }
}
