//! An index for the benchmark, with the same bytes in the port's areas and in the original's files.
//! Records follow from the sizes by a seed, so that every run has the same data.
use host::areas::{empty, pieces, Areas, Kind, ROWS};
use host::call::Batch;
use host::judge::{Folder, Judge};
use host::pick::Pick;
use host::port;

pub struct Index {
    pub kind: Kind,
    pub records: u64,
    pub areas: Areas,
    pub judge: Judge,
    pub ends: (u64, u64),
}

impl Index {
    pub fn row_count(&self) -> usize {
        pieces(self.kind, &self.areas, ROWS)
    }
}

pub const KINDS: [Kind; 2] = [Kind::Paired, Kind::Single];

/// How many records have rows, and one in how many that is.
pub const DENSITIES: [(&str, u64); 3] = [("none", 0), ("1 %", 100), ("10 %", 10)];

/// Records in a row; a row once in `rows_one_in`, none for 0.
pub fn batch(kind: Kind, pick: &mut Pick, n: usize, rows_one_in: u64, ends: &mut (u64, u64)) -> Batch {
    let mut b = Batch::default();
    for _ in 0..n {
        let long = rows_one_in > 0 && pick.one_in(rows_one_in);
        let strides = match (kind, long) {
            (Kind::Paired, false) => 1 + pick.below(255),
            (Kind::Paired, true) => 256 + pick.below(1000),
            (Kind::Single, false) => 1 + pick.below(65_535),
            (Kind::Single, true) => 65_536 + pick.below(1000),
        };
        b.starts.push(ends.0);
        b.lens.push(8 * strides);
        ends.0 += 8 * strides;
        if kind == Kind::Paired {
            let spans = 1 + pick.below(255);
            b.span_starts.push(ends.1);
            b.spans.push(spans as u32);
            ends.1 += 8 * spans;
        }
    }
    b
}

/// An index of so many records, with room for 4,096 more, in memory and in the original's files.
pub fn build(kind: Kind, folder: &Folder, records: u64, rows_one_in: u64) -> Index {
    let widths = kind.widths();
    let all = records as usize + 4096;
    let most_rows = if rows_one_in == 0 { 4096 } else { all / rows_one_in as usize * 2 + 8192 };
    let mut areas = empty([16 + 2 * all, 16 + widths[1] * most_rows, 16 + widths[2] * (all / 1024 + 8)]);
    let mut pick = Pick::new(records ^ rows_one_in);
    let mut ends = (16, 16);
    let mut left = records as usize;
    while left > 0 {
        let n = left.min(1 << 18);
        let b = batch(kind, &mut pick, n, rows_one_in, &mut ends);
        assert_eq!(port::append(kind, &mut areas, &b).0, 0);
        left -= n;
    }
    folder.put(kind, &areas);
    let judge = Judge::open(kind, folder.dir()).ok().expect("a sound index");
    assert_eq!(judge.count(), records);
    Index { kind, records, areas, judge, ends }
}
