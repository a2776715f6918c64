//! Which numbers a reading wants, in which order, and how many lists of them a measurement goes over.
//! Lists come again, but not soon: one that was just read is read again in two thirds of the time, after 64 others as at first.
use host::pick::Pick;

#[derive(Clone, Copy, PartialEq)]
pub enum Spread {
    OneWindow,
    Rising,
    AllWindows,
}

pub const WORKLOADS: [(usize, Spread); 6] = [
    (1, Spread::OneWindow),
    (32, Spread::OneWindow),
    (32, Spread::AllWindows),
    (1024, Spread::OneWindow),
    (1024, Spread::Rising),
    (1024, Spread::AllWindows),
];

impl Spread {
    pub fn name(self) -> &'static str {
        match self {
            Spread::OneWindow => "in 1 window",
            Spread::Rising => "in 1 window, rising",
            Spread::AllWindows => "over all windows",
        }
    }

    /// So many lists that a side has done much else before it meets a list again; fewer where a reading takes long.
    fn list_count(self, n: usize) -> usize {
        match (self, n) {
            (Spread::AllWindows, 0..=8) => 256,
            (Spread::AllWindows, 9..=128) => 64,
            (Spread::AllWindows, _) => 16,
            (_, 0..=64) => 256,
            _ => 64,
        }
    }

    pub fn lists(self, n: usize, records: u64) -> Vec<Vec<u64>> {
        let mut pick = Pick::new(n as u64 * 4 + self as u64);
        (0..self.list_count(n)).map(|_| self.list(n, records, &mut pick)).collect()
    }

    /// Numbers anywhere in one window, or in as many windows as there are numbers, evenly spread; in no order but where they rise.
    fn list(self, n: usize, records: u64, pick: &mut Pick) -> Vec<u64> {
        let windows = (records / 1024).max(1);
        let width = records.min(1024);
        let base = pick.below(windows);
        let step = windows as f64 / n as f64;
        let mut list: Vec<u64> = (0..n)
            .map(|i| {
                let window = match self {
                    Spread::AllWindows => (i as f64 * step) as u64 + pick.below(step.max(1.0) as u64),
                    _ => base,
                };
                1024 * window.min(windows - 1) + 1 + pick.below(width)
            })
            .collect();
        if self == Spread::Rising {
            list.sort_unstable();
            return list;
        }
        for i in (1..list.len()).rev() {
            list.swap(i, pick.size(i + 1));
        }
        list
    }
}
