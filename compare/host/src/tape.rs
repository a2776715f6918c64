//! The original's answers as a list of steps, for a program that replays them without any Rust.
//! A step changes the expected bytes, or makes a call whose number, value, answers and bytes the original gave, or its readings do (`audit.rs`, `carry.rs`).
use crate::areas::{Areas, Kind};
use crate::call::{Batch, Call};
use crate::tally::NUMBERS;

/// Where the three areas begin in the replay's one array of expected bytes, and how long that is.
pub const FROM: [usize; 4] = [0, 4224, 6272, 6400];
/// The most records of a batch and numbers of a reading.
pub const MOST_RECORDS: usize = 1200;
pub const MOST_WANTED: usize = 64;
/// A call at all its places.
pub const ALL: u8 = 255;

mod step {
    pub const END: u8 = 0;
    pub const START: u8 = 1;
    pub const BYTES: u8 = 2;
    pub const FILL: u8 = 3;
    pub const KEEP: u8 = 4;
    pub const BACK: u8 = 5;
    pub const CHECK: u8 = 6;
    pub const CREATE: u8 = 7;
    pub const OPEN: u8 = 8;
    pub const APPEND: u8 = 9;
    pub const TRUNCATE: u8 = 10;
    pub const READ: u8 = 11;
    pub const AUDIT: u8 = 12;
    pub const WITHHELD: u8 = 13;
}

#[derive(Default)]
pub struct Tape {
    pub bytes: Vec<u8>,
    pub calls: u64,
    /// How often each number was the answer.
    pub numbers: [u64; NUMBERS],
    /// How often 17 was that of an append.
    pub unreadable: u64,
    /// Audits: of an index that is not sound, and of one that is.
    pub audits: [u64; 2],
    /// Lengths at which it was asked how many records are durable.
    pub lengths: u64,
    /// Something in the history is too large for the replay's arrays.
    pub unfit: bool,
    held: Option<Areas>,
    kept: Option<Areas>,
}

impl Tape {
    pub fn end(&mut self) {
        self.bytes.push(step::END);
    }

    /// The expected areas are these; only what differs is written.
    pub fn areas(&mut self, kind: Kind, areas: &Areas) {
        let same_sizes = matches!(&self.held, Some(h) if (0..3).all(|p| h[p].len() == areas[p].len()));
        if (0..3).any(|p| areas[p].len() > FROM[p + 1] - FROM[p]) {
            self.unfit = true;
            return;
        }
        if !same_sizes {
            self.bytes.extend([step::START, kind as u8]);
            for area in areas {
                self.bytes.extend((area.len() as u16).to_le_bytes());
            }
            self.held = Some([0, 1, 2].map(|p| vec![0u8; areas[p].len()]));
        }
        let held = self.held.take().expect("areas were started");
        for place in 0..3 {
            self.changes(FROM[place], &held[place], &areas[place]);
        }
        self.held = Some(areas.clone());
    }

    fn changes(&mut self, from: usize, old: &[u8], new: &[u8]) {
        let mut i = 8;
        while i < new.len() {
            if old[i] == new[i] {
                i += 1;
                continue;
            }
            let stretch = (i..new.len()).take_while(|&j| new[j] == new[i + (j - i) % 2]).count();
            let at = (from + i) as u16;
            if stretch >= 8 {
                self.bytes.push(step::FILL);
                self.bytes.extend(at.to_le_bytes());
                self.bytes.extend((stretch as u16).to_le_bytes());
                self.bytes.extend([new[i], new[i + 1]]);
                i += stretch;
                continue;
            }
            // up to four equal bytes in a row, which end a stretch of changes
            let mut to = i + 1;
            while to < new.len() && to - i < 255 && !(to..new.len().min(to + 4)).all(|j| old[j] == new[j]) {
                to += 1;
            }
            self.bytes.push(step::BYTES);
            self.bytes.extend(at.to_le_bytes());
            self.bytes.push((to - i) as u8);
            self.bytes.extend(&new[i..to]);
            i = to;
        }
    }

    /// What is expected now can be had back.
    pub fn keep(&mut self) {
        self.bytes.push(step::KEEP);
        self.kept = self.held.clone();
    }

    pub fn back(&mut self) {
        self.bytes.push(step::BACK);
        self.held = self.kept.clone();
    }

    pub fn create(&mut self, kind: Kind, after: &Areas) {
        self.bytes.push(step::CREATE);
        self.answer(0, 0);
        self.after(kind, after);
    }

    /// A call that stores, at some of its places or all, with the original's number, value and bytes.
    pub fn call(&mut self, kind: Kind, call: &Call, places: u8, number: u64, value: u64, after: &Areas) {
        match call {
            Call::Open => self.bytes.extend([step::OPEN, places]),
            Call::Truncate(count) => {
                self.bytes.extend([step::TRUNCATE, places]);
                self.bytes.extend(count.to_le_bytes());
            }
            Call::Append(batch) => {
                self.unreadable += u64::from(number == 17);
                self.append(batch, places);
            }
            Call::Read(_) => unreachable!("a reading has answers"),
        }
        self.answer(number, value);
        self.after(kind, after);
    }

    fn answer(&mut self, number: u64, value: u64) {
        self.numbers[number as usize] += 1;
        self.bytes.push(number as u8);
        self.bytes.extend(value.to_le_bytes());
    }

    fn after(&mut self, kind: Kind, after: &Areas) {
        self.areas(kind, after);
        self.bytes.push(step::CHECK);
        self.calls += 1;
    }

    /// Records as runs: within one the lengths and counts are equal and the starts follow each other.
    fn append(&mut self, b: &Batch, places: u8) {
        let n = b.starts.len();
        let spans = |i: usize| b.spans.get(i).copied().unwrap_or(0);
        let span_start = |i: usize| b.span_starts.get(i).copied().unwrap_or(0);
        let len = |i: usize| b.lens.get(i).copied().unwrap_or(0);
        if n > MOST_RECORDS || b.lens.len() > MOST_RECORDS || (b.lens.len() > n && b.lens[n..].iter().any(|&l| l != 0))
        {
            self.unfit = true;
        }
        let mut runs: Vec<(usize, usize)> = Vec::new();
        for i in 0..n {
            if let Some((first, count)) = runs.last_mut() {
                let p = i - 1;
                let follows = b.starts[i] == b.starts[p].saturating_add(len(p))
                    && span_start(i) == span_start(p).saturating_add(u64::from(spans(p)) * 8)
                    && len(i) == len(*first)
                    && spans(i) == spans(*first);
                if follows {
                    *count += 1;
                    continue;
                }
            }
            runs.push((i, 1));
        }
        self.bytes.extend([step::APPEND, places]);
        self.bytes.extend((n as u16).to_le_bytes());
        self.bytes.extend((b.lens.len() as u16).to_le_bytes());
        self.bytes.extend((runs.len() as u16).to_le_bytes());
        for (first, count) in runs {
            self.bytes.extend((count as u16).to_le_bytes());
            self.bytes.extend(b.starts[first].to_le_bytes());
            self.bytes.extend(len(first).to_le_bytes());
            self.bytes.extend(span_start(first).to_le_bytes());
            self.bytes.extend(spans(first).to_le_bytes());
        }
    }

    /// A reading: its numbers, the original's number, value and, where it is accepted, all words.
    pub fn read(&mut self, wanted: &[u64], number: u64, value: u64, words: &[u64]) {
        if wanted.len() > MOST_WANTED {
            self.unfit = true;
            return;
        }
        self.bytes.extend([step::READ, wanted.len() as u8]);
        for id in wanted {
            self.bytes.extend(id.to_le_bytes());
        }
        self.answer(number, value);
        if number == 0 {
            for word in words {
                self.bytes.extend(word.to_le_bytes());
            }
        }
        self.calls += 1;
    }

    /// An audit, which is accepted and stores nothing. The original has none: the value comes from its readings (`audit.rs`).
    pub fn audit(&mut self, sound: bool) {
        self.bytes.push(step::AUDIT);
        self.answer(0, u64::from(sound));
        self.audits[usize::from(sound)] += 1;
        self.calls += 1;
    }

    /// How many records are durable where the rows have reached a length.
    pub fn withheld(&mut self, durable: u64, value: u64) {
        self.bytes.push(step::WITHHELD);
        self.bytes.extend(durable.to_le_bytes());
        self.answer(0, value);
        self.lengths += 1;
        self.calls += 1;
    }
}
