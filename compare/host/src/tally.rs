//! How much was compared: calls of each kind, and how often each number came.
//! A run in which some number never came is reported as incomplete.
use crate::areas::Kind;
use crate::call::{What, WHATS};
use crate::port::{Answer, Crossing};
use crate::withheld::{Limit, LIMITS};

/// 0 and the numbers of the table.
pub const NUMBERS: usize = 30;

#[derive(Default)]
pub struct Tally {
    /// How often each number came from each call, by kind.
    numbers: [[[u64; NUMBERS]; 8]; 2],
    /// Openings that stored a length.
    pub repairs: u64,
    /// States that a cut of the original left, all compared.
    pub states: u64,
    pub histories: u64,
    /// Audits by kind: of an index that is not sound, and of one that is.
    pub audits: [[u64; 2]; 2],
    /// Of those that are not, by kind, how many only document 02's condition on rows tells.
    pub by_rows: [u64; 2],
    /// Durable lengths of the rows by kind, and what each was to them.
    limits: [[u64; 7]; 2],
    /// Texts that were read back as listings.
    pub texts: u64,
    /// How often each number came from a listing's calls.
    listings: [u64; NUMBERS],
    /// How often each number came from a search for an address, and how often an index and a remainder that are both not 0.
    addresses: [u64; NUMBERS],
    inner: u64,
    /// How often each number came from pairs, and how many records they gave.
    parts: [u64; NUMBERS],
    needed: u64,
    /// How often each number came from an input of the load's program.
    loads: [u64; NUMBERS],
}

/// What the calls that the original has can give.
const OF_A_CALL: [usize; 21] = [0, 1, 2, 3, 4, 5, 6, 7, 8, 9, 10, 11, 12, 13, 14, 15, 16, 17, 22, 23, 24];

/// What no call of a single index gives: it has no spans.
const OF_SPANS: [usize; 3] = [8, 12, 24];

/// What a listing's calls can give: all but the lists that differ, and what other calls refuse.
const OF_A_LISTING: [usize; 16] = [0, 1, 6, 8, 9, 10, 11, 12, 13, 17, 18, 19, 20, 22, 23, 24];

/// What a search for an address can give.
const OF_AN_ADDRESS: [usize; 5] = [0, 1, 6, 17, 21];

/// What pairs can give.
const OF_PAIRS: [usize; 9] = [0, 1, 6, 7, 15, 16, 27, 28, 29];

/// What an input of the load's program can give.
const OF_A_LOAD: [usize; 4] = [0, 18, 25, 26];

/// Refusals that the documents add: the port's alone, so there is nothing to compare but that they come where these say.
fn added(kind: Kind, what: What, number: usize) -> bool {
    match number {
        1 | 6 | 13 | 15 | 16 | 23 | 24 => true,
        7 => kind == Kind::Paired,
        17 => matches!(what, What::Append | What::TornAppend),
        _ => false,
    }
}

/// How often each of these numbers came.
fn each(numbers: &[usize], counts: &[u64]) -> String {
    let list: Vec<String> = numbers.iter().map(|&n| format!("{n}: {}", counts[n])).collect();
    list.join(", ")
}

impl Tally {
    pub fn note(&mut self, kind: Kind, what: What, number: u64) {
        self.numbers[kind as usize][what as usize][number as usize] += 1;
    }

    pub fn note_limit(&mut self, kind: Kind, limit: Limit) {
        self.limits[kind as usize][limit as usize] += 1;
    }

    pub fn note_listing(&mut self, number: u64) {
        self.listings[number as usize] += 1;
    }

    pub fn note_address(&mut self, (number, [_, index, remainder]): Crossing) {
        self.addresses[number as usize] += 1;
        self.inner += u64::from(index != 0 && remainder != 0);
    }

    pub fn note_parts(&mut self, (number, value): Answer) {
        self.parts[number as usize] += 1;
        self.needed += value;
    }

    pub fn note_load(&mut self, number: u64) {
        self.loads[number as usize] += 1;
    }

    /// Calls whose number is the original's.
    fn calls(&self, kind: Kind, what: What) -> u64 {
        let counts = &self.numbers[kind as usize][what as usize];
        (0..NUMBERS).filter(|&n| !added(kind, what, n)).map(|n| counts[n]).sum()
    }

    fn compared(&self) -> u64 {
        [Kind::Paired, Kind::Single].iter().flat_map(|&kind| WHATS.map(|(what, _)| self.calls(kind, what))).sum()
    }

    fn all(&self) -> u64 {
        self.numbers.iter().flatten().flatten().sum()
    }

    /// How often a number came, whatever the call.
    fn came(&self, kind: Kind, number: usize) -> u64 {
        self.numbers[kind as usize].iter().map(|counts| counts[number]).sum()
    }

    /// How often the last record could not be read for an append.
    fn unreadable(&self, kind: Kind) -> u64 {
        [What::Append, What::TornAppend].iter().map(|&what| self.numbers[kind as usize][what as usize][17]).sum()
    }

    /// Numbers and calls that this comparison is meant to meet and has not.
    pub fn unseen(&self) -> Vec<String> {
        let mut list = Vec::new();
        for kind in [Kind::Paired, Kind::Single] {
            for number in OF_A_CALL {
                let never = kind == Kind::Single && OF_SPANS.contains(&number);
                if !never && self.came(kind, number) == 0 {
                    list.push(format!("{} {number}", kind.name()));
                }
            }
            if self.unreadable(kind) == 0 {
                list.push(format!("{} 17 of an append", kind.name()));
            }
            for (what, name) in WHATS {
                if self.calls(kind, what) == 0 {
                    list.push(format!("{} {name}", kind.name()));
                }
            }
            for (sound, name) in ["unsound", "sound"].into_iter().enumerate() {
                if self.audits[kind as usize][sound] == 0 {
                    list.push(format!("{} audit of {name} areas", kind.name()));
                }
            }
            if self.by_rows[kind as usize] == 0 {
                list.push(format!("{} audit of areas that only their rows make unsound", kind.name()));
            }
            for (limit, name) in LIMITS {
                if self.limits[kind as usize][limit as usize] == 0 {
                    list.push(format!("{} durable length {name}", kind.name()));
                }
            }
        }
        list.extend(OF_A_LISTING.iter().filter(|&&n| self.listings[n] == 0).map(|n| format!("listing {n}")));
        list.extend(OF_AN_ADDRESS.iter().filter(|&&n| self.addresses[n] == 0).map(|n| format!("address {n}")));
        if self.inner == 0 {
            list.push("address with an index and a remainder".into());
        }
        list.extend(OF_PAIRS.iter().filter(|&&n| self.parts[n] == 0).map(|n| format!("pairs {n}")));
        if self.needed == 0 {
            list.push("pairs of which a record needs one".into());
        }
        list.extend(OF_A_LOAD.iter().filter(|&&n| self.loads[n] == 0).map(|n| format!("load {n}")));
        list
    }

    /// How often each number came.
    pub fn numbers(&self) -> String {
        let mut text = String::new();
        for kind in [Kind::Paired, Kind::Single] {
            let list: Vec<String> = (0..NUMBERS)
                .filter(|&n| self.came(kind, n) > 0)
                .map(|n| format!("{n}: {}", self.came(kind, n)))
                .collect();
            let of_appends = self.unreadable(kind);
            text += &format!("numbers, {}: {}; of the 17s {of_appends} are of appends\n", kind.name(), list.join(", "));
        }
        text
    }

    /// How many records are durable: all lengths but 0 were asked of the original.
    pub fn limits(&self) -> String {
        let of = |limit: Limit| self.limits[0][limit as usize] + self.limits[1][limit as usize];
        let list: Vec<String> = LIMITS.iter().map(|&(limit, name)| format!("{name}: {}", of(limit))).collect();
        let all: u64 = self.limits.iter().flatten().sum();
        format!("durable rows: {} lengths agree with the original ({})", all - of(Limit::Zero), list.join(", "))
    }

    /// The listings, which the original does not read back.
    pub fn listings(&self) -> String {
        format!(
            "listings read back: {} calls of {} texts agree with the rules and with append ({})",
            self.listings.iter().sum::<u64>(),
            self.texts,
            each(&OF_A_LISTING, &self.listings)
        )
    }

    /// The addresses, which the original does not look for.
    pub fn addresses(&self) -> String {
        format!(
            "span addresses: {} calls agree with the original's readings ({}), {} of them with an index and a remainder not 0",
            self.addresses.iter().sum::<u64>(),
            each(&OF_AN_ADDRESS, &self.addresses),
            self.inner
        )
    }

    /// The pairs, which the original does not take.
    pub fn parts(&self) -> String {
        format!(
            "pairs: {} calls agree with a search breadth first ({}), which finds {} records",
            self.parts.iter().sum::<u64>(),
            each(&OF_PAIRS, &self.parts),
            self.needed
        )
    }

    /// The loads, which the original does not make.
    pub fn loads(&self) -> String {
        format!(
            "loads: {} inputs agree with the rules ({}), and the {} loads among them with what the original stores",
            self.loads.iter().sum::<u64>(),
            each(&OF_A_LOAD, &self.loads),
            self.loads[0]
        )
    }

    pub fn summary(&self) -> String {
        let of = |kind: Kind| {
            let list: Vec<String> =
                WHATS.iter().map(|(what, name)| format!("{name} {}", self.calls(kind, *what))).collect();
            format!("{}: {}", kind.name(), list.join(", "))
        };
        let [unsound, sound] = [0, 1].map(|sound| self.audits[0][sound] + self.audits[1][sound]);
        let by_rows = self.by_rows[0] + self.by_rows[1];
        format!(
            "comparison with the original: {} calls in {} histories agree ({}; {}), with {} torn states and {} openings that stored, {sound} audits of sound and {unsound} of unsound areas, {by_rows} of which only their rows make so; {} refusals that only the port has",
            self.compared(),
            self.histories,
            of(Kind::Paired),
            of(Kind::Single),
            self.states,
            self.repairs,
            self.all() - self.compared()
        )
    }
}
