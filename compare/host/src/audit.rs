//! Audit, which the original does not have: its value is worked out from the original's own readings.
//! Every record is read; the lengths are summed without a limit and held against the checkpoints' bytes, and each published row's values against its slot's.
use crate::areas::{self, Kind, CHECKPOINTS, ROWS, SLOTS};
use crate::call::Outcome;
use crate::judge::Refusal;
use crate::trial::Trial;

/// What the original's readings show: document 01's conditions, and with them document 02's on published rows.
pub struct Shown {
    pub sums: bool,
    pub sound: bool,
}

/// Body and span length of each record.
type Lengths = Vec<(u64, u64)>;

/// Whether a slot needs a row, and one of these values.
fn wants(kind: Kind, slot: &[u8], (len, span_len): (u64, u64)) -> bool {
    let fits = |byte: u8, value: u64| if byte == 0 { value >= 256 } else { value == u64::from(byte) };
    match kind {
        Kind::Paired => slot.contains(&0) && fits(slot[0], len / 8) && fits(slot[1], span_len / 8),
        Kind::Single => slot == [0, 0] && len / 8 >= 65_536,
    }
}

impl Trial<'_> {
    /// As the original reads them: none where it misses a row, or where a single length is no length any more.
    fn lengths(&self) -> Outcome<Option<Lengths>> {
        let judge = self.judge.as_ref().expect("an opening came first");
        let numbers: Vec<u64> = (1..=areas::count(&self.areas)).collect();
        let mut lengths = Vec::new();
        for window in numbers.chunks(1024) {
            let answers = match judge.read(window) {
                Ok((_, answers)) => answers,
                Err(Refusal::Number(17)) => return Ok(None),
                Err(other) => return Err(format!("reading all records: the original says {other:?}")),
            };
            for answer in answers.chunks(self.kind.words()) {
                match self.kind {
                    Kind::Paired => lengths.push((answer[2], answer[4])),
                    // a difference of saturated sums
                    Kind::Single if answer[1].saturating_add(answer[2]) == u64::MAX => return Ok(None),
                    Kind::Single => lengths.push((answer[2], 0)),
                }
            }
        }
        Ok(Some(lengths))
    }

    /// Whether each checkpoint is the sum of the lengths from 16 on, and both ends stay below 2^64.
    fn adds_up(&self, lengths: &Lengths) -> bool {
        let checkpoints = &self.areas[CHECKPOINTS];
        let stored = |from: usize| u128::from(u64::from_le_bytes(checkpoints[from..from + 8].try_into().unwrap()));
        let width = self.kind.widths()[CHECKPOINTS];
        let (mut body, mut span) = (16u128, 16u128);
        for (before, &(len, span_len)) in lengths.iter().enumerate() {
            body += u128::from(len);
            span += u128::from(span_len);
            if (before + 1) % 1024 == 0 {
                let at = 16 + width * (before / 1024);
                if stored(at) != body || self.kind == Kind::Paired && stored(at + 8) != span {
                    return false;
                }
            }
        }
        body.max(span) <= u128::from(u64::MAX)
    }

    /// Whether every published row is that of a record whose slot wants it: where a slot needs a row, the record's values are the row's.
    fn rows_wanted(&self, lengths: &Lengths) -> bool {
        let width = self.kind.widths()[ROWS];
        let published = &self.areas[ROWS][16..areas::counted(&self.areas[ROWS]) as usize];
        published.chunks(width).all(|row| {
            let number = u64::from_le_bytes(row[..8].try_into().unwrap());
            let within = 1 <= number && number <= lengths.len() as u64;
            let before = number.wrapping_sub(1) as usize;
            within && wants(self.kind, &self.areas[SLOTS][16 + 2 * before..][..2], lengths[before])
        })
    }

    /// Whether the original's readings show a sound index.
    pub fn shown(&self) -> Outcome<Shown> {
        let Some(lengths) = self.lengths()? else {
            return Ok(Shown { sums: false, sound: false });
        };
        let sums = self.adds_up(&lengths);
        Ok(Shown { sums, sound: sums && self.rows_wanted(&lengths) })
    }

    pub fn audit(&mut self) -> Outcome<()> {
        self.steps.push("audit".into());
        let Shown { sums, sound } = self.shown()?;
        let answer = crate::port::audit(self.kind, &self.areas);
        if answer != (0, u64::from(sound)) {
            return Err(format!("audit: port {answer:?}; by the original's readings the index is sound: {sound}"));
        }
        self.tally.audits[self.kind as usize][usize::from(sound)] += 1;
        self.tally.by_rows[self.kind as usize] += u64::from(sums && !sound);
        if let Some(tape) = &mut self.tape {
            tape.audit(sound);
        }
        Ok(())
    }
}
