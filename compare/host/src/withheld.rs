//! How many records are durable: the original's own answer where its row file has reached the medium up to a length.
//! Every length from 0 to past the end of few rows; of many, those around the first, the middle and the last ones.
use crate::areas::{counted, ROWS};
use crate::call::Outcome;
use crate::port;
use crate::trial::Trial;

/// What a length is to the rows, and what the original then gives.
#[derive(Clone, Copy)]
pub enum Limit {
    Zero,
    Below16,
    Between,
    Cut,
    Uncut,
    AtEnd,
    Past,
}

pub const LIMITS: [(Limit, &str); 7] = [
    (Limit::Zero, "0"),
    (Limit::Below16, "below 16"),
    (Limit::Between, "between edges"),
    (Limit::Cut, "on an edge that cuts"),
    (Limit::Uncut, "on an edge that does not"),
    (Limit::AtEnd, "at the end"),
    (Limit::Past, "past it"),
];

/// Rows up to which every length is asked.
const FEW: u64 = 6;

impl Trial<'_> {
    fn row_width(&self) -> u64 {
        self.kind.widths()[ROWS] as u64
    }

    /// The lengths that are asked.
    fn lengths_asked(&self) -> Vec<u64> {
        let (end, width) = (counted(&self.areas[ROWS]), self.row_width());
        let rows = (end - 16) / width;
        let mut list: Vec<u64> = if rows <= FEW {
            (0..end).collect()
        } else {
            let near = |row: u64| {
                let edge = 16 + row * width;
                [edge - 1, edge, edge + 1, edge + 8]
            };
            (0..20).chain([0, 1, 2, rows / 2, rows - 2, rows - 1].into_iter().flat_map(near)).collect()
        };
        list.extend([end - 1, end, end + 1, end + width, u64::MAX]);
        list
    }

    fn limit_of(&self, durable: u64, value: u64) -> Limit {
        let end = counted(&self.areas[ROWS]);
        match durable {
            0 => Limit::Zero,
            _ if durable > end => Limit::Past,
            _ if durable == end => Limit::AtEnd,
            1..=15 => Limit::Below16,
            _ if (durable - 16) % self.row_width() != 0 => Limit::Between,
            _ if value == crate::areas::count(&self.areas) => Limit::Uncut,
            _ => Limit::Cut,
        }
    }

    /// Both sides at one length. Length 0 gives 0, which the original cannot be asked.
    pub fn withheld_at(&mut self, durable: u64) -> Outcome<u64> {
        let judge = self.judge.as_ref().expect("an opening came first");
        let said = if durable == 0 {
            Ok(0)
        } else {
            judge.withhold(durable);
            let said = judge.withheld_ovf_limit();
            judge.catch_up();
            said
        };
        let answer = port::withheld(self.kind, &self.areas, durable);
        self.agree(&format!("rows durable up to {durable}"), answer, said)?;
        self.tally.note_limit(self.kind, self.limit_of(durable, answer.1));
        Ok(answer.1)
    }

    pub fn withheld(&mut self) -> Outcome<()> {
        self.steps.push("how many records are durable, at lengths of the rows".into());
        for durable in self.lengths_asked() {
            self.withheld_at(durable)?;
        }
        let end = counted(&self.areas[ROWS]);
        let last = (end - self.row_width()).max(16);
        for durable in [15, 16, 17, last, end] {
            let value = self.withheld_at(durable)?;
            if let Some(tape) = &mut self.tape {
                tape.withheld(durable, value);
            }
        }
        Ok(())
    }
}
