//! Pairs of composite and component for a measurement, and the record that is asked for: so many lists of a shape that none is soon met again.
//! The numbers lie among the first 100,000.
use host::parts::Pairs;
use host::pick::Pick;
use std::collections::BTreeSet;

#[derive(Clone, Copy)]
pub enum Shape {
    Few,
    Nothing,
    Chain,
    Star,
    Tree,
    Scattered,
    Dense,
    Clash,
}

pub const SHAPES: [Shape; 8] =
    [Shape::Few, Shape::Nothing, Shape::Chain, Shape::Star, Shape::Tree, Shape::Scattered, Shape::Dense, Shape::Clash];

const LISTS: usize = 16;

impl Shape {
    pub fn name(self) -> &'static str {
        match self {
            Shape::Few => "8, over 16 numbers",
            Shape::Nothing => "1,024, of which none counts",
            Shape::Chain => "1,024, a chain",
            Shape::Star => "1,024 of one composite",
            Shape::Tree => "1,024, two of each composite",
            Shape::Scattered => "1,024, each component of some composite above it",
            Shape::Dense => "1,024 over 60 numbers",
            Shape::Clash => "1,024 over 60 numbers of one place in the table",
        }
    }

    pub fn lists(self) -> Vec<(Pairs, u64)> {
        let mut pick = Pick::new(self as u64);
        (0..LISTS).map(|_| self.list(&mut pick)).collect()
    }

    fn list(self, pick: &mut Pick) -> (Pairs, u64) {
        let base = 1 + pick.below(1000);
        let pairs: BTreeSet<(u64, u64)> = match self {
            Shape::Few => among(8, 16, |i| i, pick),
            Shape::Nothing => among(1024, 2048, |i| 2 * i, pick),
            Shape::Chain => (base..base + 1024).map(|i| (i + 1, i)).collect(),
            Shape::Star => some(1024, || (50_000, 1 + pick.below(49_999))),
            Shape::Tree => (0..1024).map(|i| (base + 1100 - i / 2, base + 1099 - i)).collect(),
            Shape::Scattered => (0..1024)
                .map(|i| (20_007 - 7 * (1 + i / 3 + pick.below(1 + i - i / 3)), 20_000 - 7 * (i + 1)))
                .collect(),
            Shape::Dense => among(1024, 60, |i| i, pick),
            Shape::Clash => {
                let alike: Vec<u64> = (1..100_000).filter(|&id| place(id) == place(base)).collect();
                among(1024, 60, |i| alike[i as usize], pick)
            }
        };
        let last = pairs.iter().last().expect("some pairs").0;
        let record = match self {
            Shape::Nothing => 1 + 2 * pick.below(2048),
            _ => last,
        };
        (pairs.into_iter().unzip(), record)
    }
}

/// Where the call's table of components has a number (crates/loc_parts/src/pass.rt).
fn place(id: u64) -> u64 {
    id % 0x1_0000_0000 * 0x9e37_79b9 / 0x40_0000 % 1024
}

/// Different pairs of so many rising numbers.
fn among(n: usize, numbers: u64, number: impl Fn(u64) -> u64, pick: &mut Pick) -> BTreeSet<(u64, u64)> {
    some(n, || {
        let c = 2 + pick.below(numbers - 1);
        (number(c), number(1 + pick.below(c - 1)))
    })
}

fn some(n: usize, mut pair: impl FnMut() -> (u64, u64)) -> BTreeSet<(u64, u64)> {
    let mut set = BTreeSet::new();
    while set.len() < n {
        set.insert(pair());
    }
    set
}
