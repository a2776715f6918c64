//! What a record needs, which the original does not say: plain Rust searches the pairs breadth first, with a set of the records it has met.
//! 1 is told from the areas' sizes, 6 from the original's opening, and the count is the original's.
use crate::areas::{Areas, Kind};
use crate::call::Outcome;
use crate::inputs::Style;
use crate::judge::Folder;
use crate::listing::index;
use crate::named;
use crate::pick::Pick;
use crate::port::{self, Answer};
use crate::tally::Tally;
use std::collections::{BTreeSet, HashSet, VecDeque};

/// Composites and components.
pub type Pairs = (Vec<u64>, Vec<u64>);

/// The answer in an index of so many records, and the records at the front of the buffer: what a user would write from the rules.
pub fn plain(count: u64, (composites, components): (&[u64], &[u64]), record: u64, answers: &mut [u64]) -> Answer {
    let pairs = || composites.iter().zip(components);
    let strange = |id: u64| id == 0 || id > count;
    if composites.len() != components.len() {
        return (7, 0);
    }
    if composites.len() > 1024 {
        return (15, 0);
    }
    if strange(record) || pairs().any(|(&c, &p)| strange(c) || strange(p)) {
        return (27, 0);
    }
    if pairs().any(|(c, p)| p >= c) {
        return (28, 0);
    }
    if pairs().zip(pairs().skip(1)).any(|(one, next)| one >= next) {
        return (29, 0);
    }
    let mut met = HashSet::new();
    let mut open = VecDeque::from([record]);
    while let Some(id) = open.pop_front() {
        let first = composites.partition_point(|&c| c < id);
        for (_, &part) in pairs().skip(first).take_while(|(&c, _)| c == id) {
            if met.insert(part) {
                open.push_back(part);
            }
        }
    }
    if met.len() > answers.len() {
        return (16, 0);
    }
    let found = &mut answers[..met.len()];
    for (word, id) in found.iter_mut().zip(met) {
        *word = id;
    }
    found.sort_unstable();
    (0, found.len() as u64)
}

/// What a buffer holds before a call.
const GARBAGE: u64 = 0x5a5a_0123_4567_89ab;

/// The count of settled areas, or what refuses any pairs.
fn counted(areas: &Areas, folder: &Folder) -> Result<u64, u64> {
    if areas.iter().any(|area| area.len() < 16) {
        return Err(1);
    }
    folder.settled(Kind::Paired, areas).map(|judge| judge.count()).ok_or(6)
}

/// A call on these areas: number, value and every word are as plain Rust has them, and every byte stays as it was.
fn check(
    areas: &Areas,
    count: Result<u64, u64>,
    pairs: &Pairs,
    record: u64,
    words: usize,
    tally: &mut Tally,
) -> Outcome<Answer> {
    let pairs = (&pairs.0[..], &pairs.1[..]);
    let mine = areas.clone();
    let (mut given, mut wanted) = (vec![GARBAGE; words], vec![GARBAGE; words]);
    let answer = port::parts(&mine, pairs, record, &mut given);
    let said = match count {
        Ok(count) => plain(count, pairs, record, &mut wanted),
        Err(number) => (number, 0),
    };
    if (answer, &given) != (said, &wanted) {
        return Err(format!(
            "{record} of {pairs:?}, {words} words: port {answer:?} {given:?}, wanted {said:?} {wanted:?}"
        ));
    }
    if mine != *areas {
        return Err(format!("{record} of {pairs:?}: the port changed an area"));
    }
    tally.note_parts(answer);
    Ok(answer)
}

type Case = (&'static str, Pairs, u64, usize, Answer, Vec<u64>);

/// A name, pairs, a record, words, and what the rules give, in an index of nine records.
fn cases() -> Vec<Case> {
    let of = |pairs: &[(u64, u64)]| -> Pairs { pairs.iter().copied().unzip() };
    let letters = || of(&[(5, 1), (5, 2), (7, 3), (7, 5), (8, 5), (8, 7), (9, 4)]);
    let refused = |name, pairs, record, number| (name, pairs, record, 9, (number, 0), vec![]);
    vec![
        ("no pairs", of(&[]), 9, 0, (0, 0), vec![]),
        ("through others", letters(), 8, 5, (0, 5), vec![1, 2, 3, 5, 7]),
        ("directly", letters(), 9, 3, (0, 1), vec![4]),
        ("a record without parts", letters(), 6, 0, (0, 0), vec![]),
        ("a word too few", letters(), 8, 4, (16, 0), vec![]),
        refused("more than 1,024 that differ in length", (vec![0; 1026], vec![0; 1025]), 0, 7),
        refused("1,025 pairs", (vec![0; 1025], vec![0; 1025]), 0, 15),
        refused("1,024 pairs", (vec![0; 1024], vec![0; 1024]), 1, 27),
        refused("record 0", letters(), 0, 27),
        refused("a record past the count", letters(), 10, 27),
        refused("a composite past the count", of(&[(10, 1)]), 1, 27),
        refused("both past the count", of(&[(11, 10)]), 1, 27),
        refused("component 0 after one that is not below", of(&[(3, 3), (4, 0)]), 1, 27),
        refused("a pair of one number", of(&[(3, 3)]), 3, 28),
        refused("not below, after one that is misplaced", of(&[(4, 2), (3, 1), (5, 6)]), 5, 28),
        refused("composites fall", of(&[(4, 2), (3, 1)]), 4, 29),
        refused("components fall", of(&[(4, 2), (4, 1)]), 4, 29),
        refused("a pair twice", of(&[(4, 2), (4, 2)]), 4, 29),
    ]
}

/// Pairs with the answers that the rules give them.
pub fn named(folder: &Folder, tally: &mut Tally) -> Result<u64, (String, Vec<String>)> {
    let nine = named::areas(Kind::Paired, 9, 0, &[], 0);
    let mut done = 0;
    for (name, pairs, record, words, wanted, list) in cases() {
        let wrong = |message: String| (format!("named pairs, {name}: {message}"), Vec::new());
        let answer = check(&nine, counted(&nine, folder), &pairs, record, words, tally).map_err(wrong)?;
        let mut given = vec![0; words];
        port::parts(&nine, (&pairs.0, &pairs.1), record, &mut given);
        if answer != wanted || given[..list.len()] != list {
            return Err(wrong(format!("port {answer:?} {given:?}, the rules {wanted:?} {list:?}")));
        }
        done += 1;
    }
    Ok(done)
}

/// The pairs of a seed: on an index before an opening and after it.
pub fn run(seed: u64, folder: &Folder, tally: &mut Tally) -> Result<(), (String, Vec<String>)> {
    let mut steps = Vec::new();
    go(&mut Pick::new(seed), folder, tally, &mut steps).map_err(|message| (format!("pairs {message}"), steps))
}

fn go(pick: &mut Pick, folder: &Folder, tally: &mut Tally, steps: &mut Vec<String>) -> Outcome<()> {
    let mut areas = index(&Style::any(pick), pick, steps);
    let mut count = counted(&areas, folder);
    if count == Err(6) {
        check(&areas, count, &pairs(9, pick), 1, 9, tally)?;
        steps.push("open".into());
        port::open(Kind::Paired, &mut areas);
        count = counted(&areas, folder);
    }
    for _ in 0..8 {
        let near = count.unwrap_or(0);
        let mut list = pairs(near, pick);
        let record = match list.0.last() {
            Some(&last) if !pick.one_in(3) => last,
            _ => pick.below(near + 2),
        };
        if pick.one_in(2) {
            spoil(&mut list, near, pick);
        }
        let all = plain(near, (&list.0, &list.1), record, &mut [0; 1024]).1 as usize;
        let words = pick.of(&[all, all, all + 3, all.saturating_sub(1), 0]);
        check(&areas, count, &list, record, words, tally)?;
    }
    Ok(())
}

/// Pairs in their order among the first records of so many: few of them, near 1,024 or past it; chains, stars, or any.
fn pairs(count: u64, pick: &mut Pick) -> Pairs {
    let most = pick.of(&[3, 10, 40, 2000, u64::MAX]).min(count);
    if most < 2 {
        return Pairs::default();
    }
    let small = pick.below(40);
    let n = pick.of(&[0, 1, small, small, 1020 + small % 8]);
    let shape = pick.below(4);
    let pair = |_| {
        let c = 2 + pick.below(most - 1);
        match shape {
            0 => (c, c - 1),
            1 => (most, 1 + pick.below(most - 1)),
            _ => (c, 1 + pick.below(c - 1)),
        }
    };
    (0..n).map(pair).collect::<BTreeSet<_>>().into_iter().unzip()
}

/// One or two changes by which the lists are refused, mostly.
fn spoil((composites, components): &mut Pairs, count: u64, pick: &mut Pick) {
    for _ in 0..pick.of(&[1, 1, 2]) {
        let n = composites.len().min(components.len());
        let (i, j) = (pick.size(n), pick.size(n));
        let number = pick.of(&[0, 1, count, count + 1, u64::MAX]);
        match pick.below(8) {
            0 => composites.push(number),
            1 => drop(components.pop()),
            _ if n == 0 => (composites.push(number), components.push(1)).0,
            2 => composites[i] = number,
            3 => components[i] = number,
            4 => components[i] = composites[i],
            5 => (composites.swap(i, j), components.swap(i, j)).0,
            6 => (composites[i], components[i]) = (composites[j], components[j]),
            _ => {
                let last = (composites[n - 1], components[n - 1]);
                composites.resize(pick.of(&[1024, 1025, 1026]), last.0);
                components.resize(composites.len(), last.1);
            }
        }
    }
}
