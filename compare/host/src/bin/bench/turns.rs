//! Times of sides that take turns, in seconds a call. Every time is taken around the calls themselves; none is a difference of two.
//! The best time of a turn counts, since the machine is shared.
use std::time::{Duration, Instant};

/// How long the sides of one measurement take turns, and how often each takes every turn at least.
pub struct Setting {
    pub span: Duration,
    pub least: usize,
}

impl Setting {
    fn rounds(&self, least: usize, mut round: impl FnMut(usize)) {
        let begun = Instant::now();
        let mut done = 0;
        while done < least || begun.elapsed() < self.span {
            round(done);
            done += 1;
        }
    }

    pub fn calls(&self, round: impl FnMut(usize)) {
        self.rounds(self.least, round);
    }
}

pub fn spent(f: impl FnOnce()) -> f64 {
    let begun = Instant::now();
    f();
    begun.elapsed().as_secs_f64()
}

/// A side that is called with the place of a list: `group` lists in a turn, from list `from` on.
pub struct Side<'a> {
    pub run: &'a mut dyn FnMut(usize),
    pub group: usize,
    pub from: usize,
}

/// Lists for a turn of about 100 µs: a power of two, half of the lists at most.
pub fn group(lists: usize, run: &mut dyn FnMut(usize)) -> usize {
    let once = (0..4).map(|i| spent(|| run(i))).fold(f64::MAX, f64::min);
    1 << ((1e-4 / once) as usize).clamp(1, lists / 2).ilog2()
}

/// Each side has its best time for every group of its lists; the sum of these goes over all lists.
pub fn over_lists(setting: &Setting, lists: usize, sides: &mut [Side]) -> Vec<f64> {
    let mut best: Vec<Vec<f64>> = sides.iter().map(|side| vec![f64::MAX; lists / side.group]).collect();
    let most = best.iter().map(Vec::len).max().unwrap_or(1);
    setting.rounds(setting.least * most, |round| {
        for (side, best) in sides.iter_mut().zip(&mut best) {
            let at = (side.from / side.group + round) % best.len();
            let time = spent(|| (at * side.group..(at + 1) * side.group).for_each(&mut *side.run));
            best[at] = best[at].min(time);
        }
    });
    best.iter().map(|groups| groups.iter().sum::<f64>() / lists as f64).collect()
}

/// Sides that do the same in every call, in turns of about 100 µs.
pub fn over_calls(setting: &Setting, sides: &mut [&mut dyn FnMut()]) -> Vec<f64> {
    let sizes: Vec<u32> = sides.iter_mut().map(|side| ((1e-4 / spent(&mut **side)) as u32).max(1)).collect();
    let mut best = vec![f64::MAX; sides.len()];
    setting.calls(|_| {
        for ((side, n), best) in sides.iter_mut().zip(&sizes).zip(&mut best) {
            let time = spent(|| (0..*n).for_each(|_| side()));
            *best = best.min(time / f64::from(*n));
        }
    });
    best
}
