//! Calls that stop on the way: the port at fewer places, the original cut after fewer of its writes.
//! Every state of the one has to be a state of the other, in the same order.
use crate::areas::{self, counted, first_difference, Areas};
use crate::call::{Call, Outcome, What};
use crate::carry;
use crate::judge::{Judge, Refusal};
use crate::pick::Pick;
use crate::port;
use crate::trial::Trial;
use original::io_handle::{cut_after, writes, Write};

impl Trial<'_> {
    /// Compares all tears of a call and leaves both sides in one of them, with no opening made.
    /// False where the call is refused: then nothing was torn, and nothing changed.
    pub fn torn(&mut self, call: &Call, pick: &mut Pick) -> Outcome<bool> {
        let (name, what, last) = match call {
            Call::Open => ("torn open", What::TornOpen, 6),
            Call::Append(_) => ("torn append", What::TornAppend, 4),
            Call::Truncate(_) => ("torn truncate", What::TornTruncate, 3),
            Call::Read(_) => unreachable!("a reading stores nothing"),
        };
        self.steps.push(format!("{name}: {call:?}").chars().take(400).collect());
        let before = self.areas.clone();
        let mine: Vec<(port::Answer, Areas)> = (0..=last + 1).map(|places| self.port_run(call, places)).collect();
        if let Call::Append(batch) = call {
            let judge = self.judge.as_ref().expect("an opening came first");
            if let Some(number) = carry::refusal(self.kind, judge, batch)? {
                return self.refused(name, what, number, &mine);
            }
        }

        // the original, whole, to see its writes
        let (said, list, judge) = self.original_cut(call, u64::MAX);
        let number = mine[0].0 .0;
        let grew = number == 13;
        if number != 0 {
            let refused = matches!(&said, Err(Refusal::Number(n)) if *n == number);
            if !grew && (!refused || !list.is_empty()) {
                return Err(format!("{name}: port refuses with {number}, original {said:?}, {} writes", list.len()));
            }
            return self.refused(name, what, number, &mine);
        }
        self.agree(name, mine[last as usize].0, said)?;

        let theirs: Vec<Areas> = (0..=list.len() as u64).map(|k| self.state_after(call, k)).collect();
        let bytes = list.iter().filter(|write| write.offset != 8).count();
        match call {
            Call::Open => same_order(&mine, &theirs)?,
            _ => {
                let places = places_of(call, &list, &judge.expect("an accepted call"))?;
                for (s, (answer, areas)) in mine.iter().enumerate() {
                    let k = places.iter().filter(|&&place| place < s).count();
                    if let Some(place) = first_difference(areas, &theirs[k]) {
                        return Err(format!("{name}: {s} places against {k} of the original's writes: {place}"));
                    }
                    if *answer != (0, areas::count(&theirs[k])) {
                        let held = areas::count(&theirs[k]);
                        return Err(format!("{name}: {s} places: port {answer:?}, the original's files hold {held}"));
                    }
                }
            }
        }
        if let Some(tape) = &mut self.tape {
            tape.keep();
        }
        for (s, (answer, areas)) in mine.iter().enumerate() {
            if let Some(tape) = &mut self.tape {
                tape.back();
            }
            self.write_down(call, s as u8, *answer, areas);
        }
        self.tally.note(self.kind, what, 0);
        self.tally.states += theirs.len() as u64;

        // go on from one of the original's states, inside its byte writes too
        let k = pick.size(theirs.len());
        let mut left = theirs[k].clone();
        if matches!(call, Call::Append(_)) && k <= bytes && pick.one_in(2) {
            // inside the byte stores everything past the old lengths may hold anything
            for (area, old) in left.iter_mut().zip(&before) {
                let from = counted(old) as usize;
                let most = (area.len() - from).min(64);
                for byte in &mut area[from..from + most] {
                    if pick.one_in(3) {
                        let any = pick.word() as u8;
                        *byte = pick.of(&[0, 0, 1, 2, 255, any]);
                    }
                }
            }
        }
        self.steps.push(format!("torn after {k} of {} writes", list.len()));
        self.restart(left);
        Ok(true)
    }

    /// Refused with this number, however many places there are, and nothing stored.
    fn refused(&mut self, name: &str, what: What, number: u64, mine: &[(port::Answer, Areas)]) -> Outcome<bool> {
        if let Some(s) = mine.iter().position(|(answer, areas)| *answer != (number, 0) || *areas != self.areas) {
            let answer = mine[s].0;
            return Err(format!("{name}: {s} places: port {answer:?} where ({number}, 0) is due, or a store was made"));
        }
        self.tally.note(self.kind, what, number);
        self.judge = None;
        self.folder.put(self.kind, &self.areas);
        Ok(false)
    }

    fn port_run(&self, call: &Call, places: u64) -> (port::Answer, Areas) {
        let mut areas = self.areas.clone();
        let answer = match call {
            Call::Open => port::open_run(self.kind, &mut areas, places),
            Call::Append(batch) => port::append_run(self.kind, &mut areas, batch, places),
            Call::Truncate(count) => port::truncate_run(self.kind, &mut areas, *count, places),
            Call::Read(_) => unreachable!(),
        };
        (answer, areas)
    }

    /// The original's call on these areas, with its writes lost after the first `n`.
    fn original_cut(&mut self, call: &Call, n: u64) -> (Result<u64, Refusal>, Vec<Write>, Option<Judge>) {
        self.judge = None;
        self.folder.put(self.kind, &self.areas);
        cut_after(u64::MAX);
        let opened = match call {
            Call::Open => None,
            _ => Some(Judge::open(self.kind, self.folder.dir()).ok().expect("these areas were opened before")),
        };
        cut_after(n);
        let (said, judge) = match (call, opened) {
            (Call::Append(batch), Some(judge)) => (judge.append(batch), Some(judge)),
            (Call::Truncate(count), Some(judge)) => (judge.truncate(*count), Some(judge)),
            _ => match Judge::open(self.kind, self.folder.dir()) {
                Ok(judge) => (Ok(judge.count()), Some(judge)),
                Err(refusal) => (Err(refusal), None),
            },
        };
        let list = writes();
        cut_after(u64::MAX);
        (said, list, judge)
    }

    fn state_after(&mut self, call: &Call, n: u64) -> Areas {
        let _ = self.original_cut(call, n);
        self.folder.get(self.kind)
    }
}

/// The place, counted from 0, of each of the original's writes; they have to come in the order of document 01.
fn places_of(call: &Call, list: &[Write], judge: &Judge) -> Outcome<Vec<usize>> {
    let mut places = Vec::new();
    for write in list {
        let area = judge.place_of(write).ok_or("the original wrote to a file that is none of the three")?;
        places.push(match call {
            Call::Append(_) if write.offset >= 16 => 0,
            Call::Append(_) => 1 + area,
            _ => 2 - area,
        });
    }
    if places.windows(2).any(|pair| pair[1] < pair[0]) {
        return Err(format!("the original's writes come in another order than document 01's places: {places:?}"));
    }
    Ok(places)
}

/// An opening truncates twice, and a write does not say for which: the states in their order are compared.
fn same_order(mine: &[(port::Answer, Areas)], theirs: &[Areas]) -> Outcome<()> {
    let mut distinct: Vec<&Areas> = Vec::new();
    for (s, (answer, areas)) in mine.iter().enumerate() {
        if *answer != (0, areas::count(areas)) {
            return Err(format!("torn open: {s} places: port {answer:?}, its areas hold {}", areas::count(areas)));
        }
        if distinct.last() != Some(&areas) {
            distinct.push(areas);
        }
    }
    if distinct.len() != theirs.len() {
        return Err(format!("torn open: {} states, the original has {}", distinct.len(), theirs.len()));
    }
    for (k, (a, b)) in distinct.iter().zip(theirs).enumerate() {
        if let Some(place) = first_difference(a, b) {
            return Err(format!("torn open: state {k}: {place}"));
        }
    }
    Ok(())
}
