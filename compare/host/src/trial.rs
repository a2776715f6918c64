//! One history: the port's areas and the original's files go through the same calls.
//! After each call number, value, answer words, counted lengths and all bytes from 8 on are held against each other.
use crate::areas::{self, counted, first_difference, Areas, Kind};
use crate::call::{Batch, Call, Outcome, What};
use crate::carry;
use crate::judge::{Folder, Judge, Refusal};
use crate::port;
use crate::tally::Tally;
use crate::tape::{Tape, ALL};
use original::io_handle::cut_after;

pub struct Trial<'a> {
    pub kind: Kind,
    pub folder: &'a Folder,
    pub tally: &'a mut Tally,
    /// The port's areas; the files have the same bytes between calls.
    pub areas: Areas,
    /// The original, once an opening or a creation has finished.
    pub judge: Option<Judge>,
    pub steps: Vec<String>,
    /// Words that a reading's buffer has beyond what it needs.
    pub beyond: usize,
    /// The original's answers are written down here, if at all.
    pub tape: Option<Tape>,
}

/// What a buffer holds before a reading.
const GARBAGE: u64 = 0x5a5a_0123_4567_89ab;

impl<'a> Trial<'a> {
    pub fn new(kind: Kind, folder: &'a Folder, tally: &'a mut Tally, areas: Areas) -> Self {
        let mut trial =
            Trial { kind, folder, tally, areas: areas.clone(), judge: None, steps: Vec::new(), beyond: 0, tape: None };
        trial.restart(areas);
        trial
    }

    /// Both sides hold these areas, and no opening has been made.
    pub fn restart(&mut self, areas: Areas) {
        self.judge = None;
        self.areas = areas;
        self.folder.put(self.kind, &self.areas);
        if let Some(tape) = &mut self.tape {
            tape.areas(self.kind, &self.areas);
        }
        let lens: Vec<String> = self
            .areas
            .iter()
            .map(|a| format!("{} of {} (stored {})", counted(a), a.len(), areas::stored_len(a)))
            .collect();
        self.steps.push(format!("areas: slots, rows, checkpoints {}", lens.join(", ")));
    }

    /// The original creates its files; the port creates on areas of the same sizes.
    pub fn create(&mut self) -> Outcome<()> {
        self.steps.push("create".into());
        self.judge = None;
        self.folder.remove(self.kind);
        cut_after(u64::MAX);
        let judge =
            Judge::create(self.kind, self.folder.dir()).map_err(|r| format!("create: the original says {r:?}"))?;
        let theirs = self.folder.get(self.kind);
        let mut mine = theirs.clone();
        for area in &mut mine {
            areas::store_len(area, GARBAGE);
        }
        if let Some(tape) = &mut self.tape {
            tape.areas(self.kind, &mine);
            tape.create(self.kind, &theirs);
        }
        let answer = port::create(self.kind, &mut mine);
        if answer != (0, 0) {
            return Err(format!("create: port {answer:?}, original (0, 0)"));
        }
        if let Some(place) = first_difference(&mine, &theirs) {
            return Err(format!("create: {place}"));
        }
        self.areas = mine;
        self.tally.note(self.kind, What::Create, 0);
        self.judge = Some(judge);
        self.lens("create")
    }

    pub fn lens(&self, call: &str) -> Outcome<()> {
        let Some(judge) = &self.judge else { return Ok(()) };
        let mine = [0, 1, 2].map(|place| counted(&self.areas[place]));
        if mine != judge.lens() {
            return Err(format!("{call}: counted lengths: port {mine:?}, original {:?}", judge.lens()));
        }
        if areas::count(&self.areas) != judge.count() {
            return Err(format!("{call}: count: port {}, original {}", areas::count(&self.areas), judge.count()));
        }
        Ok(())
    }

    /// One call on both sides. False where this history cannot go on: the original refused to open or grew a file.
    pub fn call(&mut self, call: &Call) -> Outcome<bool> {
        self.steps.push(call.text());
        match call {
            Call::Open => self.open(),
            Call::Append(batch) => self.append(batch),
            Call::Truncate(count) => self.truncate(*count),
            Call::Read(wanted) => self.read(wanted),
        }
    }

    /// An answer that was just compared: the original's, or the number that its reading of the last record gives.
    pub fn write_down(&mut self, call: &Call, places: u8, answer: port::Answer, after: &Areas) {
        if let Some(tape) = &mut self.tape {
            tape.call(self.kind, call, places, answer.0, answer.1, after);
        }
    }

    fn open(&mut self) -> Outcome<bool> {
        self.judge = None;
        cut_after(u64::MAX);
        let said = Judge::open(self.kind, self.folder.dir());
        let mut mine = self.areas.clone();
        let answer = port::open(self.kind, &mut mine);
        self.agree("open", answer, said.as_ref().map(|judge| judge.count()).map_err(Clone::clone))?;
        self.same_bytes("open", &mine)?;
        self.write_down(&Call::Open, ALL, answer, &mine);
        self.tally.note(self.kind, What::Open, answer.0);
        self.tally.repairs += u64::from(mine != self.areas);
        self.areas = mine;
        self.judge = said.ok();
        self.lens("open")?;
        Ok(self.judge.is_some())
    }

    fn append(&mut self, batch: &Batch) -> Outcome<bool> {
        let mut mine = self.areas.clone();
        let answer = port::append(self.kind, &mut mine, batch);
        let judge = self.judge.as_ref().expect("an opening came first");
        if let Some(number) = carry::refusal(self.kind, judge, batch)? {
            self.not_the_originals("append", answer, number, &mine)?;
            if number != 7 {
                // lists that differ have no place on the tape
                self.write_down(&Call::Append(batch.clone()), ALL, answer, &mine);
            }
            self.tally.note(self.kind, What::Append, number);
            return Ok(true);
        }
        let said = judge.append(batch);
        if answer.0 == 13 {
            // no area grows, and a file does: the original has to have grown one
            self.not_the_originals("append", answer, 13, &mine)?;
            let theirs = self.folder.get(self.kind);
            let grew = (0..3).any(|place| theirs[place].len() > self.areas[place].len());
            if !grew || said.is_err() {
                return Err(format!("append: port {answer:?}, and the original said {said:?} without growing a file"));
            }
            self.tally.note(self.kind, What::Append, 13);
            return Ok(false);
        }
        self.agree("append", answer, said)?;
        self.same_bytes("append", &mine)?;
        self.write_down(&Call::Append(batch.clone()), ALL, answer, &mine);
        self.tally.note(self.kind, What::Append, answer.0);
        self.areas = mine;
        self.lens("append")?;
        Ok(true)
    }

    fn truncate(&mut self, count: u64) -> Outcome<bool> {
        let mut mine = self.areas.clone();
        let answer = port::truncate(self.kind, &mut mine, count);
        let said = self.judge.as_ref().expect("an opening came first").truncate(count);
        self.agree("truncate", answer, said)?;
        self.same_bytes("truncate", &mine)?;
        self.write_down(&Call::Truncate(count), ALL, answer, &mine);
        self.tally.note(self.kind, What::Truncate, answer.0);
        self.areas = mine;
        self.lens("truncate")?;
        Ok(true)
    }

    fn read(&mut self, wanted: &[u64]) -> Outcome<bool> {
        let need = self.kind.words() * wanted.len();
        let mut buffer = vec![GARBAGE; need + self.beyond];
        let answer = port::read(self.kind, &self.areas, wanted, &mut buffer);
        if wanted.len() > 1024 {
            return self.untouched_read(answer, 15, &buffer);
        }
        let judge = self.judge.as_ref().expect("an opening came first");
        let said = judge.read(wanted);
        self.agree("read", answer, said.as_ref().map(|(found, _)| *found).map_err(Clone::clone))?;
        let words = match said {
            Ok((_, words)) => words,
            Err(_) => vec![GARBAGE; need],
        };
        if let Some(at) = (0..need).find(|&i| buffer[i] != words[i]) {
            return Err(format!("read: answer word {at}: port {}, original {}", buffer[at], words[at]));
        }
        if buffer[need..].iter().any(|&word| word != GARBAGE) {
            return Err("read: the port stored words past the answers".into());
        }
        self.tally.note(self.kind, What::Read, answer.0);
        if let Some(tape) = &mut self.tape {
            tape.read(wanted, answer.0, answer.1, &words);
        }
        if need > 0 && self.beyond == 0 {
            // the same with a buffer that is one word short: 16, which the original does not have
            let mut short = vec![GARBAGE; need - 1];
            let answer = port::read(self.kind, &self.areas, wanted, &mut short);
            return self.untouched_read(answer, 16, &short);
        }
        Ok(true)
    }

    fn untouched_read(&mut self, answer: port::Answer, number: u64, buffer: &[u64]) -> Outcome<bool> {
        if answer != (number, 0) {
            return Err(format!("read: port {answer:?} where document 01 has ({number}, 0)"));
        }
        if buffer.iter().any(|&word| word != GARBAGE) {
            return Err(format!("read: the port stored answers and gave {number}"));
        }
        self.tally.note(self.kind, What::Read, number);
        Ok(true)
    }

    /// A call before any opening: 6 just where the original's opening refuses or writes something.
    pub fn cold(&mut self, call: &Call) -> Outcome<()> {
        self.steps.push(format!("without an opening: {}", call.text()));
        self.judge = Judge::settled(self.kind, self.folder.dir());
        if self.judge.is_some() {
            self.call(call)?;
            return Ok(());
        }
        self.folder.put(self.kind, &self.areas);
        let mut mine = self.areas.clone();
        let mut buffer = [GARBAGE; 8];
        let answer = match call {
            Call::Open => return Ok(()),
            Call::Append(batch) => port::append(self.kind, &mut mine, batch),
            Call::Truncate(count) => port::truncate(self.kind, &mut mine, *count),
            Call::Read(wanted) => port::read(self.kind, &mine, wanted, &mut buffer),
        };
        self.not_the_originals("without an opening", answer, 6, &mine)?;
        if buffer != [GARBAGE; 8] {
            return Err("read: the port stored answers and gave 6".into());
        }
        self.not_the_originals("audit without an opening", port::audit(self.kind, &mine), 6, &mine)?;
        self.not_the_originals("durable rows without an opening", port::withheld(self.kind, &mine, 16), 6, &mine)?;
        self.tally.note(self.kind, call.what(), 6);
        Ok(())
    }

    /// An area under 16 bytes: 1 from every call. The original cannot read such a file's header.
    pub fn small(&mut self, place: usize, size: usize) -> Outcome<()> {
        self.steps.push(format!("{} cut to {size} bytes", areas::NAMES[place]));
        let whole = self.areas.clone();
        self.judge = None;
        self.areas[place].truncate(size);
        self.folder.put(self.kind, &self.areas);
        if let Err(Refusal::Number(n)) = Judge::open(self.kind, self.folder.dir()).map(|_| ()) {
            return Err(format!("an area of {size} bytes: the original refuses with {n}"));
        }
        let batch = Batch { starts: vec![16], lens: vec![8], span_starts: vec![16], spans: vec![1] };
        let mut buffer = [GARBAGE; 6];
        let mut mine = self.areas.clone();
        let answers = [
            (What::Create, port::create(self.kind, &mut mine)),
            (What::Open, port::open(self.kind, &mut mine)),
            (What::TornOpen, port::open_run(self.kind, &mut mine, 2)),
            (What::Append, port::append(self.kind, &mut mine, &batch)),
            (What::TornAppend, port::append_run(self.kind, &mut mine, &batch, 2)),
            (What::Truncate, port::truncate(self.kind, &mut mine, 0)),
            (What::TornTruncate, port::truncate_run(self.kind, &mut mine, 0, 2)),
            (What::Read, port::read(self.kind, &mine, &[1], &mut buffer)),
        ];
        for (what, answer) in answers {
            self.not_the_originals("an area under 16 bytes", answer, 1, &mine)?;
            self.tally.note(self.kind, what, 1);
        }
        self.not_the_originals("audit of an area under 16 bytes", port::audit(self.kind, &mine), 1, &mine)?;
        self.not_the_originals("durable rows of such an area", port::withheld(self.kind, &mine, 16), 1, &mine)?;
        if buffer != [GARBAGE; 6] {
            return Err("read: the port stored answers and gave 1".into());
        }
        self.restart(whole);
        Ok(())
    }

    /// The port's refusal is the one that the documents add, and it left everything as it was.
    fn not_the_originals(&self, call: &str, answer: port::Answer, number: u64, mine: &Areas) -> Outcome<()> {
        if answer != (number, 0) {
            return Err(format!("{call}: port {answer:?} where the documents have ({number}, 0)"));
        }
        if *mine != self.areas {
            return Err(format!("{call}: the port refused with {number} and changed an area"));
        }
        Ok(())
    }

    pub fn agree(&self, call: &str, answer: port::Answer, said: Result<u64, Refusal>) -> Outcome<()> {
        let same = match &said {
            Ok(value) => answer == (0, *value),
            Err(Refusal::Number(number)) => answer == (*number, 0),
            Err(Refusal::Other(_)) => false,
        };
        if same {
            Ok(())
        } else {
            Err(format!("{call}: port (number, value) {answer:?}, original {said:?}"))
        }
    }

    pub fn same_bytes(&self, call: &str, mine: &Areas) -> Outcome<()> {
        for place in 0..3 {
            if mine[place][..8] != self.areas[place][..8] {
                return Err(format!("{call}: the port changed bytes 0 to 7 of the {}", areas::NAMES[place]));
            }
        }
        match first_difference(mine, &self.folder.get(self.kind)) {
            Some(place) => Err(format!("{call}: {place}")),
            None => Ok(()),
        }
    }
}
