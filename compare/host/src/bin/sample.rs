//! Writes a sample of the original's answers for the replay: sample FILE
//! Named cases first, then histories of fixed seeds that fit the replay's arrays, up to a size.
use host::areas::Kind;
use host::judge::Folder;
use host::tally::{Tally, NUMBERS};
use host::tape::Tape;
use host::{history, named};

/// Bytes of the whole file, for which the replay has room for 200,000, and of one history.
const MOST: usize = 180_000;
const MOST_OF_ONE: usize = 1_600;
/// So often each number, an append's 17 and an audit of unsound areas are to come, if the histories have them.
const OF_EACH: u64 = 12;

#[derive(Default)]
struct Sample {
    bytes: Vec<u8>,
    cases: u64,
    answers: u64,
    numbers: [[u64; NUMBERS]; 2],
    unreadable: [u64; 2],
    audits: [[u64; 2]; 2],
    lengths: [u64; 2],
}

impl Sample {
    fn take(&mut self, kind: Kind, tape: &Tape) {
        if tape.unfit || tape.calls == 0 || self.bytes.len() + tape.bytes.len() >= MOST {
            return;
        }
        self.bytes.extend(&tape.bytes);
        self.cases += 1;
        self.answers += tape.calls;
        self.numbers[kind as usize].iter_mut().zip(tape.numbers).for_each(|(sum, n)| *sum += n);
        self.unreadable[kind as usize] += tape.unreadable;
        self.audits[kind as usize].iter_mut().zip(tape.audits).for_each(|(sum, n)| *sum += n);
        self.lengths[kind as usize] += tape.lengths;
    }

    /// Whether the tape has a refusal, or an audit of unsound areas, that the sample lacks.
    fn lacks(&self, kind: Kind, tape: &Tape) -> bool {
        (1..NUMBERS).any(|n| tape.numbers[n] > 0 && self.numbers[kind as usize][n] < OF_EACH)
            || tape.unreadable > 0 && self.unreadable[kind as usize] < OF_EACH
            || tape.audits[0] > 0 && self.audits[kind as usize][0] < OF_EACH
    }
}

fn main() {
    let Some(file) = std::env::args().nth(1) else {
        eprintln!("sample FILE");
        std::process::exit(2);
    };
    let folder = Folder::new();
    let mut tally = Tally::default();
    let mut sample = Sample::default();
    named::run(&folder, &mut tally, true, &mut |kind, tape| sample.take(kind, &tape))
        .expect("no difference in a named case");
    // first the refusals, of which few come by chance, then whatever comes
    for rare in [true, false] {
        for seed in if rare { 1..9_000 } else { 9_000..12_000 } {
            let tape =
                history::taped(seed, &folder, &mut tally, Some(Tape::default())).expect("no difference in a history");
            let tape = tape.expect("a tape was given");
            let kind = history::kind_of(seed);
            if tape.bytes.len() <= MOST_OF_ONE && (!rare || sample.lacks(kind, &tape)) {
                sample.take(kind, &tape);
            }
        }
    }
    sample.bytes.push(0);
    std::fs::write(&file, &sample.bytes).expect("the file can be written");
    println!("{} cases, {} answers, {} bytes", sample.cases, sample.answers, sample.bytes.len());
    for kind in [Kind::Paired, Kind::Single] {
        let list = sample.numbers[kind as usize];
        let list: Vec<String> = (0..NUMBERS).filter(|&n| list[n] > 0).map(|n| format!("{n}: {}", list[n])).collect();
        let [unsound, sound] = sample.audits[kind as usize];
        println!(
            "numbers, {}: {}; of the 17s {} are of appends; audits: {sound} of sound and {unsound} of unsound areas; {} durable lengths",
            kind.name(),
            list.join(", "),
            sample.unreadable[kind as usize],
            sample.lengths[kind as usize]
        );
    }
}
