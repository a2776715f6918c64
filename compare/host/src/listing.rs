//! Listings read back into a paired index, which the original does not do: a reader in plain Rust says what a text is.
//! What it refuses the port refuses with the same number, and what does not carry on too; of the rest the port's append of the batch shows what is stored, at every place.
use crate::areas::{self, empty, Areas, Kind};
use crate::call::{Batch, Outcome};
use crate::carry;
use crate::damage::damage;
use crate::inputs::{batch, composed, starts, Style};
use crate::judge::Folder;
use crate::pick::Pick;
use crate::port;
use crate::tally::Tally;

const NAMES: &str = "record body_start body_len span_start span_len spans\n";
const MOST_LINES: usize = 1024;

/// The listing of a batch, its records numbered from `first` on.
pub fn print(b: &Batch, first: u64) -> String {
    let mut text = NAMES.to_string();
    for (i, &spans) in b.spans.iter().enumerate() {
        let (start, len, span_start) = (b.starts[i], b.lens[i], b.span_starts[i]);
        let (number, span_len) = (first.wrapping_add(i as u64), 8 * u64::from(spans));
        text += &format!("{number} {start} {len} {span_start} {span_len} {spans}\n");
    }
    text
}

/// What a text says to an index of so many records: a batch, or the number of its refusal.
pub fn read(text: &[u8], count: u64) -> Result<Batch, u64> {
    let lines = text.strip_prefix(NAMES.as_bytes()).ok_or(18u64)?;
    let mut b = Batch::default();
    for (i, line) in lines.split_inclusive(|&byte| byte == b'\n').enumerate() {
        if i == MOST_LINES {
            return Err(18);
        }
        let [number, start, len, span_start, span_len, spans] = fields(line).ok_or(18u64)?;
        let spans = u32::try_from(spans).map_err(|_| 18u64)?;
        if number != count + 1 + i as u64 {
            return Err(19);
        }
        if span_len != 8 * u64::from(spans) {
            return Err(20);
        }
        b.starts.push(start);
        b.lens.push(len);
        b.span_starts.push(span_start);
        b.spans.push(spans);
    }
    Ok(b)
}

/// Six numbers parted by one space each, and a line feed.
fn fields(line: &[u8]) -> Option<[u64; 6]> {
    let mut words = std::str::from_utf8(line.strip_suffix(b"\n")?).ok()?.split(' ');
    let mut six = [0; 6];
    for number in &mut six {
        *number = decimal(words.next()?)?;
    }
    words.next().is_none().then_some(six)
}

/// A number of 64 bits: digits, and no 0 before others. Rust's own reading takes a sign and zeros too.
pub fn decimal(word: &str) -> Option<u64> {
    let formed = word.bytes().all(|byte| byte.is_ascii_digit()) && (word == "0" || !word.starts_with('0'));
    word.parse().ok().filter(|_| formed)
}

/// What follows the names line, and the number that an empty index with room for two records, one row and no checkpoint gives.
const NAMED: [(&str, u64); 46] = [
    ("", 0),
    ("1 16 40 16 24 3\n", 0),
    ("1 16 40 16 24 3\n2 56 2048 40 8 1\n", 0),
    ("1 16 8 16 34359738360 4294967295\n", 0),
    ("1 16 40 16 24 3", 18),
    ("1 16 40 16 24 3\r\n", 18),
    ("1 16 40 16 24\n", 18),
    ("1 16 40 16 24 3 0\n", 18),
    ("1 16 40 16 24 3 \n", 18),
    (" 1 16 40 16 24 3\n", 18),
    ("1  16 40 16 24 3\n", 18),
    ("1\t16 40 16 24 3\n", 18),
    ("1 16 40 16 24 +3\n", 18),
    ("1 16 040 16 24 3\n", 18),
    ("1 00 40 16 24 3\n", 18),
    ("1 18446744073709551616 8 16 8 1\n", 18),
    ("1 16 8 16 34359738368 4294967296\n", 18),
    ("1 16 40 16 24 3\n\n", 18),
    ("\n1 16 40 16 24 3\n", 18),
    ("0 16 40 16 24 3\n", 19),
    ("2 16 40 16 24 3\n", 19),
    ("1 16 40 16 24 3\n1 56 2048 40 8 1\n", 19),
    ("1 16 40 16 24 3\n3 56 2048 40 8 1\n", 19),
    ("1 16 40 16 25 3\n", 20),
    ("2 16 040 16 25 3\n", 18),
    ("2 16 40 16 25 3\n", 19),
    ("1 16 40 16 25 3\n2 56 02048 40 8 1\n", 20),
    ("1 16 0 16 0 0\n2 56 2048 40 9 1\n", 20),
    ("2 24 40 24 24 3\n", 19),
    ("1 24 40 24 25 3\n", 20),
    ("1 0 8 18446744073709551615 34359738360 4294967295\n", 23),
    ("1 24 40 16 24 3\n", 23),
    ("1 24 40 24 24 3\n", 23),
    ("1 24 0 24 0 0\n", 23),
    ("1 24 40 16 24 3\n2 57 2048 41 8 1\n3 2104 8 48 8 1\n", 23),
    ("1 16 40 24 24 3\n", 24),
    ("1 16 0 24 0 0\n", 24),
    ("1 16 8 18446744073709551615 34359738360 4294967295\n", 24),
    ("1 16 0 16 0 0\n", 8),
    ("1 16 0 16 8 1\n", 22),
    ("1 16 7 16 8 1\n", 9),
    ("1 16 12 16 8 1\n2 28 0 24 8 1\n", 9),
    ("1 16 40 16 24 3\n2 56 0 40 0 0\n", 8),
    ("1 16 0 16 8 1\n2 56 2048 40 8 1\n", 22),
    ("1 16 40 16 24 3\n2 57 2048 41 8 1\n", 11),
    ("1 16 40 16 24 3\n2 56 2048 40 8 1\n3 2104 8 48 8 1\n", 13),
];

/// Texts with the numbers that the rules give them.
pub fn named(folder: &Folder, tally: &mut Tally) -> Result<u64, (String, Vec<String>)> {
    let areas = empty([20, 32, 16]);
    for (lines, number) in NAMED {
        let wrong = |message: String| (format!("named listing: {message}"), vec![format!("{lines:?}")]);
        let states = check(&areas, format!("{NAMES}{lines}").as_bytes(), folder, tally).map_err(wrong)?;
        let (answer, _) = states[0];
        if answer.0 != number {
            return Err(wrong(format!("port {}, the rules {number}", answer.0)));
        }
    }
    Ok(NAMED.len() as u64)
}

/// Texts to one index.
const TEXTS: usize = 8;

/// The listings of a seed: an index, and texts that are right or spoilt.
pub fn run(seed: u64, folder: &Folder, tally: &mut Tally) -> Result<(), (String, Vec<String>)> {
    let mut steps = Vec::new();
    go(&mut Pick::new(seed), folder, tally, &mut steps).map_err(|message| (format!("listing: {message}"), steps))
}

fn go(pick: &mut Pick, folder: &Folder, tally: &mut Tally, steps: &mut Vec<String>) -> Outcome<()> {
    let style = Style::any(pick);
    let mut areas = index(&style, pick, steps);
    for _ in 0..TEXTS {
        if pick.one_in(2) {
            steps.push("open".into());
            port::open(Kind::Paired, &mut areas);
        }
        let mut text = any_text(&areas, &style, pick, steps);
        // what stands in memory behind a text is no part of it
        let n = text.len();
        text.extend_from_slice(pick.of(&["\n", "1\n", " 1\n"]).as_bytes());
        let mut states = check(&areas, &text[..n], folder, tally)?;
        if pick.one_in(3) {
            let k = pick.size(states.len());
            steps.push(format!("on from call {k}"));
            areas = states.swap_remove(k).1;
        }
    }
    Ok(())
}

/// An index of some size, with room for a listing or for little; at times damaged, or with an area under 16 bytes.
pub fn index(style: &Style, pick: &mut Pick, steps: &mut Vec<String>) -> Areas {
    let mut areas = composed(Kind::Paired, style, pick);
    if pick.one_in(2) {
        for (area, width) in areas.iter_mut().zip(Kind::Paired.widths()) {
            area.resize(area.len() + width * 1100, pick.of(&[0, 0, 1, 255]));
        }
    }
    for _ in 0..pick.of(&[0, 0, 0, 1, 2]) {
        steps.push(format!("damage: {}", damage(Kind::Paired, &mut areas, pick)));
    }
    if pick.one_in(25) {
        areas[pick.size(3)].truncate(pick.size(16));
    }
    steps.push(format!("areas of {:?} bytes", [0, 1, 2].map(|place| areas[place].len())));
    areas
}

/// The listing of some records, mostly the next ones of the index, with up to three faults.
fn any_text(areas: &Areas, style: &Style, pick: &mut Pick, steps: &mut Vec<String>) -> Vec<u8> {
    let count = if areas.iter().any(|area| area.len() < 16) { 0 } else { areas::count(areas) };
    let b = records(areas, count, style, pick);
    let any = pick.below(3000);
    let first = if pick.one_in(10) { pick.of(&[0, 1, count, count + 2, any, u64::MAX]) } else { count + 1 };
    steps.push(format!("listing of {} records from {first} on, count {count}", b.spans.len()));
    let mut lines: Vec<Vec<u8>> = print(&b, first).split_inclusive('\n').map(|line| line.as_bytes().to_vec()).collect();
    let mut at = pick.size(lines.len());
    for _ in 0..pick.of(&[0, 0, 1, 1, 1, 2, 2, 3]) {
        if pick.one_in(2) {
            at = pick.size(lines.len());
        }
        if let Some(line) = lines.get(at).filter(|line| !line.is_empty()) {
            let place = pick.size(line.len());
            steps.push(format!("line {at}: {}", spoil(&mut lines, at, place, pick)));
        }
    }
    lines.concat()
}

/// Records as a history's, in whole: a listing has no lists that could differ in length.
fn records(areas: &Areas, count: u64, style: &Style, pick: &mut Pick) -> Batch {
    let any = pick.size(60);
    let n = if pick.one_in(10) {
        pick.of(&[300, 1022, 1023, 1024, 1024, 1025, 1026])
    } else {
        pick.of(&[0, 1, 1, 2, 2, 3, 8, any])
    };
    let starts = starts(Kind::Paired, areas, count, style, pick);
    let mut b = batch(Kind::Paired, style, pick, n, starts);
    let whole = b.starts.len().min(b.lens.len()).min(b.span_starts.len()).min(b.spans.len());
    b.starts.truncate(whole);
    b.lens.truncate(whole);
    b.span_starts.truncate(whole);
    b.spans.truncate(whole);
    b
}

/// A fault in a line or in the order of lines, or what is none but nearly one.
fn spoil(lines: &mut Vec<Vec<u8>>, at: usize, byte: usize, pick: &mut Pick) -> &'static str {
    let other = pick.size(lines.len());
    let any = pick.of(b"0123456789 \n\r\t+-.:/rs\0\x80\xff");
    match pick.below(26) {
        0 => {
            lines[at][byte] = any;
            "a byte changed"
        }
        1 => {
            lines[at].insert(byte, any);
            "a byte inserted"
        }
        2 => {
            lines[at].remove(byte);
            "a byte removed"
        }
        3 => {
            lines.truncate(at + 1);
            lines[at].truncate(byte);
            "the text cut here"
        }
        4 => {
            lines.remove(at);
            "removed"
        }
        5 => {
            let line = lines[at].clone();
            lines.insert(pick.of(&[at, other]), line);
            "there twice"
        }
        6 => {
            lines.swap(at, other);
            "swapped with another"
        }
        7 => {
            let line = pick.of(&["\n", " \n", "\r\n", "0\n", NAMES]);
            lines.insert(at, line.as_bytes().to_vec());
            "a line before it"
        }
        8 => {
            let end = pick.of(&["\n", "\r\n", " ", "0", "\0", "\u{1a}"]);
            lines.push(end.as_bytes().to_vec());
            "more after the last"
        }
        9 => {
            lines.last_mut().expect("there is a line").pop();
            "no last line feed"
        }
        10 => {
            let those = if pick.one_in(2) { 0..lines.len() } else { at..at + 1 };
            for line in &mut lines[those] {
                line.insert(line.len().saturating_sub(1), b'\r');
            }
            "a carriage return before the line feed"
        }
        11 => {
            let spaces: Vec<usize> = (0..lines[at].len()).filter(|&i| lines[at][i] == b' ').collect();
            if let Some(&space) = spaces.get(pick.size(spaces.len() + 1)) {
                lines[at][space] = pick.of(b"\t\t\n\r,");
                return "another byte for a space";
            }
            lines.clear();
            "and all others removed"
        }
        sort => {
            let mut words: Vec<String> =
                String::from_utf8_lossy(&lines[at]).trim_end_matches('\n').split(' ').map(String::from).collect();
            let what = spoil_words(sort, &mut words, pick);
            lines[at] = (words.join(" ") + "\n").into_bytes();
            what
        }
    }
}

/// The same for the fields of a line.
fn spoil_words(sort: u64, words: &mut Vec<String>, pick: &mut Pick) -> &'static str {
    let place = pick.size(words.len());
    let value: u64 = words[place].parse().unwrap_or(0);
    match sort {
        12 => {
            words[place].insert(0, pick.of(&['0', '0', '+', '-', ' ', '\t']));
            "something before a field"
        }
        13 => {
            words[place].push(pick.of(&['0', ' ', '\t', '\r', '.', ',']));
            "something after a field"
        }
        14 => {
            words.remove(place);
            "a field fewer"
        }
        15 => {
            words.insert(place, pick.of(&["", "0", "1"]).into());
            "a field more"
        }
        16 => {
            // the same number again where only the lower bits are kept
            let width = pick.of(&[32, 64]);
            words[place] = (u128::from(value) + (u128::from(1 + pick.below(9)) << width)).to_string();
            "a field past its width"
        }
        17 => {
            let limit = pick.of(&[1 << 32, 1 << 64]);
            words[place] = pick.of(&[limit - 1, limit, limit + 1, 10 * limit, 0u128]).to_string();
            "a field at a limit"
        }
        18 => {
            words[place] = words[place].repeat(2 + pick.size(40));
            "a field many times over"
        }
        19 if words.len() == 6 => {
            let spans = pick.of(&[0, 1, 255, 256, (1 << 32) - 1, 1 << 32, (1 << 32) + 1u64]);
            words[4] = (8 * spans).to_string();
            words[5] = spans.to_string();
            "another span count"
        }
        // what is left changes the record number, the span length or both
        _ if words.len() == 6 => {
            for (place, but) in [(0, 1), (4, 0)] {
                if sort % 3 != but {
                    let by = pick.of(&[1, 8, u64::MAX, u64::MAX - 7, 1 << 32, 1 << 63]);
                    words[place] = words[place].parse().unwrap_or(0u64).wrapping_add(by).to_string();
                }
            }
            "another record number or span length"
        }
        _ => "nothing",
    }
}

/// The numbers of places, and the call that makes all.
const CALLS: [Option<u64>; 8] = [Some(0), Some(1), Some(2), Some(3), Some(4), Some(5), Some(u64::MAX), None];

/// What a text says to these areas: a batch for append to look at record by record, or the number of its refusal.
fn said(areas: &Areas, text: &[u8], folder: &Folder) -> Outcome<Result<Batch, u64>> {
    if areas.iter().any(|area| area.len() < 16) {
        return Ok(Err(1));
    }
    let Some(judge) = folder.settled(Kind::Paired, areas) else { return Ok(Err(6)) };
    Ok(match read(text, judge.count()) {
        Ok(b) => carry::refusal(Kind::Paired, &judge, &b)?.map_or(Ok(b), Err),
        refused => refused,
    })
}

/// Every call with a text on these areas: number, value and all bytes are those that the reader's answer gives.
fn check(areas: &Areas, text: &[u8], folder: &Folder, tally: &mut Tally) -> Outcome<Vec<(port::Answer, Areas)>> {
    let said = said(areas, text, folder)?;
    let mut states = Vec::new();
    for places in CALLS {
        let (mut mine, mut theirs) = (areas.clone(), areas.clone());
        let answer = match places {
            Some(n) => port::append_listing_run(&mut mine, text, n),
            None => port::append_listing(&mut mine, text),
        };
        let wanted = match (&said, places) {
            (Err(number), _) => (*number, 0),
            (Ok(b), Some(n)) => port::append_run(Kind::Paired, &mut theirs, b, n),
            (Ok(b), None) => port::append(Kind::Paired, &mut theirs, b),
        };
        let call = places.map_or("all places".to_string(), |n| format!("{n} places"));
        if answer != wanted {
            let text = String::from_utf8_lossy(&text[..text.len().min(1000)]);
            return Err(format!(
                "{call}: port (number, value) {answer:?}, wanted {wanted:?}; the text begins {text:?}"
            ));
        }
        if let Some(place) = (0..3).find(|&place| mine[place] != theirs[place]) {
            let at = (0..mine[place].len()).find(|&i| mine[place][i] != theirs[place][i]);
            return Err(format!("{call}: {}: byte {at:?} is not as append leaves it", areas::NAMES[place]));
        }
        tally.note_listing(answer.0);
        states.push((answer, mine));
    }
    tally.texts += 1;
    Ok(states)
}
