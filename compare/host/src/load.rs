//! The load of a seed, which the original does not make: plain Rust, written from the rules, reads the input, draws the records and spells the text.
//! The program has to print just that. The listing of a load, read back by the port into a fresh index, stores what the original stores of the same batch.
use crate::areas::{empty, first_difference, Kind};
use crate::call::{Batch, Outcome, FIRST};
use crate::judge::Folder;
use crate::listing::{decimal, print};
use crate::pick::Pick;
use crate::port;
use crate::tally::Tally;
use std::io::Write;
use std::process::{Command, Stdio};

/// Seen from the repository's root.
pub const PROGRAM: &str = "crates/face_load/out/face_load";

/// What an input asks for: the load, or the number of its refusal.
pub fn read(input: &[u8]) -> Result<Batch, u64> {
    let lines: Vec<&str> = std::str::from_utf8(input).map_err(|_| 18u64)?.split('\n').collect();
    let [seed, records, ""] = lines[..] else { return Err(18) };
    match decimal(seed).zip(decimal(records)).ok_or(18u64)? {
        (0, _) => Err(25),
        (_, 1025..) => Err(26),
        (seed, records) => Ok(load(seed, records)),
    }
}

/// The records of a seed, by the xorshift of 64 bits. Each takes two draws, for its strides and then for its spans.
fn load(seed: u64, records: u64) -> Batch {
    let mut state = seed;
    let mut draw = || {
        state ^= state << 13;
        state ^= state >> 7;
        state ^= state << 17;
        1 + state % 300
    };
    let (mut start, mut span_start) = FIRST;
    let mut b = Batch::default();
    for _ in 0..records {
        let (strides, spans) = (draw(), draw());
        b.starts.push(start);
        b.lens.push(8 * strides);
        b.span_starts.push(span_start);
        b.spans.push(spans as u32);
        (start, span_start) = (start + 8 * strides, span_start + 8 * spans);
    }
    b
}

/// What the rules have printed for an input: the listing of a load, or the line of its refusal.
pub fn answer(said: &Result<Batch, u64>) -> String {
    said.as_ref().map_or_else(|number| format!("refused {number}\n"), |b| print(b, 1))
}

/// What a program prints for an input.
pub fn printed(program: &str, input: &[u8]) -> Outcome<Vec<u8>> {
    let failed = |error| format!("{program}: {error}");
    let mut child = Command::new(program).stdin(Stdio::piped()).stdout(Stdio::piped()).spawn().map_err(failed)?;
    // it need not read a long input to its end
    let _ = child.stdin.take().expect("a pipe").write_all(input);
    let output = child.wait_with_output().map_err(failed)?;
    output.status.success().then_some(output.stdout).ok_or_else(|| format!("{program}: {}", output.status))
}

/// One input: all that the program prints is as the rules have it, and a load goes into an index. Gives what was printed.
fn check(input: &[u8], folder: &Folder, tally: &mut Tally) -> Outcome<String> {
    let said = read(input);
    let wanted = answer(&said);
    let output = printed(PROGRAM, input)?;
    if output != wanted.as_bytes() {
        let text = String::from_utf8_lossy(&output);
        let at = text.split('\n').zip(wanted.split('\n')).take_while(|(a, b)| a == b).count();
        let [mine, rules] = [&*text, &*wanted].map(|text| text.split('\n').nth(at));
        return Err(format!("line {at}: the program has {mine:?}, the rules {rules:?}"));
    }
    tally.note_load(*said.as_ref().err().unwrap_or(&0));
    said.map_or(Ok(()), |b| store(&b, &output, folder)).map(|()| wanted)
}

/// The listing read back by the port, the batch appended by the original: one count, the same bytes from 8 on. A reading gives what was drawn.
fn store(b: &Batch, text: &[u8], folder: &Folder) -> Outcome<()> {
    let n = b.starts.len();
    let mut mine = empty([16 + 2 * 1024, 16 + 16 * 1024, 32]);
    let judge = folder.settled(Kind::Paired, &mine).ok_or("the original does not open a fresh index")?;
    let (answer, said) = (port::append_listing(&mut mine, text), judge.append(b));
    if answer != (0, n as u64) || said != Ok(n as u64) {
        return Err(format!("{n} records: port (number, value) {answer:?}, original {said:?}"));
    }
    if let Some(place) = first_difference(&mine, &folder.get(Kind::Paired)) {
        return Err(format!("{n} records: {place}"));
    }
    let six =
        |i: usize| [1, b.starts[i], b.lens[i], b.span_starts[i], 8 * u64::from(b.spans[i]), u64::from(b.spans[i])];
    let mut words = vec![0; Kind::Paired.words() * n];
    let answer = port::read(Kind::Paired, &mine, &Vec::from_iter(1..=n as u64), &mut words);
    if answer != (0, n as u64) || !words.iter().copied().eq((0..n).flat_map(six)) {
        return Err(format!("{n} records: the port reads {answer:?}, or words that were not drawn"));
    }
    Ok(())
}

/// Inputs that are not two lines of a number each.
#[rustfmt::skip]
const MALFORMED: [&str; 36] = [
    "", "\n", "\n\n", "\n1\n", "\n1\n1\n", "0\n", "1", "1\n", "1\n\n", "1\n\n1\n", "1 1\n", "1\n1", "0\n1", "1\n1025", "1\n1\n\n", "0\n1\n\n",
    "1\n1025\n\n", "1\n1\n1", "1\n1\n1\n", "1\n1\n\0", "01\n1\n", "00\n1\n", "1\n01\n", "1\n00\n", "+1\n1\n", "1\n+1\n", "-1\n1\n", " 1\n1\n",
    "1\n1 \n", "1\t\n1\n", "1\r\n1\r\n", "1.\n1\n", "0x1\n1\n", "18446744073709551616\n1\n", "1\n18446744073709551616\n", "0\n18446744073709551617\n",
];

/// Other inputs, and the last line that the rules give.
const NAMED: [(&str, &str); 11] = [
    ("88172645463325252\n0\n", "record body_start body_len span_start span_len spans"),
    ("88172645463325252\n1\n", "1 16 1704 16 928 116"),
    ("88172645463325252\n2\n", "2 1720 904 944 1232 154"),
    ("88172645463325252\n1024\n", "1024 1178480 1976 1190192 416 52"),
    ("1\n1\n", "1 16 2096 16 48 6"),
    ("18446744073709551615\n1\n", "1 16 1160 16 2016 252"),
    ("0\n0\n", "refused 25"),
    ("0\n1025\n", "refused 25"),
    ("0\n18446744073709551615\n", "refused 25"),
    ("1\n1025\n", "refused 26"),
    ("1\n18446744073709551615\n", "refused 26"),
];

/// Inputs with what the rules give them.
pub fn named(folder: &Folder, tally: &mut Tally) -> Result<u64, (String, Vec<String>)> {
    let list: Vec<_> = MALFORMED.map(|input| (input, "refused 18")).into_iter().chain(NAMED).collect();
    for &(input, last) in &list {
        let wrong = |message: String| (format!("named load: {message}"), vec![format!("{input:?}")]);
        let text = check(input.as_bytes(), folder, tally).map_err(wrong)?;
        if text.lines().last() != Some(last) {
            return Err(wrong(format!("the last line is not {last:?}")));
        }
    }
    Ok(list.len() as u64)
}

/// The input of a seed, right or spoilt.
pub fn run(seed: u64, folder: &Folder, tally: &mut Tally) -> Result<(), (String, Vec<String>)> {
    let input = any_input(&mut Pick::new(seed));
    let wrong = |message| (format!("load: {message}"), vec![input.escape_ascii().to_string()]);
    check(&input, folder, tally).map(|_| ()).map_err(wrong)
}

/// A seed and a number of records, at times at or past a limit, with up to three faults.
fn any_input(pick: &mut Pick) -> Vec<u8> {
    let (any, few, end) = (u128::from(pick.word() >> pick.below(64)), u128::from(pick.below(60)), 1 << 64);
    let seed = pick.of(&[any, any, any, any, any, any, any, 0, 0, 1, end - 1, end, end + any]);
    let records = pick.of(&[few, few, few, few, few, few, 0, 1, 1023, 1024, 1025, 1025, any, end - 1, end, end + few]);
    let mut input = format!("{seed}\n{records}\n").into_bytes();
    for _ in 0..pick.of(&[0, 0, 0, 1, 1, 1, 2, 3]) {
        spoil(&mut input, pick);
    }
    input
}

/// Some bytes removed, one put there once or many times, or both: anywhere, or where a line starts or ends.
fn spoil(input: &mut Vec<u8>, pick: &mut Pick) {
    let (end, any) = (input.len(), pick.size(input.len() + 1));
    let feed = input.iter().position(|&byte| byte == b'\n').unwrap_or(any);
    let at = pick.of(&[any, any, any, 0, feed, feed + 1, end.saturating_sub(1), end]).min(end);
    let past = pick.of(&[at, at, at, at + 1, at + 1, end]).min(end);
    let byte = pick.of(b"00059\n\n\r\r\t ++--.\0\x80\xff");
    let byte = pick.of(&[byte, byte, byte, *input.get(at).unwrap_or(&byte)]);
    let times = pick.of(&[0, 0, 1, 1, 1, 1, 1, 2, 3 + any, 3000 + any]);
    input.splice(at..past, std::iter::repeat(byte).take(times));
}
