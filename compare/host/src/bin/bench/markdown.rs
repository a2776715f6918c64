//! The tables in Markdown. Times in microseconds, ratios of the times that stand beside them.
//! Nothing is worked out here but ratios, bytes a second, nanoseconds a record, and nanoseconds a row where there are 9,000 rows or more.
use crate::measure::Both;
use crate::tables::{
    Audited, Composed, Limited, Line, Listed, Loaded, Run, Searched, Sized, Stored, LISTING_LINES, PARTS_RECORDS,
    STORING_RECORDS,
};

/// From here on what checks do beside the rows is not seen in their time by row.
pub const MANY_ROWS: usize = 9_000;

/// Microseconds with three digits or more.
pub fn us(seconds: f64) -> String {
    let t = seconds * 1e6;
    match t {
        _ if t < 1.0 => format!("{t:.3}"),
        _ if t < 10.0 => format!("{t:.2}"),
        _ => format!("{t:.1}"),
    }
}

pub fn ratio(x: f64) -> String {
    if x < 10.0 {
        format!("{x:.2}")
    } else {
        format!("{x:.1}")
    }
}

/// A ratio as it is printed, so that what is counted and what is read agree.
pub fn over(a: f64, b: f64) -> f64 {
    ratio(a / b).parse().unwrap_or(f64::NAN)
}

/// With commas, as in text.
pub fn number(n: u64) -> String {
    let digits = n.to_string();
    let groups: Vec<&str> = digits.as_bytes().rchunks(3).rev().map(|g| std::str::from_utf8(g).unwrap()).collect();
    groups.join(",")
}

impl Line {
    pub fn against_files(&self) -> f64 {
        over(self.times.call, self.times.files)
    }

    pub fn against_memory(&self) -> f64 {
        over(self.times.call, self.times.memory)
    }

    pub fn ns_a_row(&self) -> Option<f64> {
        (self.rows >= MANY_ROWS).then(|| self.times.checks * 1e9 / self.rows as f64)
    }

    pub fn wanted(&self) -> String {
        format!("{} {}", self.n, self.spread.name())
    }

    pub fn name(&self) -> String {
        format!("{}, {}", self.kind.name(), self.wanted())
    }

    fn by_row(&self) -> String {
        self.ns_a_row().map_or(String::new(), |ns| format!("{ns:.2}"))
    }
}

pub fn head(columns: &str) {
    println!("{columns}");
    println!("{}|", "|---".repeat(columns.matches('|').count() - 1));
}

pub fn print(run: &Run) {
    if !run.reading.is_empty() {
        reading(&run.reading);
    }
    if !run.storing.is_empty() {
        storing(&run.storing);
    }
    if !run.listing.is_empty() {
        listing(&run.listing);
    }
    if !run.load.is_empty() {
        load(&run.load);
    }
    if !run.span_at.is_empty() {
        span_at(&run.span_at);
    }
    if !run.parts.is_empty() {
        parts(&run.parts);
    }
    if !run.audit.is_empty() {
        audit(&run.audit);
    }
    if !run.durable.is_empty() {
        durable(&run.durable);
    }
    if !run.size.is_empty() {
        size(&run.size);
    }
    if !run.numbers.is_empty() {
        numbers(&run.numbers);
    }
}

fn reading(lines: &[Line]) {
    println!("\n## Reading\n");
    head("| kind | records | rows | numbers | call | original, files | call / files | checks | ns a row | original, memory | call / memory |");
    for line in lines {
        let (kind, t) = (line.kind.name(), &line.times);
        println!(
            "| {kind} | {} | {} | {} | {} | {} | {} | {} | {} | {} | {} |",
            line.records,
            line.density,
            line.wanted(),
            us(t.call),
            us(t.files),
            ratio(line.against_files()),
            us(t.checks),
            line.by_row(),
            us(t.memory),
            ratio(line.against_memory()),
        );
    }
}

impl Stored {
    pub fn name(&self) -> String {
        match self.call {
            "append" => format!("append of {}", self.n),
            "truncation" => format!("truncation by {}", self.n),
            other => other.to_string(),
        }
    }

    pub fn against_files(&self) -> f64 {
        over(self.times.0, self.times.1)
    }
}

fn storing(lines: &[Stored]) {
    println!("\n## Opening, append and truncation, index of {} records\n", number(STORING_RECORDS));
    head("| kind | rows | call | port | original, files | port / files |");
    for line in lines {
        let ((port, files), ratio) = (line.times, ratio(line.against_files()));
        println!(
            "| {} | {} | {} | {} | {} | {ratio} |",
            line.kind.name(),
            line.density,
            line.name(),
            us(port),
            us(files)
        );
    }
}

impl Listed {
    /// Millions of bytes of text in a second.
    pub fn rate(&self) -> f64 {
        self.times.bytes as f64 / self.times.call / 1e6
    }

    pub fn against_rust(&self) -> f64 {
        over(self.times.call, self.times.rust)
    }

    pub fn against_lists(&self) -> f64 {
        over(self.times.call, self.times.lists)
    }
}

fn listing(lines: &[Listed]) {
    println!("\n## A listing of {} lines into an empty index\n", number(LISTING_LINES as u64));
    head("| rows | published rows | bytes | listing | MB/s | reader in Rust, append | listing / Rust | append of the lists | listing / lists | original's append, files |");
    for line in lines {
        let t = &line.times;
        println!(
            "| {} | {} | {} | {} | {:.0} | {} | {} | {} | {} | {} |",
            line.density,
            line.rows,
            t.bytes,
            us(t.call),
            line.rate(),
            us(t.rust),
            ratio(line.against_rust()),
            us(t.lists),
            ratio(line.against_lists()),
            us(t.files)
        );
    }
}

impl Loaded {
    pub fn against_rust(&self) -> f64 {
        over(self.times.program, self.times.rust)
    }
}

fn load(lines: &[Loaded]) {
    println!("\n## A load, from the program's start to its end\n");
    head("| records | bytes | face_load | program in Rust | face_load / Rust |");
    for line in lines {
        let t = &line.times;
        let (program, rust) = (us(t.program), us(t.rust));
        println!("| {} | {} | {program} | {rust} | {} |", line.records, t.bytes, ratio(line.against_rust()));
    }
}

impl Searched {
    /// The longest of the three calls.
    pub fn longest(&self) -> f64 {
        self.times.call.into_iter().fold(0.0, f64::max)
    }

    pub fn against_readings(&self) -> f64 {
        over(self.longest(), self.times.readings)
    }

    pub fn against_together(&self) -> f64 {
        over(self.longest(), self.times.together)
    }
}

fn span_at(lines: &[Searched]) {
    println!("\n## Whose crossing is at an address, paired index\n");
    head("| records | rows | published rows | call: first, middle, last | ns a record | readings | call / readings | readings together | call / together | original by halves: first, middle, last |");
    for line in lines {
        let t = &line.times;
        println!(
            "| {} | {} | {} | {} | {:.2} | {} | {} | {} | {} | {} |",
            line.records,
            line.density,
            line.rows,
            t.call.map(us).join(", "),
            line.longest() * 1e9 / line.records as f64,
            us(t.readings),
            ratio(line.against_readings()),
            us(t.together),
            ratio(line.against_together()),
            t.halves.map(us).join(", ")
        );
    }
    println!("\n*call* is `span_at` for an address in the first record, in the one at two fifths of the count, and in the last. *ns a record* and both ratios are of the longest of");
    println!("the three. The call reads the whole index whatever the address is, since 17 is asked of every slot. A search by halves over the original's readings looks at a few windows");
    println!("only, so on large indexes it is faster. Such a search does not see a row that is missing elsewhere, and where checkpoints are wrong it may miss the lowest record.");
}

impl Composed {
    pub fn against_rust(&self) -> f64 {
        over(self.times.call, self.times.rust)
    }
}

fn parts(lines: &[Composed]) {
    println!("\n## The parts of a record, paired index of {} records without rows\n", number(PARTS_RECORDS));
    head("| pairs | records needed | call | search in Rust | call / Rust |");
    for line in lines {
        let t = &line.times;
        println!(
            "| {} | {:.1} | {} | {} | {} |",
            line.shape.name(),
            t.records,
            us(t.call),
            us(t.rust),
            ratio(line.against_rust())
        );
    }
    println!("\nEach line is the mean over 16 lists, which take turns. The search in Rust tests the same refusals of the pairs, finds a composite's first pair by halves, and keeps the records");
    println!("that it has met in a hash set; it is told the count, which the call takes from the areas. In the last line all numbers fall on one place of the table of components that were met.");
}

impl Audited {
    pub fn by_record(&self) -> f64 {
        self.times.call * 1e9 / self.records as f64
    }

    pub fn against_rust(&self) -> f64 {
        over(self.times.call, self.times.rust)
    }

    pub fn against_files(&self) -> f64 {
        over(self.times.call, self.times.files)
    }
}

fn audit(lines: &[Audited]) {
    println!("\n## Audit of a sound index\n");
    head("| kind | records | rows | published rows | call | ns a record | pass in Rust | call / Rust | original reads all, files | call / files |");
    for line in lines {
        let t = &line.times;
        println!(
            "| {} | {} | {} | {} | {} | {:.2} | {} | {} | {} | {} |",
            line.kind.name(),
            line.records,
            line.density,
            line.rows,
            us(t.call),
            line.by_record(),
            us(t.rust),
            ratio(line.against_rust()),
            us(t.files),
            ratio(line.against_files())
        );
    }
}

impl Limited {
    pub fn past_check(&self) -> f64 {
        over(self.times.call, self.times.check)
    }
}

fn durable(lines: &[Limited]) {
    println!("\n## How many records are durable\n");
    head("| kind | records | rows | published rows | call | check of 1 and 6 | call / check | original, files |");
    for line in lines {
        let t = &line.times;
        println!(
            "| {} | {} | {} | {} | {} | {} | {} | {} |",
            line.kind.name(),
            line.records,
            line.density,
            line.rows,
            us(t.call),
            us(t.check),
            ratio(line.past_check()),
            us(t.files)
        );
    }
    println!("\nThe length is that of the middle row. *check of 1 and 6* is a reading that is refused by 15, the first test behind them. The original opens its files once, which goes over the rows too,");
    println!("and then reads the two rows and the slot.");
}

fn both((port, files): Both) -> String {
    format!("{}, {}", us(port), us(files))
}

fn size(lines: &[Sized]) {
    println!("\n## Cost against index size and rows\n");
    head("| kind | rows | records | published rows | checks | ns a row | open: port, files | append of 100: port, files | truncation by 100: port, files | 32 numbers in 1 window: call, files, call / files |");
    for Sized { line, open, append, truncation } in lines {
        println!(
            "| {} | {} | {} | {} | {} | {} | {} | {} | {} | {}, {} |",
            line.kind.name(),
            line.density,
            line.records,
            line.rows,
            us(line.times.checks),
            line.by_row(),
            both(*open),
            both(*append),
            both(*truncation),
            both((line.times.call, line.times.files)),
            ratio(line.against_files()),
        );
    }
}

fn numbers(lines: &[Line]) {
    println!("\n## Cost against wanted numbers, index of {} records without rows\n", number(lines[0].records));
    println!("Each cell: call, original on files, call / files, call / memory.\n");
    head("| kind | numbers | in 1 window | in 1 window, rising | over all windows |");
    for three in lines.chunks(3) {
        let cells: Vec<String> = three
            .iter()
            .map(|line| {
                let pair = both((line.times.call, line.times.files));
                format!("{pair}, {}, {}", ratio(line.against_files()), ratio(line.against_memory()))
            })
            .collect();
        println!("| {} | {} | {} |", three[0].kind.name(), three[0].n, cells.join(" | "));
    }
}
