//! What the tables say, worked out from the same lines, as the document's section Result.
//! Every figure and every "all of them" in its text is computed here.
use crate::markdown::{head, number, over, ratio, us, MANY_ROWS};
use crate::tables::{Audited, Composed, Limited, Line, Listed, Loaded, Run, Searched, GROWTH, LISTING_LINES};
use crate::wanted::{Spread, WORKLOADS};
use std::cmp::Ordering;

/// The figures of a list: least, median, largest.
struct Figures(Vec<f64>);

impl Figures {
    fn of(values: impl Iterator<Item = f64>) -> Figures {
        let mut list: Vec<f64> = values.collect();
        list.sort_by(|a, b| a.partial_cmp(b).unwrap_or(Ordering::Equal));
        Figures(list)
    }

    fn least(&self) -> f64 {
        self.0.first().copied().unwrap_or(f64::NAN)
    }

    fn largest(&self) -> f64 {
        self.0.last().copied().unwrap_or(f64::NAN)
    }

    fn median(&self) -> f64 {
        let n = self.0.len();
        if n == 0 {
            return f64::NAN;
        }
        (self.0[(n - 1) / 2] + self.0[n / 2]) / 2.0
    }

    fn above(&self, limit: f64) -> usize {
        self.0.iter().filter(|&&x| x > limit).count()
    }
}

pub fn print(run: &Run) {
    println!("## Result\n");
    if !run.reading.is_empty() {
        headline(&run.reading);
        slower(&run.reading);
        above_half(&run.reading);
    }
    if !run.growth.is_empty() {
        growth(&run.growth);
    }
    if run.all().next().is_some() {
        checks(run);
    }
    if !run.reading.is_empty() {
        memory(run);
    }
    if !run.storing.is_empty() {
        storing(run);
    }
    if !run.listing.is_empty() {
        listing(&run.listing);
    }
    if !run.load.is_empty() {
        load(&run.load);
    }
    if !run.span_at.is_empty() {
        span_at(&run.span_at);
    }
    if !run.parts.is_empty() {
        parts(&run.parts);
    }
    if !run.audit.is_empty() {
        audit(&run.audit);
    }
    if !run.durable.is_empty() {
        durable(&run.durable);
    }
    if !run.numbers.is_empty() {
        numbers(&run.numbers);
    }
}

/// Numbers of rows that are told apart: none, and about so many.
const CLASSES: [(usize, usize); 5] = [(0, 0), (1, 899), (900, 8_999), (9_000, 89_999), (90_000, usize::MAX)];

/// The numbers of rows that there are in a class.
fn class_name(rows: impl Iterator<Item = usize>, (from, to): (usize, usize)) -> String {
    let f = Figures::of(rows.filter(|rows| (from..=to).contains(rows)).map(|rows| rows as f64));
    match f.largest() as u64 {
        0 => "none".to_string(),
        most => format!("{} to {}", number(f.least() as u64), number(most)),
    }
}

fn range(f: &Figures) -> String {
    format!("{} to {}", ratio(f.least()), ratio(f.largest()))
}

fn headline(lines: &[Line]) {
    let all = Figures::of(lines.iter().map(Line::against_files));
    println!(
        "**A reading as a user has it** (*call / files*, {} readings): median {}, from {} to {}; above 0.5 in {}, above 1 in {}.\n",
        lines.len(),
        ratio(all.median()),
        ratio(all.least()),
        ratio(all.largest()),
        all.above(0.5),
        all.above(1.0)
    );
    head("| published rows | readings | median | least | largest | above 0.5 | above 1 |");
    for (from, to) in CLASSES {
        let of_class: Vec<&Line> = lines.iter().filter(|line| (from..=to).contains(&line.rows)).collect();
        let f = Figures::of(of_class.iter().map(|line| line.against_files()));
        let name = class_name(of_class.iter().map(|line| line.rows), (from, to));
        println!(
            "| {name} | {} | {} | {} | {} | {} | {} |",
            of_class.len(),
            ratio(f.median()),
            ratio(f.least()),
            ratio(f.largest()),
            f.above(0.5),
            f.above(1.0)
        );
    }
}

/// Which reading a line is: its first four columns.
fn reading(line: &Line) -> String {
    format!("| {} | {} | {} | {}", line.kind.name(), line.records, line.density, line.wanted())
}

/// The readings in which the port takes longer, and what part of them the checks are.
fn slower(lines: &[Line]) {
    let slow: Vec<&Line> = lines.iter().filter(|line| line.against_files() > 1.0).collect();
    if slow.is_empty() {
        println!("\nIn no reading the port takes longer than the original's whole call.");
        return;
    }
    let rows = Figures::of(slow.iter().map(|line| line.rows as f64));
    let part = Figures::of(slow.iter().map(|line| over(line.times.checks, line.times.call)));
    println!(
        "\nThe port takes longer in {} readings, of indexes with {} rows and more; in these the checks alone are {} of the call and more.",
        slow.len(),
        number(rows.least() as u64),
        ratio(part.least())
    );
    if rows.least() >= MANY_ROWS as f64 {
        println!("The reason is number 6: it goes over all rows in every call, and the original looks at them once, at opening.");
    }
    println!();
    head("| kind | records | rows | numbers | call | checks | original, files | call / files |");
    for line in slow {
        let t = &line.times;
        println!(
            "{} | {} | {} | {} | {} |",
            reading(line),
            us(t.call),
            us(t.checks),
            us(t.files),
            ratio(line.against_files())
        );
    }
}

/// The readings above half of the original's time for which the rows are not the reason.
fn above_half(lines: &[Line]) {
    let left = |line: &&Line| line.rows < MANY_ROWS && line.against_files() > 0.5;
    let left: Vec<&Line> = lines.iter().filter(left).collect();
    let part = Figures::of(left.iter().map(|line| over(line.times.checks, line.times.call)));
    println!(
        "\nWith fewer than {} rows it takes more than half of the original's time in {} readings; in these the checks are at most {} of the call.\n",
        number(MANY_ROWS as u64),
        left.len(),
        ratio(part.largest())
    );
    head("| kind | records | rows | numbers | call | original, files | call / files |");
    for line in left {
        let t = &line.times;
        println!("{} | {} | {} | {} |", reading(line), us(t.call), us(t.files), ratio(line.against_files()));
    }
}

/// *call / files* as the rows become more, and the number of rows from which on it stays above 1.
fn growth(lines: &[Line]) {
    println!("\n**From how many rows on**: *call / files* of indexes with 1 % rows, about as many as head the column. The last column is the least number");
    println!("of rows in the table from which on it stays above 1; a dash where there is none.\n");
    let names: Vec<String> = GROWTH.iter().map(|records| format!("{} rows", number(records / 100))).collect();
    head(&format!("| kind | numbers | {} | above 1 from |", names.join(" | ")));
    for kind in crate::index::KINDS {
        for (n, spread) in WORKLOADS {
            let same: Vec<&Line> = lines.iter().filter(|l| l.kind == kind && l.n == n && l.spread == spread).collect();
            let cells: Vec<String> = same.iter().map(|line| ratio(line.against_files())).collect();
            let below = same.iter().rposition(|line| line.against_files() <= 1.0).map_or(0, |place| place + 1);
            let from = GROWTH.get(below).map_or("-".to_string(), |records| number(records / 100));
            println!("| {} | {n} {} | {} | {from} |", kind.name(), spread.name(), cells.join(" | "));
        }
    }
}

/// Two ranges: where a turn is many calls, and where it is few and the original's many windows were read in between.
fn checks(run: &Run) {
    let far = |line: &&Line| line.spread == Spread::AllWindows && line.n >= 256;
    let bare = |far: &dyn Fn(&&Line) -> bool| {
        let f = Figures::of(run.all().filter(|line| line.rows == 0).filter(far).map(|line| line.times.checks));
        format!("{} to {} µs without rows", us(f.least()), us(f.largest()))
    };
    let by_row = |far: &dyn Fn(&&Line) -> bool| {
        let f = Figures::of(run.all().filter(far).filter_map(Line::ns_a_row));
        format!("{:.2} to {:.2} ns a row, median {:.2}", f.least(), f.largest(), f.median())
    };
    let above = run.all().filter(|line| line.times.checks > line.times.call).count();
    println!(
        "\n**The checks** in all {} readings, those of tables that do not print them too; by row from {} rows on:",
        run.all().count(),
        number(MANY_ROWS as u64)
    );
    println!("{}, {};", bare(&|l| !far(l)), by_row(&|l| !far(l)));
    println!("beside readings of 256 to 1,024 numbers over all windows, which put the port's code and rows out of the nearer caches,");
    println!("{}, {}.", bare(&far), by_row(&far));
    println!("They are above the time of the call itself in {above} of these readings.");
}

/// Names, each once.
fn listed(names: &mut Vec<String>) -> String {
    names.sort();
    names.dedup();
    if names.is_empty() {
        return String::new();
    }
    format!(" ({})", names.join("; "))
}

/// The original without its file reads, and how often it seems slower so.
fn memory(run: &Run) {
    let all: Vec<&Line> = run.all().collect();
    let ours = Figures::of(run.reading.iter().map(Line::against_memory));
    let theirs = Figures::of(all.iter().map(|line| over(line.times.memory, line.times.files)));
    println!(
        "\n**The original in memory** (*call / memory*, table Reading): median {}, from {} to {}; above 0.5 in {}, above 1 in {}.",
        ratio(ours.median()),
        ratio(ours.least()),
        ratio(ours.largest()),
        ours.above(0.5),
        ours.above(1.0)
    );
    let mut few: Vec<String> = run
        .reading
        .iter()
        .filter(|line| line.rows < MANY_ROWS && line.against_memory() > 1.0)
        .map(Line::name)
        .collect();
    println!("Of the last, {} have fewer than {} rows{}.", few.len(), number(MANY_ROWS as u64), listed(&mut few));
    println!(
        "Its time in memory is {} to {} of its time on files, median {}; above 1 in {} of all {} readings.",
        ratio(theirs.least()),
        ratio(theirs.largest()),
        ratio(theirs.median()),
        theirs.above(1.0),
        all.len()
    );
}

/// Published rows, name of the call, and port / files, of the tables that have such calls.
fn stored(run: &Run) -> Vec<(usize, &'static str, f64)> {
    let mut list: Vec<_> = run.storing.iter().map(|line| (line.rows, line.call, line.against_files())).collect();
    for s in &run.size {
        for (call, (port, files)) in [("open", s.open), ("append", s.append), ("truncation", s.truncation)] {
            list.push((s.line.rows, call, over(port, files)));
        }
    }
    list
}

fn storing(run: &Run) {
    let all = stored(run);
    let of = |call: &str, (from, to): (usize, usize)| {
        let wanted = all.iter().filter(|(rows, name, _)| *name == call && (from..=to).contains(rows));
        Figures::of(wanted.map(|(_, _, ratio)| *ratio))
    };
    let any = (0, usize::MAX);
    let append = of("append", any);
    println!(
        "\n**Opening** takes at most {} of the original's time, **truncation** at most {}, **append** {} to {} (all tables).",
        ratio(of("open", any).largest()),
        ratio(of("truncation", any).largest()),
        ratio(append.least()),
        ratio(append.largest())
    );
    println!("Append goes over all rows too, and adds up the records of the last window to know where the list ends; the original does neither:\n");
    head("| published rows | open | append | truncation |");
    for class in CLASSES.into_iter().filter(|class| !of("append", *class).0.is_empty()) {
        let cells = ["open", "append", "truncation"].map(|call| range(&of(call, class)));
        println!("| {} | {} |", class_name(all.iter().map(|(rows, _, _)| *rows), class), cells.join(" | "));
    }
    let many = run.size.iter().filter(|s| s.line.rows >= MANY_ROWS);
    let open = Figures::of(many.map(|s| s.open.0 * 1e9 / s.line.rows as f64));
    if !run.size.is_empty() {
        println!(
            "\nThe port's opening goes over the rows by the same loop as the checks: {:.2} to {:.2} ns a row.",
            open.least(),
            open.largest()
        );
    }
    println!("\nAppend and truncation are timed call by call; the clock's own {} µs are in them.", us(run.clock));
}

fn listing(lines: &[Listed]) {
    let rate = Figures::of(lines.iter().map(Listed::rate));
    println!(
        "\n**A listing** of {} lines is read at {:.0} to {:.0} MB/s of text, in {} of the time of a plain reader in Rust with the port's append after it;",
        number(LISTING_LINES as u64),
        rate.least(),
        rate.largest(),
        range(&Figures::of(lines.iter().map(Listed::against_rust)))
    );
    println!(
        "it takes {} times as long as the port's append of the lists alone.",
        range(&Figures::of(lines.iter().map(Listed::against_lists)))
    );
}

fn load(lines: &[Loaded]) {
    println!(
        "\n**A load** is printed in {} of the time of a plain program in Rust, both from start to end; most of that is the start of a program.",
        range(&Figures::of(lines.iter().map(Loaded::against_rust)))
    );
}

fn span_at(lines: &[Searched]) {
    let halves = |records: u64| {
        let same = lines.iter().filter(|line| line.records == records);
        range(&Figures::of(same.flat_map(|line| [0, 1, 2].map(|i| over(line.times.halves[i], line.times.call[i])))))
    };
    println!(
        "\n**Whose crossing is at an address**: the call takes {} of the time of the port's readings of every window's last record, each of them a call,",
        range(&Figures::of(lines.iter().map(Searched::against_readings)))
    );
    println!(
        "and {} where these are read together. A search by halves over the original's readings, which does not look at every slot, takes {} of the call's",
        range(&Figures::of(lines.iter().map(Searched::against_together))),
        halves(lines[0].records)
    );
    let most = lines[lines.len() - 1].records;
    println!("time on {} records and {} on {}.", number(lines[0].records), halves(most), number(most));
}

fn parts(lines: &[Composed]) {
    let f = Figures::of(lines.iter().map(Composed::against_rust));
    let slower: Vec<&str> =
        lines.iter().filter(|line| line.against_rust() > 1.0).map(|line| line.shape.name()).collect();
    println!(
        "\n**The parts of a record**: the call takes {} of the time of a plain search breadth first with a hash set in Rust, median {}; above 1.0 with {}.",
        range(&f),
        ratio(f.median()),
        if slower.is_empty() { "none of the lists".into() } else { slower.join("; ") }
    );
}

fn audit(lines: &[Audited]) {
    println!(
        "\n**Audit** takes {} ns a record, {} of the time of a plain pass in Rust, and {} of the time in which the original reads all records.",
        range(&Figures::of(lines.iter().map(Audited::by_record))),
        range(&Figures::of(lines.iter().map(Audited::against_rust))),
        range(&Figures::of(lines.iter().map(Audited::against_files)))
    );
}

fn durable(lines: &[Limited]) {
    println!(
        "\n**How many records are durable** takes {} of the time of the check that every call begins with: up to {} µs, where the original, opened, takes up to {} µs.",
        range(&Figures::of(lines.iter().map(Limited::past_check))),
        us(lines.iter().map(|line| line.times.call).fold(0.0, f64::max)),
        us(lines.iter().map(|line| line.times.files).fold(0.0, f64::max))
    );
}

fn numbers(lines: &[Line]) {
    let f = Figures::of(lines.iter().map(Line::against_files));
    let m = Figures::of(lines.iter().map(Line::against_memory));
    println!(
        "\n**Wanted numbers**, from 1 to 1,024 without rows: *call / files* {} to {}, median {}; *call / memory* {} to {}, median {}.",
        ratio(f.least()),
        ratio(f.largest()),
        ratio(f.median()),
        ratio(m.least()),
        ratio(m.largest()),
        ratio(m.median())
    );
}
