//! Runs cases on port and original. A difference is printed with the seed that repeats it, and the exit status is 1.
//! compare [--seed N] [--histories N | --seconds N] [--one SEED]
use host::judge::Folder;
use host::tally::Tally;
use host::{history, listing, load, named, parts, span_at, sweep};
use std::time::{Duration, Instant};

/// Once in so many histories the listings of its seed are read back too, its addresses are looked for, its pairs are searched and its load is made.
const OTHERS_ONE_IN: u64 = 25;

fn main() {
    let mut seed = 1u64;
    let mut histories = 20_000u64;
    let mut seconds = None;
    let mut one = None;
    let words: Vec<String> = std::env::args().skip(1).collect();
    for pair in words.chunks(2) {
        let number = pair.get(1).and_then(|word| word.parse().ok()).unwrap_or_else(|| usage());
        match pair[0].as_str() {
            "--seed" => seed = number,
            "--histories" => histories = number,
            "--seconds" => seconds = Some(number),
            "--one" => one = Some(number),
            _ => usage(),
        }
    }
    let folder = Folder::new();
    let mut tally = Tally::default();
    let begun = Instant::now();
    let named = named::run(&folder, &mut tally, false, &mut |_, _| {})
        .unwrap_or_else(|(message, steps)| differs(&folder, None, &message, &steps));
    let texts =
        listing::named(&folder, &mut tally).unwrap_or_else(|(message, steps)| differs(&folder, None, &message, &steps));
    let addresses =
        span_at::named(&folder, &mut tally).unwrap_or_else(|(message, steps)| differs(&folder, None, &message, &steps));
    let pairs =
        parts::named(&folder, &mut tally).unwrap_or_else(|(message, steps)| differs(&folder, None, &message, &steps));
    let inputs =
        load::named(&folder, &mut tally).unwrap_or_else(|(message, steps)| differs(&folder, None, &message, &steps));
    let worlds = match one {
        Some(_) => 0,
        None => {
            sweep::run(&folder, &mut tally).unwrap_or_else(|(message, steps)| differs(&folder, None, &message, &steps))
        }
    };
    let until = seconds.map(|s| begun + Duration::from_secs(s));
    let mut i = 0;
    loop {
        let over = match until {
            Some(end) => Instant::now() >= end,
            None => i >= histories,
        };
        if over && one.is_none() {
            break;
        }
        // seeds of different runs do not meet
        let this = one.unwrap_or(seed.wrapping_mul(1_000_000_007).wrapping_add(i));
        let with_others = one.is_some() || i % OTHERS_ONE_IN == 0;
        i += 1;
        let ran = std::panic::catch_unwind(std::panic::AssertUnwindSafe(|| {
            history::run(this, &folder, &mut tally)?;
            if with_others {
                listing::run(this, &folder, &mut tally)?;
                span_at::run(this, &folder, &mut tally)?;
                parts::run(this, &folder, &mut tally)?;
                load::run(this, &folder, &mut tally)?;
            }
            Ok(())
        }));
        match ran {
            Ok(Ok(())) => {}
            Ok(Err((message, steps))) => differs(&folder, Some(this), &message, &steps),
            Err(_) => differs(&folder, Some(this), "one side panicked", &[]),
        }
        if one.is_some() {
            println!("history, listings, addresses, pairs and load of seed {this}: no difference");
            return;
        }
    }
    print!("{}", tally.numbers());
    println!("{}", tally.limits());
    println!("{}", tally.listings());
    println!("{}", tally.addresses());
    println!("{}", tally.parts());
    println!("{}", tally.loads());
    let unseen = tally.unseen();
    if !unseen.is_empty() {
        println!("comparison with the original: never met: {}", unseen.join(", "));
        drop(folder);
        std::process::exit(1);
    }
    let named = named + texts + addresses + pairs + inputs;
    println!("{}; {named} named cases and {worlds} small worlds; {} s", tally.summary(), begun.elapsed().as_secs());
}

fn differs(folder: &Folder, seed: Option<u64>, message: &str, steps: &[String]) -> ! {
    for step in steps {
        println!("  {step}");
    }
    println!("DIFFERENCE: {message}");
    if let Some(seed) = seed {
        println!("repeat it: compare/run.sh --one {seed}   (history: {})", history::kind_of(seed).name());
    }
    let _ = std::fs::remove_dir_all(folder.dir());
    std::process::exit(1);
}

fn usage() -> ! {
    eprintln!("compare [--seed N] [--histories N | --seconds N] [--one SEED]");
    std::process::exit(2);
}
