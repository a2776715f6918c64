//! Port and original on the same data in one process: reading, opening, append, truncation, listings, loads, span addresses, parts, audits, durable rows, and cost against size, rows and wanted numbers.
//! bench [--quick] [reading|growth|storing|listing|load|span_at|parts|audit|durable|size|numbers]...   the tables named, all where none is; the result first, from the same lines
mod index;
mod markdown;
mod measure;
mod pairs;
mod result;
mod tables;
mod turns;
mod wanted;

use host::judge::Folder;
use std::time::Duration;
use tables::Run;
use turns::Setting;

// Room before the archive's code: where the link puts its loops matters (docs/PERFORMANCE.md, "How it is measured").
std::arch::global_asm!(concat!(".pushsection .text.shift,\"axR\",@progbits\n.space ", env!("SHIFT"), "\n.popsection"));

type Table = fn(&mut Run, &Folder, &Setting);

const TABLES: [(&str, Table); 11] = [
    ("reading", tables::reading_table),
    ("growth", tables::growth_table),
    ("storing", tables::storing_table),
    ("listing", tables::listing_table),
    ("load", tables::load_table),
    ("span_at", tables::span_at_table),
    ("parts", tables::parts_table),
    ("audit", tables::audit_table),
    ("durable", tables::durable_table),
    ("size", tables::size_table),
    ("numbers", tables::numbers_table),
];

fn main() {
    let words: Vec<String> = std::env::args().skip(1).collect();
    let setting = if words.iter().any(|w| w == "--quick") {
        Setting { span: Duration::from_millis(50), least: 3 }
    } else {
        Setting { span: Duration::from_millis(500), least: 8 }
    };
    let folder = Folder::new();
    let named = |w: &String| TABLES.iter().any(|(name, _)| name == w);
    let mut run = Run::default();
    for (name, table) in TABLES {
        if !words.iter().any(named) || words.iter().any(|w| w == name) {
            table(&mut run, &folder, &setting);
        }
    }
    result::print(&run);
    markdown::print(&run);
}
