//! The original on its files, in a folder of a memory file system.
//! Its refusals are turned into the table's numbers by their messages.
use crate::areas::{Areas, Kind};
use crate::call::Batch;
use original::create_loc::{CreateLoc, CreateLocAppend};
use original::delta_loc::DeltaLoc;
use original::error::StoreError;
use original::file::TableFile;
use original::io_handle::{cut_after, writes, IoHandle, Write};
use original::Fk;
use std::path::{Path, PathBuf};
use std::sync::atomic::Ordering;

/// A refusal of the original: the number, or what it said where the table has none for it.
#[derive(Clone, Debug, PartialEq, Eq)]
pub enum Refusal {
    Number(u64),
    Other(String),
}

fn refusal(error: StoreError) -> Refusal {
    let StoreError::Corrupt(message) = error else {
        return Refusal::Other(error.to_string());
    };
    Refusal::Number(match message {
        "invariant: create.loc size" | "invariant: loc size" => 2,
        "invariant: create.off size" | "invariant: loc checkpoint count" => 3,
        "invariant: create.loc ovf size" | "invariant: loc ovf size" => 4,
        "invariant: create.loc ovf order" | "invariant: loc ovf order" => 5,
        "invariant: loc append length" => 7,
        "invariant: create n_out" => 8,
        "invariant: loc body length" => 9,
        "invariant: loc strides" => 10,
        "invariant: create.loc txout starts" | "invariant: loc starts" => 11,
        "invariant: create.loc spent starts" => 12,
        "create.loc truncate past count" | "seqsigwit.loc truncate past count" => 14,
        "invariant: create.loc overflow missing" | "invariant: seqsigwit.loc overflow missing" => 17,
        other => return Refusal::Other(other.to_string()),
    })
}

/// An append's: one message is 22 for an empty body and 9 for a ragged one, by the first length that is either.
fn append_refusal(error: StoreError, lens: &[u64]) -> Refusal {
    let first = lens.iter().find(|&&len| len == 0 || len % 8 != 0);
    match refusal(error) {
        Refusal::Number(9) if first == Some(&0) => Refusal::Number(22),
        other => other,
    }
}

pub enum Judge {
    Paired(CreateLoc),
    Single(DeltaLoc),
}

const STEM: &str = "seqsigwit";

impl Judge {
    pub fn create(kind: Kind, dir: &Path) -> Result<Judge, Refusal> {
        match kind {
            Kind::Paired => CreateLoc::create(dir).map(Judge::Paired),
            Kind::Single => DeltaLoc::create(dir, STEM).map(Judge::Single),
        }
        .map_err(refusal)
    }

    pub fn open(kind: Kind, dir: &Path) -> Result<Judge, Refusal> {
        match kind {
            Kind::Paired => CreateLoc::open(dir).map(Judge::Paired),
            Kind::Single => DeltaLoc::open(dir, STEM).map(Judge::Single),
        }
        .map_err(refusal)
    }

    /// The original where its opening neither refuses nor writes anything: where the port does not give 6.
    pub fn settled(kind: Kind, dir: &Path) -> Option<Judge> {
        cut_after(u64::MAX);
        Judge::open(kind, dir).ok().filter(|_| writes().is_empty())
    }

    pub fn count(&self) -> u64 {
        match self {
            Judge::Paired(loc) => loc.count(),
            Judge::Single(loc) => loc.count(),
        }
    }

    /// The counted lengths that the original holds in memory: slots, rows, checkpoints.
    pub fn lens(&self) -> [u64; 3] {
        match self {
            Judge::Paired(l) => [l.loc.logical_len(), l.ovf.logical_len(), l.off.logical_len()],
            Judge::Single(l) => [l.loc.logical_len(), l.ovf.logical_len(), l.off.logical_len()],
        }
    }

    fn files(&self) -> (&TableFile, &TableFile, bool) {
        match self {
            Judge::Paired(l) => (&l.loc, &l.ovf, true),
            Judge::Single(l) => (&l.loc, &l.ovf, false),
        }
    }

    /// From here on the rows have reached this length on the medium, 1 or more: a cap of 0 is none to the original.
    /// Their length in memory goes on from there without a header write, as after one that failed.
    pub fn withhold(&self, durable: u64) {
        let (_, ovf, _) = self.files();
        let end = ovf.logical_len();
        if durable < end {
            ovf.published_len.store(durable, Ordering::Release);
            assert!(!ovf.publish_locator_end(end, false) && ovf.logical_len() == end);
        }
    }

    /// How many records are then durable.
    pub fn withheld_ovf_limit(&self) -> Result<u64, Refusal> {
        let (loc, ovf, pair) = self.files();
        original::withheld_ovf_limit(loc, ovf, self.count(), pair).map_err(refusal)
    }

    /// All rows have reached it. The header write that says so is lost: the files stay as they are.
    pub fn catch_up(&self) {
        cut_after(0);
        assert!(self.files().1.catch_up_header());
        cut_after(u64::MAX);
    }

    /// Which area a write went to.
    pub fn place_of(&self, write: &Write) -> Option<usize> {
        let handles: [IoHandle; 3] = match self {
            Judge::Paired(l) => [l.loc.read_fd(), l.ovf.read_fd(), l.off.read_fd()],
            Judge::Single(l) => [l.loc.read_fd(), l.ovf.read_fd(), l.off.read_fd()],
        };
        handles.iter().position(|handle| *handle == write.to)
    }

    pub fn append(&self, batch: &Batch) -> Result<u64, Refusal> {
        match self {
            Judge::Paired(loc) => {
                let records: Vec<CreateLocAppend> = (0..batch.starts.len())
                    .map(|i| CreateLocAppend {
                        txout_start: batch.starts[i],
                        txout_len: batch.lens[i],
                        spent_start: batch.span_starts[i],
                        n_out: batch.spans[i],
                    })
                    .collect();
                loc.append(&records)
            }
            Judge::Single(loc) => loc.append(&batch.starts, &batch.lens),
        }
        .map_err(|error| append_refusal(error, &batch.lens))?;
        Ok(self.count())
    }

    pub fn truncate(&self, count: u64) -> Result<u64, Refusal> {
        match self {
            Judge::Paired(loc) => loc.truncate_to_count(count),
            Judge::Single(loc) => loc.truncate_to_count(count),
        }
        .map_err(refusal)?;
        Ok(self.count())
    }

    /// How many were found, and the answer words.
    pub fn read(&self, wanted: &[u64]) -> Result<(u64, Vec<u64>), Refusal> {
        let numbers: Vec<Fk> = wanted.iter().map(|&id| Fk::new(id)).collect();
        let mut words = Vec::new();
        let mut found = 0;
        match self {
            Judge::Paired(loc) => {
                for answer in loc.range_batch(&numbers).map_err(refusal)? {
                    match answer {
                        Some(a) => {
                            found += 1;
                            words.extend([1, a.txout.0, a.txout.1, a.spent.0, a.spent.1, u64::from(a.n_out)]);
                        }
                        None => words.extend([0; 6]),
                    }
                }
            }
            Judge::Single(loc) => {
                for answer in loc.range_batch(&numbers).map_err(refusal)? {
                    match answer {
                        Some((start, len)) => {
                            found += 1;
                            words.extend([1, start, len]);
                        }
                        None => words.extend([0; 3]),
                    }
                }
            }
        }
        Ok((found, words))
    }
}

/// The folder of the original's files. It goes when this is dropped.
pub struct Folder {
    dir: PathBuf,
}

impl Folder {
    pub fn new() -> Folder {
        let memory = Path::new("/dev/shm");
        let base = if memory.is_dir() { memory.to_path_buf() } else { std::env::temp_dir() };
        let dir = base.join(format!("compare-{}", std::process::id()));
        std::fs::create_dir_all(&dir).expect("a folder for the original's files");
        Folder { dir }
    }

    pub fn dir(&self) -> &Path {
        &self.dir
    }

    /// What kind of place the files lie in.
    pub fn place(&self) -> &'static str {
        if self.dir.starts_with("/dev/shm") {
            "memory file system"
        } else {
            "folder for temporary files"
        }
    }

    fn files(&self, kind: Kind) -> [PathBuf; 3] {
        let stem = match kind {
            Kind::Paired => "create",
            Kind::Single => STEM,
        };
        ["loc", "loc.ovf", "off"].map(|end| self.dir.join(format!("{stem}.{end}")))
    }

    pub fn put(&self, kind: Kind, areas: &Areas) {
        for (file, area) in self.files(kind).iter().zip(areas) {
            std::fs::write(file, area).expect("write of a file");
        }
    }

    /// The original on these areas, where they are settled.
    pub fn settled(&self, kind: Kind, areas: &Areas) -> Option<Judge> {
        self.put(kind, areas);
        Judge::settled(kind, &self.dir)
    }

    pub fn get(&self, kind: Kind) -> Areas {
        self.files(kind).map(|file| std::fs::read(file).expect("read of a file"))
    }

    pub fn remove(&self, kind: Kind) {
        for file in self.files(kind) {
            let _ = std::fs::remove_file(file);
        }
    }
}

impl Default for Folder {
    fn default() -> Self {
        Folder::new()
    }
}

impl Drop for Folder {
    fn drop(&mut self) {
        let _ = std::fs::remove_dir_all(&self.dir);
    }
}
