//! The calls that both sides are given, and the batch of an append.
//! What comparing one gives is an outcome, which may be a difference.
use crate::areas::Kind;

/// Where body and spans of the first record start.
pub type Starts = (u64, u64);

/// The first batch's.
pub const FIRST: Starts = (16, 16);

/// A batch of records: four lists where paired, the first two where single.
#[derive(Clone, Debug, Default, PartialEq, Eq)]
pub struct Batch {
    pub starts: Vec<u64>,
    pub lens: Vec<u64>,
    pub span_starts: Vec<u64>,
    pub spans: Vec<u32>,
}

impl Batch {
    /// One record whose body and spans start here.
    pub fn one(kind: Kind, (start, span_start): Starts, len: u64, spans: u32) -> Batch {
        let (span_starts, spans) = match kind {
            Kind::Paired => (vec![span_start], vec![spans]),
            Kind::Single => (Vec::new(), Vec::new()),
        };
        Batch { starts: vec![start], lens: vec![len], span_starts, spans }
    }

    /// Whether its lists differ in length.
    pub fn uneven(&self, kind: Kind) -> bool {
        let n = self.starts.len();
        n != self.lens.len() || kind == Kind::Paired && (n != self.span_starts.len() || n != self.spans.len())
    }
}

#[derive(Clone, Debug)]
pub enum Call {
    Open,
    Append(Batch),
    Truncate(u64),
    Read(Vec<u64>),
}

impl Call {
    pub fn what(&self) -> What {
        match self {
            Call::Open => What::Open,
            Call::Append(_) => What::Append,
            Call::Truncate(_) => What::Truncate,
            Call::Read(_) => What::Read,
        }
    }

    /// For a history's steps.
    pub fn text(&self) -> String {
        let text = format!("{self:?}");
        if text.len() < 400 {
            return text;
        }
        match self {
            Call::Append(b) => format!("append of {} records", b.starts.len()),
            Call::Read(w) => format!("read of {} numbers", w.len()),
            _ => text,
        }
    }
}

#[derive(Clone, Copy, Debug, PartialEq, Eq)]
pub enum What {
    Create,
    Open,
    Append,
    Truncate,
    Read,
    TornOpen,
    TornAppend,
    TornTruncate,
}

pub const WHATS: [(What, &str); 8] = [
    (What::Create, "create"),
    (What::Open, "open"),
    (What::Append, "append"),
    (What::Truncate, "truncate"),
    (What::Read, "read"),
    (What::TornOpen, "torn open"),
    (What::TornAppend, "torn append"),
    (What::TornTruncate, "torn truncate"),
];

/// The message of a difference.
pub type Outcome<T> = Result<T, String>;
