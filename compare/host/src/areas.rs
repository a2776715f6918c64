//! Three areas of bytes, as the port is lent them and as the original's files hold them.
//! Bytes 0 to 7 are what the original asks of a file; neither side changes them.
use original::file::leading_header_bytes;
use original::TableKind;

#[derive(Clone, Copy, Debug, PartialEq, Eq)]
pub enum Kind {
    Paired,
    Single,
}

impl Kind {
    pub fn name(self) -> &'static str {
        match self {
            Kind::Paired => "paired",
            Kind::Single => "single",
        }
    }

    /// Widths of a slot, a row, a checkpoint.
    pub fn widths(self) -> [usize; 3] {
        match self {
            Kind::Paired => [2, 16, 16],
            Kind::Single => [2, 12, 8],
        }
    }

    /// Words of an answer.
    pub fn words(self) -> usize {
        match self {
            Kind::Paired => 6,
            Kind::Single => 3,
        }
    }
}

pub const SLOTS: usize = 0;
pub const ROWS: usize = 1;
pub const CHECKPOINTS: usize = 2;
pub const NAMES: [&str; 3] = ["slots", "rows", "checkpoints"];

pub type Areas = [Vec<u8>; 3];

/// Areas of these sizes, 16 or more, that publish nothing.
pub fn empty(sizes: [usize; 3]) -> Areas {
    let mut areas = sizes.map(|size| vec![0u8; size]);
    for (place, area) in areas.iter_mut().enumerate() {
        area[..16].copy_from_slice(&leading_header_bytes(table_kind(place), 16));
    }
    areas
}

pub fn table_kind(place: usize) -> TableKind {
    if place == CHECKPOINTS {
        TableKind::ArrayLink
    } else {
        TableKind::DeltaLoc
    }
}

pub fn stored_len(area: &[u8]) -> u64 {
    u64::from_le_bytes(area[8..16].try_into().unwrap())
}

pub fn store_len(area: &mut [u8], len: u64) {
    area[8..16].copy_from_slice(&len.to_le_bytes());
}

/// The published length as it counts.
pub fn counted(area: &[u8]) -> u64 {
    stored_len(area).max(16).min(area.len() as u64)
}

pub fn count(areas: &Areas) -> u64 {
    (counted(&areas[SLOTS]) - 16) / 2
}

pub fn pieces(kind: Kind, areas: &Areas, place: usize) -> usize {
    (counted(&areas[place]) as usize - 16) / kind.widths()[place]
}

pub fn row(kind: Kind, number: u64, strides: u32, spans: u32) -> Vec<u8> {
    let mut bytes = number.to_le_bytes().to_vec();
    bytes.extend_from_slice(&strides.to_le_bytes());
    if kind == Kind::Paired {
        bytes.extend_from_slice(&spans.to_le_bytes());
    }
    bytes
}

/// Stores as many of the bytes as the area has room for.
pub fn put(area: &mut [u8], at: usize, bytes: &[u8]) {
    if at < area.len() {
        let n = bytes.len().min(area.len() - at);
        area[at..at + n].copy_from_slice(&bytes[..n]);
    }
}

/// The first place from byte 8 on where two areas differ.
pub fn first_difference(a: &Areas, b: &Areas) -> Option<String> {
    for place in 0..3 {
        let (x, y) = (&a[place], &b[place]);
        if x.len() != y.len() {
            return Some(format!("{}: port has {} bytes, original {}", NAMES[place], x.len(), y.len()));
        }
        if let Some(at) = (8..x.len()).find(|&i| x[i] != y[i]) {
            return Some(format!("{}: byte {at}: port {}, original {}", NAMES[place], x[at], y[at]));
        }
    }
    None
}
