//! The original's loc_simd.rs, unchanged, with stand-ins for the rest of its crate.
//! Magic, schema and table kinds have made-up numbers: bytes 0 to 7 of a file are not compared.
#![allow(dead_code)]

include!(concat!(env!("OUT_DIR"), "/modules.rs"));
pub use loc_simd::{deinterleave_pairs_u8x8, inclusive_u8x8_times_8};

/// A record number. The original's has more forms; a batch of them is all that reading takes.
#[derive(Clone, Copy, Debug, PartialEq, Eq)]
pub struct Fk(u64);

impl Fk {
    pub const fn new(id: u64) -> Self {
        Fk(id)
    }

    /// Nothing for 0, which numbers no record.
    pub fn get(self) -> Option<u64> {
        (self.0 != 0).then_some(self.0)
    }
}

#[derive(Clone, Copy, Debug, PartialEq, Eq)]
pub enum TableKind {
    DeltaLoc,
    ArrayLink,
}

impl TableKind {
    pub fn as_u16(self) -> u16 {
        match self {
            TableKind::DeltaLoc => 1,
            TableKind::ArrayLink => 2,
        }
    }
}

pub const STORE_MAGIC: [u8; 4] = *b"SHIM";
pub const SCHEMA_VERSION: u16 = 23;

/// Version 22 is opened and then migrated, which lies outside the comparison.
pub fn schema_file_openable(version: u16) -> bool {
    version == 22 || version == SCHEMA_VERSION
}

pub fn assert_not_script_worker(_what: &str) {}

#[derive(Debug)]
pub struct PackError(pub &'static str);
