//! Port and original side by side: the same areas, the same calls, every answer held against the other's.
//! `compare` runs cases, `sample` writes the answers that are replayed, `bench` measures.

pub mod areas;
pub mod audit;
pub mod call;
pub mod carry;
pub mod damage;
pub mod history;
pub mod inputs;
pub mod judge;
pub mod listing;
pub mod load;
pub mod named;
pub mod parts;
pub mod pick;
pub mod port;
pub mod span_at;
pub mod sweep;
pub mod tally;
pub mod tape;
pub mod tear;
pub mod trial;
pub mod withheld;
