//! Areas that something went wrong with: lengths, slots, rows and checkpoints changed at random.
//! What is chosen lies near the rules' limits more often than not.
use crate::areas::{counted, pieces, put, row, store_len, Areas, Kind, CHECKPOINTS, ROWS, SLOTS};
use crate::pick::Pick;

pub fn damage(kind: Kind, areas: &mut Areas, pick: &mut Pick) -> &'static str {
    match pick.below(12) {
        0 => stored_byte(areas, pick),
        1 => stored_length(kind, areas, pick),
        2 => some_pieces(kind, areas, pick),
        3 => slot(areas, pick),
        4 => row_number(kind, areas, pick),
        5 => row_value(kind, areas, pick),
        6 => checkpoint(kind, areas, pick),
        7 => row_behind(kind, areas, pick),
        8 => rows_unpublished(kind, areas, pick),
        9 => size(areas, pick),
        10 => past_the_end(areas, pick),
        _ => any_byte(areas, pick),
    }
}

fn stored_byte(areas: &mut Areas, pick: &mut Pick) -> &'static str {
    let place = pick.size(3);
    let at = 8 + if pick.one_in(3) { pick.size(8) } else { pick.size(2) };
    areas[place][at] ^= 1 << pick.below(8);
    "a bit of a stored length"
}

fn stored_length(kind: Kind, areas: &mut Areas, pick: &mut Pick) -> &'static str {
    let place = pick.size(3);
    let (now, all) = (counted(&areas[place]), areas[place].len() as u64);
    let width = kind.widths()[place] as u64;
    let any = 16 + pick.below(all - 15);
    let whole = 16 + (any - 16) / width * width;
    let len = pick.of(&[
        0,
        5,
        15,
        16,
        17,
        18,
        now - 1,
        now + 1,
        now + 2,
        now.saturating_sub(2),
        now + width,
        now.saturating_sub(width),
        all,
        all - 1,
        all + 1,
        any,
        whole,
        whole,
        u64::MAX,
        u64::MAX - 7,
        1 << 63,
        1 << 32,
    ]);
    store_len(&mut areas[place], len);
    "a stored length"
}

/// A few pieces more or fewer are published, whole ones.
fn some_pieces(kind: Kind, areas: &mut Areas, pick: &mut Pick) -> &'static str {
    let place = pick.of(&[SLOTS, ROWS, CHECKPOINTS, CHECKPOINTS]);
    let width = kind.widths()[place] as u64;
    let now = counted(&areas[place]);
    let most = if place == SLOTS && pick.one_in(2) { 1030 } else { 3 };
    let by = width * (1 + pick.below(most));
    let len = if pick.one_in(2) { now + by } else { now.saturating_sub(by).max(16) };
    store_len(&mut areas[place], len);
    "pieces published or withdrawn"
}

pub fn slot(areas: &mut Areas, pick: &mut Pick) -> &'static str {
    let n = (counted(&areas[SLOTS]) as usize - 16) / 2;
    if n > 0 {
        let at = 16 + 2 * pick.size(n);
        match pick.below(4) {
            0 => areas[SLOTS][at] = 0,
            1 => areas[SLOTS][at + 1] = 0,
            2 => areas[SLOTS][at..at + 2].fill(0),
            _ => areas[SLOTS][at + pick.size(2)] = pick.word() as u8,
        }
    }
    "a slot"
}

fn row_number(kind: Kind, areas: &mut Areas, pick: &mut Pick) -> &'static str {
    let n = pieces(kind, areas, ROWS);
    if n > 0 {
        let width = kind.widths()[ROWS];
        let i = pick.size(n);
        let at = 16 + width * i;
        let old = u64::from_le_bytes(areas[ROWS][at..at + 8].try_into().unwrap());
        let before =
            if i == 0 { 0 } else { u64::from_le_bytes(areas[ROWS][at - width..at - width + 8].try_into().unwrap()) };
        let count = (counted(&areas[SLOTS]) - 16) / 2;
        let new = pick.of(&[
            0,
            1,
            before,
            before + 1,
            old.wrapping_add(1),
            old.wrapping_sub(1),
            count,
            count + 1,
            u64::MAX,
            1 << 32,
        ]);
        areas[ROWS][at..at + 8].copy_from_slice(&new.to_le_bytes());
    }
    "a row's number"
}

pub fn row_value(kind: Kind, areas: &mut Areas, pick: &mut Pick) -> &'static str {
    let n = pieces(kind, areas, ROWS);
    if n > 0 {
        let width = kind.widths()[ROWS];
        let at = 16 + width * pick.size(n) + 8 + if width == 16 { 4 * pick.size(2) } else { 0 };
        let new = value(pick);
        areas[ROWS][at..at + 4].copy_from_slice(&new.to_le_bytes());
    }
    "a row's value"
}

/// A stored 32-bit value near a limit.
pub fn value(pick: &mut Pick) -> u32 {
    let any = pick.word() as u32;
    pick.of(&[0, 1, 5, 255, 256, 257, 300, 65_535, 65_536, 65_537, u32::MAX, u32::MAX - 1, any, any >> 12])
}

pub fn checkpoint(kind: Kind, areas: &mut Areas, pick: &mut Pick) -> &'static str {
    let n = pieces(kind, areas, CHECKPOINTS);
    if n > 0 {
        let width = kind.widths()[CHECKPOINTS];
        let at = 16 + width * pick.size(n) + if width == 16 { 8 * pick.size(2) } else { 0 };
        let any = pick.word();
        let new = pick.of(&[0, 1, 16, u64::MAX, u64::MAX - 1, u64::MAX - 5000, u64::MAX - 2_000_000, 1 << 63, any]);
        areas[CHECKPOINTS][at..at + 8].copy_from_slice(&new.to_le_bytes());
    }
    "a checkpoint"
}

/// A row just past the published ones, as a torn append leaves it, or nearly so.
fn row_behind(kind: Kind, areas: &mut Areas, pick: &mut Pick) -> &'static str {
    let n = (counted(&areas[SLOTS]) as usize - 16) / 2;
    let slots = &areas[SLOTS];
    let open: Vec<usize> = (0..n).filter(|&i| slots[16 + 2 * i] == 0 || slots[17 + 2 * i] == 0).collect();
    let last = pieces(kind, areas, ROWS);
    let last = if last == 0 {
        0
    } else {
        let at = 16 + kind.widths()[ROWS] * (last - 1);
        u64::from_le_bytes(areas[ROWS][at..at + 8].try_into().unwrap())
    };
    let number = if !open.is_empty() && !pick.one_in(4) {
        pick.of(&open) as u64 + 1
    } else {
        let any = 1 + pick.below(n as u64 + 2);
        pick.of(&[0, 1, last, last.wrapping_add(1), n as u64, n as u64 + 1, any, u64::MAX])
    };
    // values that agree with the slot, and then one of them perhaps not
    let (mut strides, mut spans) = (300u32, 300u32);
    if number >= 1 && number <= n as u64 {
        let at = 16 + 2 * (number as usize - 1);
        if kind == Kind::Paired {
            if slots[at] != 0 {
                strides = u32::from(slots[at]);
            }
            if slots[at + 1] != 0 {
                spans = u32::from(slots[at + 1]);
            }
        } else {
            strides = 65_536 + pick.below(3) as u32;
        }
        match pick.below(8) {
            0 => strides = value(pick),
            1 => spans = value(pick),
            2 => areas[SLOTS][at] = 0,
            3 => areas[SLOTS][at + 1] = 0,
            _ => {}
        }
    }
    if pick.one_in(3) {
        // the last published row becomes one before it
        let at = counted(&areas[ROWS]) as usize;
        if last > 0 && last >= number && number > 1 {
            let width = kind.widths()[ROWS];
            put(&mut areas[ROWS], at - width, &(number - 1).to_le_bytes());
        }
    }
    let at = counted(&areas[ROWS]) as usize;
    put(&mut areas[ROWS], at, &row(kind, number, strides, spans));
    "a row past the published ones"
}

/// Rows that stand in the area and are published no longer.
fn rows_unpublished(kind: Kind, areas: &mut Areas, pick: &mut Pick) -> &'static str {
    let n = pieces(kind, areas, ROWS);
    let keep = pick.size(n + 1);
    store_len(&mut areas[ROWS], (16 + keep * kind.widths()[ROWS]) as u64);
    "rows withdrawn"
}

fn size(areas: &mut Areas, pick: &mut Pick) -> &'static str {
    let place = pick.size(3);
    let now = counted(&areas[place]) as usize;
    let all = areas[place].len();
    let any = 16 + pick.size(all);
    let new = pick.of(&[16, 17, now, now + 1, now.saturating_sub(1).max(16), all + 8, all + 1, any, now + 16]);
    let fill = pick.of(&[0u8, 0, 1, 255]);
    areas[place].resize(new, fill);
    "an area's size"
}

fn past_the_end(areas: &mut Areas, pick: &mut Pick) -> &'static str {
    let place = pick.size(3);
    let from = counted(&areas[place]) as usize;
    for at in from..areas[place].len().min(from + 80) {
        areas[place][at] = pick.word() as u8 & pick.of(&[0, 1, 255]);
    }
    "bytes past a published end"
}

fn any_byte(areas: &mut Areas, pick: &mut Pick) -> &'static str {
    let place = pick.size(3);
    let at = 8 + pick.size(areas[place].len() - 8);
    areas[place][at] = pick.word() as u8;
    "some byte"
}
