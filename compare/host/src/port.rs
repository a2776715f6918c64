//! The port's calls, as the static library exports them.
//! A slice is a pointer and a length in elements; the value comes back through a pointer.
use crate::areas::{Areas, Kind};
use crate::call::Batch;

#[rustfmt::skip]
mod c {
    macro_rules! calls {
        ($create:ident $open:ident $open_run:ident $truncate:ident $truncate_run:ident $read:ident $audit:ident $withheld:ident) => {
            pub fn $create(s: *mut u8, sn: usize, r: *mut u8, rn: usize, c: *mut u8, cn: usize, value: *mut u64) -> u64;
            pub fn $open(s: *mut u8, sn: usize, r: *mut u8, rn: usize, c: *mut u8, cn: usize, value: *mut u64) -> u64;
            pub fn $open_run(s: *mut u8, sn: usize, r: *mut u8, rn: usize, c: *mut u8, cn: usize, places: u64, value: *mut u64) -> u64;
            pub fn $truncate(s: *mut u8, sn: usize, r: *mut u8, rn: usize, c: *mut u8, cn: usize, count: u64, value: *mut u64) -> u64;
            pub fn $truncate_run(s: *mut u8, sn: usize, r: *mut u8, rn: usize, c: *mut u8, cn: usize, count: u64, places: u64, value: *mut u64) -> u64;
            pub fn $read(s: *const u8, sn: usize, r: *const u8, rn: usize, c: *const u8, cn: usize, wanted: *const u64, wn: usize, answers: *mut u64, an: usize, value: *mut u64) -> u64;
            pub fn $audit(s: *const u8, sn: usize, r: *const u8, rn: usize, c: *const u8, cn: usize, value: *mut u64) -> u64;
            pub fn $withheld(s: *const u8, sn: usize, r: *const u8, rn: usize, c: *const u8, cn: usize, durable: u64, value: *mut u64) -> u64;
        };
    }
    extern "C" {
        calls!(create_loc_create create_loc_open create_loc_open_run create_loc_truncate create_loc_truncate_run create_loc_read create_loc_audit create_loc_withheld_ovf_limit);
        calls!(delta_loc_create delta_loc_open delta_loc_open_run delta_loc_truncate delta_loc_truncate_run delta_loc_read delta_loc_audit delta_loc_withheld_ovf_limit);
        pub fn create_loc_append(
            s: *mut u8, sn: usize, r: *mut u8, rn: usize, c: *mut u8, cn: usize,
            starts: *const u64, starts_n: usize, lens: *const u64, lens_n: usize,
            span_starts: *const u64, span_starts_n: usize, spans: *const u32, spans_n: usize,
            value: *mut u64,
        ) -> u64;
        pub fn create_loc_append_run(
            s: *mut u8, sn: usize, r: *mut u8, rn: usize, c: *mut u8, cn: usize,
            starts: *const u64, starts_n: usize, lens: *const u64, lens_n: usize,
            span_starts: *const u64, span_starts_n: usize, spans: *const u32, spans_n: usize,
            places: u64, value: *mut u64,
        ) -> u64;
        pub fn create_loc_append_listing(
            s: *mut u8, sn: usize, r: *mut u8, rn: usize, c: *mut u8, cn: usize,
            text: *const u8, text_n: usize,
            value: *mut u64,
        ) -> u64;
        pub fn create_loc_append_listing_run(
            s: *mut u8, sn: usize, r: *mut u8, rn: usize, c: *mut u8, cn: usize,
            text: *const u8, text_n: usize,
            places: u64, value: *mut u64,
        ) -> u64;
        pub fn create_loc_span_at(
            s: *const u8, sn: usize, r: *const u8, rn: usize, c: *const u8, cn: usize,
            address: u64, record: *mut u64, index: *mut u64, remainder: *mut u64,
        ) -> u64;
        pub fn create_loc_parts(
            s: *const u8, sn: usize, r: *const u8, rn: usize, c: *const u8, cn: usize,
            composites: *const u64, composites_n: usize, components: *const u64, components_n: usize,
            record: u64, answers: *mut u64, an: usize, value: *mut u64,
        ) -> u64;
        pub fn delta_loc_append(
            s: *mut u8, sn: usize, r: *mut u8, rn: usize, c: *mut u8, cn: usize,
            starts: *const u64, starts_n: usize, lens: *const u64, lens_n: usize,
            value: *mut u64,
        ) -> u64;
        pub fn delta_loc_append_run(
            s: *mut u8, sn: usize, r: *mut u8, rn: usize, c: *mut u8, cn: usize,
            starts: *const u64, starts_n: usize, lens: *const u64, lens_n: usize,
            places: u64, value: *mut u64,
        ) -> u64;
    }
}

/// Number and value.
pub type Answer = (u64, u64);

/// Number, and the record, the index of the span in it and the remainder.
pub type Crossing = (u64, [u64; 3]);

/// What the value holds before a call: a call that does not store it is seen.
const UNSET: u64 = 0xdead_beef_dead_beef;

pub fn create(kind: Kind, areas: &mut Areas) -> Answer {
    let [s, r, k] = areas;
    let mut value = UNSET;
    let call = match kind {
        Kind::Paired => c::create_loc_create,
        Kind::Single => c::delta_loc_create,
    };
    let number = unsafe { call(s.as_mut_ptr(), s.len(), r.as_mut_ptr(), r.len(), k.as_mut_ptr(), k.len(), &mut value) };
    (number, value)
}

pub fn open(kind: Kind, areas: &mut Areas) -> Answer {
    let [s, r, k] = areas;
    let mut value = UNSET;
    let call = match kind {
        Kind::Paired => c::create_loc_open,
        Kind::Single => c::delta_loc_open,
    };
    let number = unsafe { call(s.as_mut_ptr(), s.len(), r.as_mut_ptr(), r.len(), k.as_mut_ptr(), k.len(), &mut value) };
    (number, value)
}

pub fn open_run(kind: Kind, areas: &mut Areas, places: u64) -> Answer {
    let [s, r, k] = areas;
    let mut value = UNSET;
    let call = match kind {
        Kind::Paired => c::create_loc_open_run,
        Kind::Single => c::delta_loc_open_run,
    };
    let number =
        unsafe { call(s.as_mut_ptr(), s.len(), r.as_mut_ptr(), r.len(), k.as_mut_ptr(), k.len(), places, &mut value) };
    (number, value)
}

pub fn truncate(kind: Kind, areas: &mut Areas, count: u64) -> Answer {
    let [s, r, k] = areas;
    let mut value = UNSET;
    let call = match kind {
        Kind::Paired => c::create_loc_truncate,
        Kind::Single => c::delta_loc_truncate,
    };
    let number =
        unsafe { call(s.as_mut_ptr(), s.len(), r.as_mut_ptr(), r.len(), k.as_mut_ptr(), k.len(), count, &mut value) };
    (number, value)
}

pub fn truncate_run(kind: Kind, areas: &mut Areas, count: u64, places: u64) -> Answer {
    let [s, r, k] = areas;
    let mut value = UNSET;
    let call = match kind {
        Kind::Paired => c::create_loc_truncate_run,
        Kind::Single => c::delta_loc_truncate_run,
    };
    let number = unsafe {
        call(s.as_mut_ptr(), s.len(), r.as_mut_ptr(), r.len(), k.as_mut_ptr(), k.len(), count, places, &mut value)
    };
    (number, value)
}

pub fn append(kind: Kind, areas: &mut Areas, b: &Batch) -> Answer {
    let [s, r, k] = areas;
    let mut value = UNSET;
    let number = match kind {
        Kind::Paired => unsafe {
            c::create_loc_append(
                s.as_mut_ptr(),
                s.len(),
                r.as_mut_ptr(),
                r.len(),
                k.as_mut_ptr(),
                k.len(),
                b.starts.as_ptr(),
                b.starts.len(),
                b.lens.as_ptr(),
                b.lens.len(),
                b.span_starts.as_ptr(),
                b.span_starts.len(),
                b.spans.as_ptr(),
                b.spans.len(),
                &mut value,
            )
        },
        Kind::Single => unsafe {
            c::delta_loc_append(
                s.as_mut_ptr(),
                s.len(),
                r.as_mut_ptr(),
                r.len(),
                k.as_mut_ptr(),
                k.len(),
                b.starts.as_ptr(),
                b.starts.len(),
                b.lens.as_ptr(),
                b.lens.len(),
                &mut value,
            )
        },
    };
    (number, value)
}

pub fn append_run(kind: Kind, areas: &mut Areas, b: &Batch, places: u64) -> Answer {
    let [s, r, k] = areas;
    let mut value = UNSET;
    let number = match kind {
        Kind::Paired => unsafe {
            c::create_loc_append_run(
                s.as_mut_ptr(),
                s.len(),
                r.as_mut_ptr(),
                r.len(),
                k.as_mut_ptr(),
                k.len(),
                b.starts.as_ptr(),
                b.starts.len(),
                b.lens.as_ptr(),
                b.lens.len(),
                b.span_starts.as_ptr(),
                b.span_starts.len(),
                b.spans.as_ptr(),
                b.spans.len(),
                places,
                &mut value,
            )
        },
        Kind::Single => unsafe {
            c::delta_loc_append_run(
                s.as_mut_ptr(),
                s.len(),
                r.as_mut_ptr(),
                r.len(),
                k.as_mut_ptr(),
                k.len(),
                b.starts.as_ptr(),
                b.starts.len(),
                b.lens.as_ptr(),
                b.lens.len(),
                places,
                &mut value,
            )
        },
    };
    (number, value)
}

/// A listing read back, into a paired index.
pub fn append_listing(areas: &mut Areas, text: &[u8]) -> Answer {
    let [s, r, k] = areas;
    let mut value = UNSET;
    let number = unsafe {
        c::create_loc_append_listing(
            s.as_mut_ptr(),
            s.len(),
            r.as_mut_ptr(),
            r.len(),
            k.as_mut_ptr(),
            k.len(),
            text.as_ptr(),
            text.len(),
            &mut value,
        )
    };
    (number, value)
}

pub fn append_listing_run(areas: &mut Areas, text: &[u8], places: u64) -> Answer {
    let [s, r, k] = areas;
    let mut value = UNSET;
    let number = unsafe {
        c::create_loc_append_listing_run(
            s.as_mut_ptr(),
            s.len(),
            r.as_mut_ptr(),
            r.len(),
            k.as_mut_ptr(),
            k.len(),
            text.as_ptr(),
            text.len(),
            places,
            &mut value,
        )
    };
    (number, value)
}

pub fn read(kind: Kind, areas: &Areas, wanted: &[u64], answers: &mut [u64]) -> Answer {
    let [s, r, k] = areas;
    let mut value = UNSET;
    let call = match kind {
        Kind::Paired => c::create_loc_read,
        Kind::Single => c::delta_loc_read,
    };
    let number = unsafe {
        call(
            s.as_ptr(),
            s.len(),
            r.as_ptr(),
            r.len(),
            k.as_ptr(),
            k.len(),
            wanted.as_ptr(),
            wanted.len(),
            answers.as_mut_ptr(),
            answers.len(),
            &mut value,
        )
    };
    (number, value)
}

pub fn audit(kind: Kind, areas: &Areas) -> Answer {
    let [s, r, k] = areas;
    let mut value = UNSET;
    let call = match kind {
        Kind::Paired => c::create_loc_audit,
        Kind::Single => c::delta_loc_audit,
    };
    let number = unsafe { call(s.as_ptr(), s.len(), r.as_ptr(), r.len(), k.as_ptr(), k.len(), &mut value) };
    (number, value)
}

/// How many records are durable where the rows have reached this length.
pub fn withheld(kind: Kind, areas: &Areas, durable: u64) -> Answer {
    let [s, r, k] = areas;
    let mut value = UNSET;
    let call = match kind {
        Kind::Paired => c::create_loc_withheld_ovf_limit,
        Kind::Single => c::delta_loc_withheld_ovf_limit,
    };
    let number = unsafe { call(s.as_ptr(), s.len(), r.as_ptr(), r.len(), k.as_ptr(), k.len(), durable, &mut value) };
    (number, value)
}

/// Whose crossing is at an address of a paired index.
pub fn span_at(areas: &Areas, address: u64) -> Crossing {
    let [s, r, k] = areas;
    let [mut record, mut index, mut remainder] = [UNSET; 3];
    let number = unsafe {
        c::create_loc_span_at(
            s.as_ptr(),
            s.len(),
            r.as_ptr(),
            r.len(),
            k.as_ptr(),
            k.len(),
            address,
            &mut record,
            &mut index,
            &mut remainder,
        )
    };
    (number, [record, index, remainder])
}

/// What a record of a paired index needs, by pairs of composite and component.
pub fn parts(areas: &Areas, (composites, components): (&[u64], &[u64]), record: u64, answers: &mut [u64]) -> Answer {
    let [s, r, k] = areas;
    let mut value = UNSET;
    let number = unsafe {
        c::create_loc_parts(
            s.as_ptr(),
            s.len(),
            r.as_ptr(),
            r.len(),
            k.as_ptr(),
            k.len(),
            composites.as_ptr(),
            composites.len(),
            components.as_ptr(),
            components.len(),
            record,
            answers.as_mut_ptr(),
            answers.len(),
            &mut value,
        )
    };
    (number, value)
}
