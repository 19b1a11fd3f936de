//! The archive's functions. All unsafe code of this crate is here.
#![allow(unsafe_code)]

use crate::{Answer, Entry, Job};

// Each lent list is passed as a pointer and then a length, and the answer comes back by value: `bindings/c/krosstavel.h` says the same to C.
extern "C" {
    fn krosstavel_root(
        kinds: *const u8,
        kinds_len: usize,
        lens: *const u32,
        lens_len: usize,
        table: *mut u32,
        table_len: usize,
        limit: u32,
    ) -> Answer;
    fn krosstavel_exprs(
        kinds: *const u8,
        kinds_len: usize,
        lens: *const u32,
        lens_len: usize,
        table: *mut u32,
        table_len: usize,
        separator: u32,
        limit: u32,
    ) -> Answer;
    fn krosstavel_format(
        kinds: *const u8,
        kinds_len: usize,
        lens: *const u32,
        lens_len: usize,
        table: *mut u32,
        table_len: usize,
        limit: u32,
    ) -> Answer;
    fn krosstavel_batch(
        kinds: *const u8,
        kinds_len: usize,
        lens: *const u32,
        lens_len: usize,
        jobs: *mut Job,
        jobs_len: usize,
        table: *mut u32,
        table_len: usize,
    ) -> Answer;
}

/// The call of an entry.
pub(crate) fn call(entry: Entry, kinds: &[u8], lens: &[u32], table: &mut [u32], limit: u32) -> Answer {
    let (k, kn) = (kinds.as_ptr(), kinds.len());
    let (l, ln) = (lens.as_ptr(), lens.len());
    let (t, tn) = (table.as_mut_ptr(), table.len());
    // SAFETY: each pointer and length are those of one live slice. Only the table is written to, and it is lent to this call alone. The functions keep
    // none of them, ask nothing more of their arguments (they are proved without any condition) and do not unwind.
    unsafe {
        match entry {
            Entry::Root => krosstavel_root(k, kn, l, ln, t, tn, limit),
            Entry::Exprs(separator) => krosstavel_exprs(k, kn, l, ln, t, tn, separator, limit),
            Entry::Format => krosstavel_format(k, kn, l, ln, t, tn, limit),
        }
    }
}

/// The call of a night.
pub(crate) fn batch(kinds: &[u8], lens: &[u32], jobs: &mut [Job], table: &mut [u32]) -> Answer {
    let (k, kn) = (kinds.as_ptr(), kinds.len());
    let (l, ln) = (lens.as_ptr(), lens.len());
    let (j, jn) = (jobs.as_mut_ptr(), jobs.len());
    let (t, tn) = (table.as_mut_ptr(), table.len());
    // SAFETY: as in `call`; the records too are lent to this call alone.
    unsafe { krosstavel_batch(k, kn, l, ln, j, jn, t, tn) }
}
