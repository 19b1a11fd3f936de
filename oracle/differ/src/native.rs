//! The proved side, with the oracle's types, and how much stack a call has used. All
//! unsafe code of this crate is here.

use std::hint::black_box;

use oracle::night::Job;
use oracle::{Answer, Entry};

/// The proved parse, with the arguments of [`oracle::parse`].
pub fn parse(
    entry: Entry,
    kinds: &[u8],
    lens: &[u32],
    table: &mut [u32],
    separator: u32,
    limit: u32,
) -> Answer {
    let entry = match entry {
        Entry::Root => krosstavel::Entry::Root,
        Entry::Exprs => krosstavel::Entry::Exprs(separator),
        Entry::Format => krosstavel::Entry::Format,
    };
    answer(entry.answer(kinds, lens, table, limit))
}

fn answer(from: krosstavel::Answer) -> Answer {
    Answer {
        number: from.number,
        place: from.place,
        rows: from.rows,
    }
}

/// A night's call: that of the proved parser, or one that stands in for it.
pub type Batch = fn(&[u8], &[u32], &mut [Record], &mut [u32]) -> Answer;

/// The proved parser's record, which lies in memory as the archive wants it.
pub type Record = krosstavel::Job;

/// The proved night. It takes its own records: whoever watches what is written
/// beside them, or the time, has no copies in between.
pub fn batch(kinds: &[u8], lens: &[u32], records: &mut [Record], table: &mut [u32]) -> Answer {
    answer(krosstavel::batch(kinds, lens, records, table))
}

/// A job as the proved parser's record.
pub fn record(job: &Job) -> Record {
    Record {
        entry: job.entry,
        separator: job.separator,
        limit: job.limit,
        first: job.first,
        count: job.count,
        answer: krosstavel::Answer {
            number: job.answer.number,
            place: job.answer.place,
            rows: job.answer.rows,
        },
    }
}

/// A record as the oracle's job.
pub fn job(record: &Record) -> Job {
    Job {
        entry: record.entry,
        separator: record.separator,
        limit: record.limit,
        first: record.first,
        count: record.count,
        answer: answer(record.answer),
    }
}

/// A stack of the size that a program has by default.
pub const MEASURED_STACK: usize = 8 << 20;

/// How many words are painted: all of that stack but what the thread itself
/// and the measuring may take.
const PAINTED: usize = (7 << 20) / size_of::<u64>();
const PAINT: u64 = 0x5ca1_ab1e_c0ff_ee11;

/// How many bytes of stack a call uses, up to 7 MiB: the stack below is painted,
/// and what is still painted after the call was not used. It has to be asked on
/// a thread with [`MEASURED_STACK`].
#[inline(never)]
pub fn stack_used(call: &mut dyn FnMut()) -> usize {
    let lowest = paint();
    call();
    (PAINTED - still_painted(lowest)) * size_of::<u64>()
}

/// Paints the stack below the caller's frame, and gives its lowest address.
#[inline(never)]
fn paint() -> usize {
    let mut room = [PAINT; PAINTED];
    black_box(&mut room).as_ptr() as usize
}

/// How many words from the lowest one up still have their paint.
#[inline(never)]
fn still_painted(lowest: usize) -> usize {
    let lowest = lowest as *const u64;
    let is_painted = |word: &usize| {
        // SAFETY: the address lies in the part of this thread's own stack that
        // `paint` has written, so it is mapped, aligned and initialised. No
        // object lives there now. The read is volatile: the compiler may not
        // conclude anything from it.
        PAINT == unsafe { lowest.wrapping_add(*word).read_volatile() }
    };
    (0..PAINTED).take_while(is_painted).count()
}
