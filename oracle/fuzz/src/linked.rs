//! What the harness calls. All unsafe code of this crate is here; `harness.c` declares the same.

use oracle::case::Case;
use oracle::tree;

/// A case and the oracle's answer to it, with the whole table.
pub struct Answered {
    case: Case,
    answer: oracle::Answer,
    table: Vec<u32>,
}

/// What the harness sees of it. The pointers hold until `fuzz_free`.
#[repr(C)]
pub struct View {
    entry: u32,
    separator: u32,
    limit: u32,
    kinds: *const u8,
    kinds_len: usize,
    lens: *const u32,
    lens_len: usize,
    table: *const u32,
    table_len: usize,
    number: u32,
    place: u32,
    rows: u32,
}

/// Reads an input as a case and answers it; null if the input is none.
///
/// # Safety
/// `data` is that of `size` bytes, and `view` is that of a view to be written.
#[no_mangle]
pub unsafe extern "C" fn fuzz_answer(
    data: *const u8,
    size: usize,
    view: *mut View,
) -> *mut Answered {
    // SAFETY: the caller's promise. A null pointer, which comes with size 0, is no slice's.
    let data = if size == 0 {
        &[]
    } else {
        unsafe { std::slice::from_raw_parts(data, size) }
    };
    let Some(case) = crate::input::read(data) else {
        return std::ptr::null_mut();
    };
    let (answer, table) = case.run();
    let answered = Box::new(Answered {
        case,
        answer,
        table,
    });
    let Answered {
        case,
        answer,
        table,
    } = &*answered;
    let seen = View {
        entry: case.entry as u32,
        separator: case.separator,
        limit: case.limit,
        kinds: case.kinds.as_ptr(),
        kinds_len: case.kinds.len(),
        lens: case.lens.as_ptr(),
        lens_len: case.lens.len(),
        table: table.as_ptr(),
        table_len: table.len(),
        number: answer.number,
        place: answer.place,
        rows: answer.rows,
    };
    // SAFETY: the caller's promise.
    unsafe { view.write(seen) };
    Box::into_raw(answered)
}

/// Prints the case with the oracle's answer, as a line for `oracle check` and `differ check`.
///
/// # Safety
/// `answered` came from `fuzz_answer` and is not yet freed.
#[no_mangle]
pub unsafe extern "C" fn fuzz_print(answered: *const Answered) {
    // SAFETY: the caller's promise.
    let Answered {
        case,
        answer,
        table,
    } = unsafe { &*answered };
    eprintln!(
        "{}",
        case.line_with(answer, &tree::rows(table, answer.rows))
    );
}

/// # Safety
/// `answered` came from `fuzz_answer` and is not yet freed.
#[no_mangle]
pub unsafe extern "C" fn fuzz_free(answered: *mut Answered) {
    // SAFETY: the caller's promise: it is a box of ours, given back once.
    drop(unsafe { Box::from_raw(answered) });
}
