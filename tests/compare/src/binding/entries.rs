//! The proved entries for C, as include/planner.h and include/replay.h declare
//! them. They take every input, so each function around them is safe. Where a
//! slice is empty, its pointer is null.

use std::ptr;

mod library {
    unsafe extern "C" {
        /// A file read, run to the end and written.
        pub fn planner_plan(
            file: *const u8,
            file_len: usize,
            out: *mut u8,
            out_len: usize,
        ) -> usize;
        /// A file read, calls made on its deck, and the deck written.
        pub fn replay_calls(
            file: *const u8,
            file_len: usize,
            calls: *const u8,
            calls_len: usize,
            out: *mut u8,
            out_len: usize,
        ) -> usize;
    }
}

fn start(bytes: &[u8]) -> *const u8 {
    if bytes.is_empty() {
        ptr::null()
    } else {
        bytes.as_ptr()
    }
}

fn start_mut(bytes: &mut [u8]) -> *mut u8 {
    if bytes.is_empty() {
        ptr::null_mut()
    } else {
        bytes.as_mut_ptr()
    }
}

/// Plans a deck file into `out`: the length written, or the refusal's number.
pub fn plan(file: &[u8], out: &mut [u8]) -> usize {
    // SAFETY: each pointer comes with the length of its slice.
    unsafe { library::planner_plan(start(file), file.len(), start_mut(out), out.len()) }
}

/// Makes calls on the deck of a file, or on an empty one where it has no bytes,
/// and writes it into `out`: the length written, or the refusal's number.
pub fn replay(file: &[u8], calls: &[u8], out: &mut [u8]) -> usize {
    // SAFETY: each pointer comes with the length of its slice.
    unsafe {
        library::replay_calls(
            start(file),
            file.len(),
            start(calls),
            calls.len(),
            start_mut(out),
            out.len(),
        )
    }
}
