//! The proved functions on trees, as `test_tree` has them. They take every input,
//! so each function around them is safe.

mod library {
    unsafe extern "C" {
        /// The tree of points.
        pub fn entry_build(
            xs: *const u16,
            xs_len: usize,
            ys: *const u16,
            ys_len: usize,
            keys: *mut u64,
            keys_len: usize,
        ) -> usize;
        /// The lengths of the trees with one point more.
        pub fn entry_lengths(
            xs: *const u16,
            xs_len: usize,
            ys: *const u16,
            ys_len: usize,
            cx: *const u16,
            cx_len: usize,
            cy: *const u16,
            cy_len: usize,
            out: *mut u64,
            out_len: usize,
        ) -> usize;
        /// The edges at a number.
        pub fn entry_degree(keys: *const u64, keys_len: usize, i: usize) -> usize;
        /// The edges in the listing order.
        pub fn entry_listing(
            keys: *const u64,
            keys_len: usize,
            out: *mut u64,
            out_len: usize,
        ) -> usize;
    }
}

/// What a refusal answers.
pub const REFUSED: usize = usize::MAX;

/// The most points that are taken.
pub const MOST_POINTS: usize = 127;

/// The keys of the tree of the points, at the front of `keys`; their number.
pub fn build(xs: &[u16], ys: &[u16], keys: &mut [u64]) -> usize {
    // SAFETY: each pointer comes with the length of its slice.
    unsafe {
        library::entry_build(
            xs.as_ptr(),
            xs.len(),
            ys.as_ptr(),
            ys.len(),
            keys.as_mut_ptr(),
            keys.len(),
        )
    }
}

/// The length of the tree with each crossing, at the front of `out`; the
/// number of crossings.
pub fn lengths(xs: &[u16], ys: &[u16], cx: &[u16], cy: &[u16], out: &mut [u64]) -> usize {
    // SAFETY: each pointer comes with the length of its slice.
    unsafe {
        library::entry_lengths(
            xs.as_ptr(),
            xs.len(),
            ys.as_ptr(),
            ys.len(),
            cx.as_ptr(),
            cx.len(),
            cy.as_ptr(),
            cy.len(),
            out.as_mut_ptr(),
            out.len(),
        )
    }
}

/// How many of the keys have an end at the number i.
pub fn degree(keys: &[u64], i: usize) -> usize {
    // SAFETY: the pointer comes with the length of its slice.
    unsafe { library::entry_degree(keys.as_ptr(), keys.len(), i) }
}

/// The ends of the keys in the listing order, at the front of `out`; their
/// number.
pub fn listing(keys: &[u64], out: &mut [u64]) -> usize {
    // SAFETY: each pointer comes with the length of its slice.
    unsafe { library::entry_listing(keys.as_ptr(), keys.len(), out.as_mut_ptr(), out.len()) }
}
