//! Buffers lent to be written, of which every byte is looked at afterwards.

use std::fmt::Display;

/// The bytes before and behind a buffer, which are looked at too.
const MARGIN: usize = 16;

/// Lends a buffer of this size to a writer, twice, the second time with every
/// bit turned before. Afterwards `written` stands at its start, and every other
/// byte of it and of those around it is as it was. Returns what the writer
/// answered both times; `given` says in a failure what it was asked for.
pub fn lend<T: PartialEq + std::fmt::Debug>(
    size: usize,
    written: &[u8],
    given: impl Display,
    mut writer: impl FnMut(&mut [u8]) -> T,
) -> T {
    let mut answer = |turned: u8| {
        let before = (0..size + 2 * MARGIN).map(|i| (167 * i + 13) as u8 ^ turned);
        let mut right: Vec<u8> = before.collect();
        let mut after = right.clone();
        let answer = writer(&mut after[MARGIN..MARGIN + size]);
        right[MARGIN..MARGIN + written.len()].copy_from_slice(written);
        assert!(after == right, "a byte differs, room for {size}: {given}");
        answer
    };
    let (once, again) = (answer(0), answer(0xff));
    assert_eq!(once, again, "room for {size}: {given}");
    once
}
