//! The proved entries for C beside the reference, with what was seen of them.
//! Each function here panics where they differ.

use crate::binding::entries::{plan, replay};
use reference::buffers::lend;
use reference::entry::entry;
use reference::file::{is_plain, read, section_length, sections};
use reference::file::{COUNT, EDGES, LONGEST, SHORTEST, STEINER, WITH_DEVICES};
use reference::refusals::{Refusals, NO_ROOM};
use reference::script::hex_of;
use std::fmt;

/// The file that is written where there is room, or the number of a refusal.
pub type Expected = Result<Vec<u8>, u8>;

/// What the reference plans, with room for every file.
pub fn planned(file: &[u8]) -> Expected {
    let mut buffer = [0; LONGEST];
    let answer = entry(file, &mut buffer) as usize;
    if answer < SHORTEST {
        Err(answer as u8)
    } else {
        Ok(buffer[..answer].to_vec())
    }
}

/// The number of Steiner points of a file that is taken.
pub fn steiner_of(file: &[u8]) -> usize {
    section_length(file, STEINER) / 4
}

/// Whether a file that is taken has the section of kinds.
pub fn has_kinds(file: &[u8]) -> bool {
    usize::from(file[COUNT]) == WITH_DEVICES
}

/// The length of the deck of a file that is taken and full: each run by the
/// numbers of its ends in the bytes, added up.
pub fn length_of(file: &[u8]) -> i64 {
    let points = read(file).expect("a file that is taken").points();
    let runs = sections(file).expect("a file that is taken")[EDGES];
    runs.chunks_exact(2)
        .map(|ends| points[ends[0] as usize].distance(points[ends[1] as usize]))
        .sum()
}

/// What an entry is given: a file, and calls to make on its deck if it is not
/// to be planned.
#[derive(Clone, Copy)]
struct Given<'a> {
    file: &'a [u8],
    calls: Option<&'a [u8]>,
}

impl Given<'_> {
    fn answer(&self, out: &mut [u8]) -> usize {
        match self.calls {
            None => plan(self.file, out),
            Some(calls) => replay(self.file, calls, out),
        }
    }
}

impl fmt::Display for Given<'_> {
    fn fmt(&self, out: &mut fmt::Formatter<'_>) -> fmt::Result {
        let calls = self.calls.map(hex_of);
        write!(out, "file {}, calls {calls:?}", hex_of(self.file))
    }
}

/// The answer with a buffer of this size is the one expected. The buffer has
/// the file at its start where one is written, and is as it was in every other
/// byte; so are those around it. Returns the number of a refusal.
fn same_answer(given: Given, expected: &Expected, size: usize) -> Result<(), u8> {
    let (answer, written, refused): (usize, &[u8], _) = match expected {
        Ok(bytes) if bytes.len() <= size => (bytes.len(), bytes, Ok(())),
        Ok(_) => (NO_ROOM.into(), &[], Err(NO_ROOM)),
        Err(number) => ((*number).into(), &[], Err(*number)),
    };
    let found = lend(size, written, given, |out| given.answer(out));
    assert_eq!(found, answer, "room for {size}, {given}");
    refused
}

/// What was seen, so that a test can ask for enough of it.
#[derive(Clone, Debug, Default)]
pub struct Seen {
    /// What an entry was given, each with buffers of several sizes.
    pub given: usize,
    /// Answers by the number of the refusal.
    pub refused: Refusals,
    /// Answers with a file written.
    pub written: usize,
    /// Files that were taken, and no file at all.
    pub none: usize,
    pub plain: usize,
    pub full: usize,
    /// Files written that have Steiner points, and those that have kinds.
    pub with_steiner: usize,
    pub with_kinds: usize,
}

impl Seen {
    /// Plans a file by both. Returns what is expected of a buffer with room.
    pub fn plan(&mut self, file: &[u8]) -> Expected {
        let expected = planned(file);
        self.plan_to(file, &expected);
        expected
    }

    /// Plans a file, which leaves what is expected.
    pub fn plan_to(&mut self, file: &[u8], expected: &Expected) {
        self.same(Given { file, calls: None }, expected);
    }

    /// Makes calls on the deck of a file, which leave what is expected.
    pub fn replay(&mut self, file: &[u8], calls: &[u8], expected: &Expected) {
        let calls = Some(calls);
        self.same(Given { file, calls }, expected);
    }

    /// Buffers of several sizes: none, one byte short, exact and longer.
    fn same(&mut self, given: Given, expected: &Expected) {
        let sizes = match expected {
            Ok(bytes) => [0, bytes.len() - 1, bytes.len(), LONGEST + 1],
            Err(_) => [0, SHORTEST - 1, SHORTEST, LONGEST],
        };
        for size in sizes {
            match same_answer(given, expected, size) {
                Ok(()) => self.written += 1,
                Err(number) => self.refused.see(number),
            }
        }
        self.given += 1;
        if let Ok(bytes) = expected {
            *match given.file {
                [] => &mut self.none,
                file if is_plain(file) => &mut self.plain,
                _ => &mut self.full,
            } += 1;
            self.with_steiner += (steiner_of(bytes) > 0) as usize;
            self.with_kinds += has_kinds(bytes) as usize;
        }
    }
}
