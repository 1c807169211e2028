//! The proved arrows beside the reference, with what was seen of them.

use crate::binding::display;
use reference::arrows::{arrow, Sight, BAD_PITCH, HERE, TOO_FAR};
use std::collections::BTreeMap;

/// Asks for an arrow by both, and panics where they differ. Returns the arrow or
/// the number of the refusal.
pub fn same_arrow(sight: &Sight) -> Result<u8, u8> {
    let right = arrow(sight);
    let (Ok(number) | Err(number)) = right;
    assert_eq!(display::arrow(sight), u32::from(number), "{sight:?}");
    right
}

/// The signs of two differences that are not 0.
type Signs = (i64, i64);

const EVERY_SIGN: [Signs; 4] = [(1, 1), (-1, 1), (-1, -1), (1, -1)];

/// The arrows and refusals, and the signs that each comes with. Octants 1, 3, 5
/// and 7 ask for two quotients that are not 0. In 0, 2, 4 and 6 one of them may be
/// 0, and its difference has either sign then.
const ANSWERS: [(u8, &[Signs]); 11] = [
    (0, &[(1, 1), (1, -1)]),
    (1, &[(1, 1)]),
    (2, &[(1, 1), (-1, 1)]),
    (3, &[(-1, 1)]),
    (4, &[(-1, 1), (-1, -1)]),
    (5, &[(-1, -1)]),
    (6, &[(-1, -1), (1, -1)]),
    (7, &[(1, -1)]),
    (HERE, &EVERY_SIGN),
    (BAD_PITCH, &EVERY_SIGN),
    (TOO_FAR, &EVERY_SIGN),
];

/// How many answers were seen of each number, by the signs of the differences.
#[derive(Clone, Debug, Default)]
pub struct Seen {
    counts: BTreeMap<(u8, Signs), usize>,
}

impl Seen {
    /// Counts the answer to a sight, an arrow or the number of a refusal.
    pub fn see(&mut self, sight: &Sight, answer: Result<u8, u8>) {
        let (Ok(number) | Err(number)) = answer;
        let (dx, dy) = sight.differences();
        let signs = (dx.signum(), dy.signum());
        *self.counts.entry((number, signs)).or_default() += 1;
    }

    /// Panics unless each answer was seen so many times or more with all the signs
    /// that it can have, and never with others.
    #[track_caller]
    pub fn are_all(&self, least: usize) {
        assert!(least > 0);
        for (number, possible) in ANSWERS {
            for signs in EVERY_SIGN {
                let found = self.counts.get(&(number, signs)).copied().unwrap_or(0);
                let right = match possible.contains(&signs) {
                    true => found >= least,
                    false => found == 0,
                };
                assert!(right, "{number} with {signs:?}: {found}");
            }
        }
    }
}
